#include "stream.h"
#include "plain.h"
#include "plain_bucket.h"

#include <stdio.h>
#include <stdlib.h>
#include <string.h>

generator seeded(void)
{
    return (generator){88172645463325252u};
}

uint64_t drawn(generator *from)
{
    uint64_t x = from->state;
    x ^= x << 13;
    x ^= x >> 7;
    x ^= x << 17;
    return from->state = x;
}

const char *const wall_names[WALLS] = {"light", "half", "flagged", "young", "spread"};
const char *const wall_titles[WALLS] = {"light", "half full", "flagged", "young", "half full, spread 40503"};

wall_kind wall_named(const char *name)
{
    for (unsigned kind = 0; kind < WALLS; kind++)
        if (!strcmp(name, wall_names[kind]))
            return (wall_kind)kind;
    fprintf(stderr, "bench: no wall %s\n", name);
    exit(1);
}

size_t case_length(unsigned shape)
{
    return 4 + (size_t)BUCKETS * (WIDTH + shape + 1) + 65 * FULL;
}

uint64_t case_limit(unsigned shape)
{
    return ((uint64_t)1 << (WIDTH + (shape == 3 ? 17 : 18))) - 1;
}

uint64_t case_spread(wall_kind kind)
{
    return kind == SPREAD ? 40503 : 0;
}

static uint64_t *fresh_words(size_t length)
{
    uint64_t *words = calloc(length, sizeof *words);
    if (words == NULL) {
        fputs("bench: no memory\n", stderr);
        exit(1);
    }
    return words;
}

static bench_case empty_case(size_t length, size_t calls)
{
    return (bench_case){length, calls, fresh_words(length), fresh_words(calls), fresh_words(FLOWS)};
}

bench_case fresh_case(unsigned shape, wall_kind kind)
{
    return empty_case(case_length(shape), kind == YOUNG ? YOUNG_CALLS : CALLS);
}

static void need(bool done, const char *path)
{
    if (done)
        return;
    perror(path);
    exit(1);
}

bench_case read_case(const char *path)
{
    uint64_t sizes[2];
    FILE *file = fopen(path, "rb");
    need(file != NULL, path);
    need(fread(sizes, 8, 2, file) == 2, path);
    bench_case made = empty_case(sizes[0], sizes[1]);
    need(fread(made.words, 8, made.length, file) == made.length, path);
    need(fread(made.flows, 8, made.calls, file) == made.calls, path);
    need(fread(made.counts, 8, FLOWS, file) == FLOWS, path);
    fclose(file);
    return made;
}

void write_case(const bench_case *made, const char *path)
{
    uint64_t sizes[2] = {made->length, made->calls};
    FILE *file = fopen(path, "wb");
    need(file != NULL, path);
    need(fwrite(sizes, 8, 2, file) == 2, path);
    need(fwrite(made->words, 8, made->length, file) == made->length, path);
    need(fwrite(made->flows, 8, made->calls, file) == made->calls, path);
    need(fwrite(made->counts, 8, FLOWS, file) == FLOWS, path);
    need(fclose(file) == 0, path);
}

/* How many counters of the bucket are to use a level. */
static unsigned users(unsigned shape, unsigned level, unsigned bucket, wall_kind kind)
{
    unsigned entries = plain_levels[shape - 3][level - 2].entries;
    if (level == 2 && kind == FLAGGED && bucket % 16 == 0)
        return entries + 1;
    if (level <= 3)
        return entries / 2;
    return bucket % (level == 4 ? 8 : 64) == 0;
}

/*
 * The count of the place whose turn it is: it ends in the deepest level whose users number more than `turn`, near that level's beginning. Many of
 * level 1 are small.
 */
static uint64_t wanted_count(unsigned shape, unsigned bucket, wall_kind kind, unsigned turn, generator *from)
{
    unsigned begin = 0, next = WIDTH;
    if (kind == LIGHT)
        return 1 + drawn(from) % LIGHT_MOST;
    if (kind == YOUNG)
        return turn < 4;
    if (turn >= 32)
        return 0;
    for (unsigned level = 2; level <= shape && turn < users(shape, level, bucket, kind); level++) {
        begin = next;
        next += plain_levels[shape - 3][level - 2].width;
    }
    if (begin == 0)
        return 1 + drawn(from) % (1 + drawn(from) % ((1 << WIDTH) - 1));
    return ((uint64_t)1 << begin) + drawn(from) % ((uint64_t)1 << (begin - 2));
}

static void shuffled(unsigned places[64], generator *from)
{
    for (unsigned place = 0; place < 64; place++)
        places[place] = place;
    for (unsigned last = 63; last > 0; last--) {
        unsigned other = drawn(from) % (last + 1), held = places[last];
        places[last] = places[other];
        places[other] = held;
    }
}

void wanted_counts(unsigned shape, wall_kind kind, generator *from, uint64_t counts[FLOWS])
{
    static uint64_t flow_at[FLOWS]; /* by slot */
    unsigned places[64];
    for (uint64_t flow = 0; flow < FLOWS; flow++)
        flow_at[plain_slot(BITS, case_spread(kind), flow)] = flow;
    for (unsigned bucket = 0; bucket < BUCKETS; bucket++) {
        shuffled(places, from);
        for (unsigned turn = 0; turn < 64; turn++)
            counts[flow_at[bucket * 64 + places[turn]]] = wanted_count(shape, bucket, kind, turn, from);
    }
}

static bool in_flagged_bucket(const bench_case *made, uint64_t flow)
{
    unsigned shape = made->words[0] >> 40 & 0xff;
    uint64_t bucket = plain_slot(BITS, WALL_SPREAD(made->words), flow) / 64;
    return made->words[4 + bucket * (WIDTH + shape + 1) + WIDTH + shape] >> FLAG_BIT & 1;
}

void draw_calls(bench_case *made, generator *from)
{
    bool flagged = WALL_IN_USE(made->words) != 0;
    for (unsigned call = 0; call < made->calls;) {
        uint64_t flow = drawn(from) % FLOWS;
        if (flagged ? in_flagged_bucket(made, flow) : made->counts[flow] != 0)
            made->flows[call++] = flow;
    }
}
