#include "agree.h"
#include "plain.h"

#include <inttypes.h>
#include <stdio.h>
#include <stdlib.h>
#include <string.h>

enum { NUMBERS = WALL_BAD_SPREAD + 1 };

static unsigned long answered[NUMBERS];

static uint64_t same(const char *call, uint64_t argument, wall_answer proved, wall_answer plain)
{
    if (proved.number != plain.number || proved.value != plain.value || proved.number >= NUMBERS) {
        fprintf(stderr, "bench: %s(%" PRIu64 "): the proved store answers %" PRIu64 " and %" PRIu64, call, argument, proved.number, proved.value);
        fprintf(stderr, ", the plain one %" PRIu64 " and %" PRIu64 "\n", plain.number, plain.value);
        abort();
    }
    answered[proved.number]++;
    return proved.number;
}

void agree_words(const pair *both)
{
    for (size_t n = 0; n < both->length; n++)
        if (both->proved[n] != both->plain[n]) {
            fprintf(stderr, "bench: word %zu: the proved store leaves %" PRIx64, n, both->proved[n]);
            fprintf(stderr, " hex, the plain one %" PRIx64 "\n", both->plain[n]);
            abort();
        }
}

void agree_raise(pair *both, uint64_t shape, uint64_t width, uint64_t bits, uint64_t limit, uint64_t full, uint64_t spread)
{
    same("raise", shape, wall_raise(both->proved, both->length, shape, width, bits, limit, full, spread),
         plain_raise(both->plain, both->length, shape, width, bits, limit, full, spread));
    agree_words(both);
}

uint64_t agree_lookup(pair *both, uint64_t flow)
{
    wall_answer proved = wall_lookup(both->proved, both->length, flow);
    same("lookup", flow, proved, plain_lookup(both->plain, both->length, flow));
    return proved.value;
}

uint64_t agree_increment(pair *both, uint64_t flow)
{
    return same("increment", flow, wall_increment(both->proved, both->length, flow), plain_increment(both->plain, both->length, flow));
}

uint64_t agree_check(pair *both)
{
    return same("check", 0, wall_check(both->proved, both->length), plain_check(both->plain, both->length));
}

/* A list of this many words, at most two for each flow; one word more has to stay as it is too. */
uint64_t agree_busy(pair *both, uint64_t floor, size_t list_length)
{
    static uint64_t proved[2 * FLOWS + 1], plain[2 * FLOWS + 1];
    pair lists = {list_length + 1, proved, plain};
    memset(proved, 0x5c, lists.length * sizeof *proved);
    memset(plain, 0x5c, lists.length * sizeof *plain);
    uint64_t number = same("busy", floor, wall_busy(both->proved, both->length, floor, proved, list_length),
                           plain_busy(both->plain, both->length, floor, plain, list_length));
    agree_words(&lists);
    return number;
}

void agree_close(pair *both)
{
    same("close", 0, wall_close(both->proved, both->length), plain_close(both->plain, both->length));
    agree_words(both);
}

/* Flows in drawn order, each in bursts of at most 256, until each has its count. */
static void play(pair *both, const uint64_t counts[FLOWS], generator *from)
{
    static uint64_t left[FLOWS], flows[FLOWS];
    size_t waiting = 0;
    memcpy(left, counts, sizeof left);
    for (uint64_t flow = 0; flow < FLOWS; flow++)
        if (left[flow] != 0)
            flows[waiting++] = flow;
    while (waiting != 0) {
        size_t turn = drawn(from) % waiting;
        uint64_t flow = flows[turn], burst = 1 + drawn(from) % 256;
        for (; burst != 0 && left[flow] != 0; burst--, left[flow]--)
            if (agree_increment(both, flow) != WALL_DONE)
                abort();
        if (left[flow] == 0)
            flows[turn] = flows[--waiting];
    }
}

/* The measured calls themselves, on a wall that is then closed. A light wall has to stay one. */
static void rehearse(pair *both, const bench_case *made, wall_kind kind)
{
    for (unsigned call = 0; call < made->calls; call++)
        if (agree_increment(both, made->flows[call]) != WALL_DONE)
            abort();
    agree_words(both);
    for (uint64_t flow = 0; kind == LIGHT && flow < FLOWS; flow++)
        if (agree_lookup(both, flow) >> WIDTH != 0)
            abort();
    if (agree_check(both) != WALL_DONE)
        abort();
    agree_close(both);
}

/* All flows, those that go on above level 1 and none; all in one word too few. */
static void agree_lists(pair *both)
{
    const uint64_t floors[] = {0, 1 << WIDTH, UINT64_MAX};
    for (unsigned n = 0; n < 3; n++)
        if (agree_busy(both, floors[n], 2 * FLOWS) != WALL_DONE)
            abort();
    if (agree_busy(both, 0, 2 * FLOWS - 1) != WALL_LIST_SHORT)
        abort();
    agree_words(both);
}

void build_case(unsigned shape, wall_kind kind, const char *path)
{
    generator from = seeded();
    bench_case made = fresh_case(shape, kind), other = fresh_case(shape, kind);
    pair both = {made.length, made.words, other.words};
    agree_raise(&both, shape, WIDTH, BITS, case_limit(shape), FULL, case_spread(kind));
    wanted_counts(shape, kind, &from, made.counts);
    play(&both, made.counts, &from);
    agree_words(&both);
    for (uint64_t flow = 0; flow < FLOWS; flow++)
        if (agree_lookup(&both, flow) != made.counts[flow])
            abort();
    if (agree_check(&both) != WALL_DONE || WALL_IN_USE(made.words) != (kind == FLAGGED ? BUCKETS / 16 : 0))
        abort();
    agree_lists(&both);
    draw_calls(&made, &from);
    write_case(&made, path);
    uint64_t increments = WALL_TOTAL(made.words), used = WALL_IN_USE(made.words);
    rehearse(&both, &made, kind);
    printf("- Shape %u, %s: %" PRIu64 " increments, ", shape, wall_titles[kind], increments);
    printf("%" PRIu64 " full-size buckets in use: the same answers and the same words.\n", used);
}

/* A value that is mostly in bounds, sometimes just out of them, sometimes any word. */
static uint64_t about(generator *from, uint64_t low, uint64_t high)
{
    uint64_t kind = drawn(from) % 64;
    if (kind == 0)
        return drawn(from);
    return low + drawn(from) % (high - low + 1) + (kind == 1) * (high - low + 1);
}

/* One to three words damaged: a bit turned, a field moved by one, or another word. The same in both walls. */
static void damage(pair *both, generator *from)
{
    for (uint64_t times = drawn(from) % 4; times != 0; times--) {
        size_t n = drawn(from) % 8 == 0 ? drawn(from) % 4 : drawn(from) % both->length;
        uint64_t kind = drawn(from) % 4, bit = (uint64_t)1 << drawn(from) % 64;
        uint64_t word = both->proved[n];
        word = kind == 0 ? word + bit : kind == 1 ? word - bit : kind == 2 ? word ^ bit : both->proved[drawn(from) % both->length];
        both->proved[n] = both->plain[n] = word;
    }
}

static void agree_on_one(pair *both, generator *from)
{
    uint64_t shape = about(from, 3, 5), width = drawn(from) % 4 == 0 ? about(from, 8, 16) : about(from, 0, 6);
    uint64_t bits = about(from, 6, 7), full = about(from, 0, 2);
    uint64_t spread = drawn(from) % 2 == 0 ? 0 : about(from, 0, 63) | (drawn(from) % 16 != 0);
    uint64_t words = 4 + (bits == 7 ? 2 : 1) * ((width == 0 ? 7 : width) + shape + 1) + 65 * full;
    both->length = words <= 1024 ? words : 74;
    agree_raise(both, shape, width, bits, about(from, 1, 4000), full, spread);
    for (unsigned turn = 0; turn < 3; turn++) {
        uint64_t mask = drawn(from) & 127;
        for (unsigned call = 0; call < 600; call++)
            agree_increment(both, drawn(from) & (drawn(from) | 15) & mask);
        damage(both, from);
        agree_check(both);
        agree_busy(both, about(from, 0, 15), drawn(from) % (2 * 128 + 1));
        for (unsigned call = 0; call < 8; call++) {
            agree_lookup(both, about(from, 0, 127));
            agree_increment(both, about(from, 0, 127));
        }
        agree_words(both);
    }
    agree_close(both);
}

void agree_on_damage(void)
{
    enum { TRIALS = 2000, MOST_WORDS = 1024 };
    static uint64_t proved[MOST_WORDS], plain[MOST_WORDS];
    pair both = {MOST_WORDS, proved, plain};
    generator from = seeded();
    for (unsigned trial = 0; trial < TRIALS; trial++)
        agree_on_one(&both, &from);
    printf("- Damaged words: the same answers and the same words. Answers by number:");
    for (unsigned number = 0; number < NUMBERS; number++)
        printf(" %u: %lu%s", number, answered[number], number < NUMBERS - 1 ? "," : ".\n");
}
