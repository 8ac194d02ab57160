/*
 * The fixed stream: a generator with a fixed seed, the counts wanted of each flow, and the case that comes of them, kept in a file.
 */
#ifndef STREAM_H
#define STREAM_H

#include <stdbool.h>
#include <stddef.h>
#include <stdint.h>

enum { WIDTH = 7, BITS = 16, FULL = 128, FLOWS = 1 << BITS, BUCKETS = FLOWS / 64, CALLS = 20000, YOUNG_CALLS = 4000, LIGHT_MOST = 100 };

/* xorshift64 (shifts 13, 7, 17). */
typedef struct {
    uint64_t state;
} generator;

generator seeded(void);
uint64_t drawn(generator *from);

/* A wall as built, the flows that the measured calls name, and the counts of all flows. */
typedef struct {
    size_t length, calls;
    uint64_t *words, *flows, *counts;
} bench_case;

typedef enum { LIGHT, HALF, FLAGGED, YOUNG, SPREAD, WALLS } wall_kind;

/* What each is called by bench/run, and in its tables. */
extern const char *const wall_names[WALLS], *const wall_titles[WALLS];

/* The kind of that name; a name that is none ends the program. */
wall_kind wall_named(const char *name);

size_t case_length(unsigned shape);
uint64_t case_limit(unsigned shape);
uint64_t case_spread(wall_kind kind);
bench_case fresh_case(unsigned shape, wall_kind kind);
bench_case read_case(const char *path);
void write_case(const bench_case *made, const char *path);

/*
 * The counts wanted of each flow. Light: every place is counted, to a number from 1 to 100, so that no count goes above level 1, not over the
 * measured increments either, and the total is far above what level 1 of a bucket has room for. Half full: in each bucket half of the places are
 * counted; of the entries of levels 2 and 3 half, rounded down, are in use. Levels 4 and 5 are used less, since each entry there stands for
 * thousands of increments: one of level 4 in one bucket in 8, one of level 5 in one in 64. Flagged: the same, and one bucket in 16 has one counter
 * more for level 2 than it has entries, so that 64 full-size buckets come into use. Young: four places of each bucket are counted once. The total
 * is less than level 1 of a bucket has room for, and stays so over the measured calls. Spread: the counts of half full at the same slots, and so the
 * same buckets; the flows that stand there are other ones.
 */
void wanted_counts(unsigned shape, wall_kind kind, generator *from, uint64_t counts[FLOWS]);

/* The flows that the measured calls name: counted ones, or, in a wall with flagged buckets, any of theirs. */
void draw_calls(bench_case *made, generator *from);

#endif
