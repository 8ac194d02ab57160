/*
 * The stack of each call over a wall, beyond its return address. The walls are written word by word as docs/WALL.md has them, with spread 0 and with an odd
 * one. Prints the most bytes of each call at each shape; the exit status is 1 where one reaches the line, or where a call does not answer what is expected
 * of it.
 *
 * STORE is the prefix of the six calls.
 */
#include "painted.h"
#include "wall.h"

#include <inttypes.h>
#include <stdio.h>
#include <stdlib.h>
#include <string.h>

#ifndef STORE
#define STORE wall
#endif
#define JOINED(store, call) store##_##call
#define NAMED(store, call) JOINED(store, call)
#define CALL(call) NAMED(STORE, call)

enum { SHAPES = 3, RAISE = 0, LOOKUP, INCREMENT, CHECK, BUSY, CLOSE, CALL_KINDS };

/* Two buckets; the second has the counts. */
enum { HEAD_WORDS = 4, PLACES = 64, BITS = 7, BUCKETS = 2, BUCKET = 1, FULL = 2, FLOWS = 1 << BITS, FULL_WORDS = 65 };
enum { MOST_WORDS = WALL_WORDS(WALL_MAX_SHAPE, WALL_MAX_WIDTH, BITS, FULL) };

#define ONE ((uint64_t)1)

static const char *const names[CALL_KINDS] = {"raise", "lookup", "increment", "check", "busy", "close"};

/* Entries and widths of levels 2 and up, by shape - 3 and level - 2. */
static const unsigned entries[SHAPES][4] = {{15, 3}, {25, 10, 2}, {25, 10, 3, 1}};
static const unsigned widths[SHAPES][4] = {{4, 13}, {2, 4, 12}, {2, 3, 4, 9}};

typedef struct {
    wall_answer (*raise)(uint64_t *, size_t, uint64_t, uint64_t, uint64_t, uint64_t, uint64_t, uint64_t);
    wall_answer (*lookup)(const uint64_t *, size_t, uint64_t);
    wall_answer (*increment)(uint64_t *, size_t, uint64_t);
    wall_answer (*check)(const uint64_t *, size_t);
    wall_answer (*busy)(const uint64_t *, size_t, uint64_t, uint64_t *, size_t);
    wall_answer (*close)(uint64_t *, size_t);
} calls;

#define UNUSED __attribute__((unused))

static wall_answer no_raise(uint64_t *w UNUSED, size_t n UNUSED, uint64_t s UNUSED, uint64_t d UNUSED, uint64_t b UNUSED, uint64_t m UNUSED,
                            uint64_t j UNUSED, uint64_t spread_asked UNUSED)
{
    return (wall_answer){0, 0};
}

static wall_answer no_lookup(const uint64_t *w UNUSED, size_t n UNUSED, uint64_t flow UNUSED)
{
    return (wall_answer){0, 0};
}

static wall_answer no_increment(uint64_t *w UNUSED, size_t n UNUSED, uint64_t flow UNUSED)
{
    return (wall_answer){0, 0};
}

static wall_answer no_check(const uint64_t *w UNUSED, size_t n UNUSED)
{
    return (wall_answer){0, 0};
}

static wall_answer no_busy(const uint64_t *w UNUSED, size_t n UNUSED, uint64_t floor UNUSED, uint64_t *list UNUSED, size_t m UNUSED)
{
    return (wall_answer){0, 0};
}

static wall_answer no_close(uint64_t *w UNUSED, size_t n UNUSED)
{
    return (wall_answer){0, 0};
}

static const calls measured = {CALL(raise), CALL(lookup), CALL(increment), CALL(check), CALL(busy), CALL(close)};
static const calls empty = {no_raise, no_lookup, no_increment, no_check, no_busy, no_close};

/* The wall, the arguments of a raise, the list and the least count of a busy list, and the call under way. */
static uint64_t words[MOST_WORDS], shape, width, bits, limit, full, spread, flow, list[2 * FLOWS], listed_from;
static size_t length, list_length;
static const calls *volatile by;
static unsigned kind;
static volatile wall_answer came;

static size_t most[CALL_KINDS][SHAPES];

static void make_call(void)
{
    switch (kind) {
    case RAISE:
        came = by->raise(words, length, shape, width, bits, limit, full, spread);
        break;
    case LOOKUP:
        came = by->lookup(words, length, flow);
        break;
    case INCREMENT:
        came = by->increment(words, length, flow);
        break;
    case CHECK:
        came = by->check(words, length);
        break;
    case BUSY:
        came = by->busy(words, length, listed_from, list, list_length);
        break;
    default:
        came = by->close(words, length);
    }
}

static size_t depth(const calls *calls_of)
{
    by = calls_of;
    return painted_depth(make_call);
}

/* The wall's own shape, width and spread: a refused raise has others in its arguments. */
static unsigned levels, first_width;
static uint64_t own_spread;

/* A call, which answers this number, and its stack, if it is the most yet. */
static void take(unsigned call, uint64_t number)
{
    kind = call;
    size_t bare = depth(&empty), took = depth(&measured);
    if (came.number != number) {
        fprintf(stderr, "stack: %s, shape %u, width %u, spread %" PRIu64 ": expected %" PRIu64 ", came %" PRIu64 "\n", names[call], levels, first_width,
                own_spread, number, came.number);
        exit(1);
    }
    if (took - bare > most[call][levels - 3])
        most[call][levels - 3] = took - bare;
}

static void take_value(unsigned call, uint64_t value)
{
    take(call, WALL_DONE);
    if (came.value != value) {
        fprintf(stderr, "stack: %s, shape %u, width %u, spread %" PRIu64 ": expected the value %" PRIu64 ", came %" PRIu64 "\n", names[call], levels,
                first_width, own_spread, value, came.value);
        exit(1);
    }
}

static unsigned entries_of(unsigned level)
{
    return level == 1 ? PLACES : entries[levels - 3][level - 2];
}

static unsigned width_of(unsigned level)
{
    return level == 1 ? first_width : widths[levels - 3][level - 2];
}

/* The least count that uses a level. */
static uint64_t least(unsigned level)
{
    unsigned begin = 0;
    for (unsigned below = 1; below < level; below++)
        begin += width_of(below);
    return ONE << begin;
}

/* By the bits in reverse order, or by the product. */
static uint64_t slot_of(uint64_t of_flow)
{
    uint64_t reversed = 0;
    for (unsigned bit = 0; bit < BITS; bit++)
        reversed |= (of_flow >> bit & 1) << (BITS - 1 - bit);
    return own_spread == 0 ? reversed : of_flow * own_spread % FLOWS;
}

/* The flow at a place of the bucket with the counts. */
static uint64_t flow_at(unsigned place)
{
    uint64_t at = 0;
    while (slot_of(at) != BUCKET * PLACES + place)
        at++;
    return at;
}

static void raised(uint64_t of_full)
{
    shape = levels;
    width = first_width;
    bits = BITS;
    limit = least(levels + 1) - 1;
    full = of_full;
    spread = own_spread;
    length = WALL_WORDS(shape, width, bits, full);
    take(RAISE, WALL_DONE);
}

static uint64_t *bucket_words(void)
{
    return words + HEAD_WORDS + BUCKET * (first_width + levels + 1);
}

static void put_bits(uint64_t *at, unsigned from, unsigned count, uint64_t value)
{
    for (unsigned bit = 0; bit < count; bit++)
        at[(from + bit) / 64] |= (value >> bit & 1) << (from + bit) % 64;
}

/* The bucket of these counts and their total, in a fresh wall. */
static void write_counts(const uint64_t counts[PLACES])
{
    uint64_t *bucket = bucket_words(), left[PLACES];
    unsigned users = PLACES, mark_bit = 0;
    memcpy(left, counts, sizeof left);
    for (unsigned place = 0; place < PLACES; place++)
        words[2] += counts[place];
    for (unsigned level = 1; level <= levels; level++) {
        uint64_t *at = level == 1 ? bucket : bucket + first_width + level - 1, marks = 0;
        unsigned bits_each = width_of(level), going = 0;
        for (unsigned entry = 0; entry < users; entry++) {
            put_bits(at, entry * bits_each, bits_each, left[entry]);
            if (left[entry] >> bits_each) {
                marks |= ONE << entry;
                left[going++] = left[entry] >> bits_each;
            }
        }
        users = going;
        if (level == 1)
            bucket[first_width] = marks;
        else {
            bucket[first_width + levels] |= marks << mark_bit;
            mark_bit += entries_of(level);
        }
    }
}

/* A refusal for each reason that a raise has, and then the wall of the good arguments. */
static void raises(void)
{
    raised(FULL);
    shape = 6, take(RAISE, WALL_BAD_SHAPE), shape = levels;
    width = WALL_MAX_WIDTH + 1, take(RAISE, WALL_BAD_WIDTH), width = first_width;
    bits = 5, take(RAISE, WALL_BAD_BITS), bits = BITS;
    limit++, take(RAISE, WALL_BAD_LIMIT), limit--;
    full = BUCKETS + 1, take(RAISE, WALL_BAD_FULL), full = FULL;
    spread = 2, take(RAISE, WALL_BAD_SPREAD), spread = own_spread;
    spread = FLOWS + 1, take(RAISE, WALL_BAD_SPREAD), spread = own_spread;
    length--, take(RAISE, WALL_BAD_LENGTH), length++;
    raised(FULL);
}

/* All flows listed, all refused for one word too few, and none listed. */
static void lists(void)
{
    listed_from = 0, list_length = 2 * FLOWS, take_value(BUSY, FLOWS);
    list_length--, take(BUSY, WALL_LIST_SHORT), list_length++;
    listed_from = UINT64_MAX, take_value(BUSY, 0);
}

/* The calls over a wall as it stands, at one place, and those over all of it. */
static void all_at(unsigned place, uint64_t count)
{
    flow = flow_at(place);
    take_value(LOOKUP, count);
    take_value(INCREMENT, count + 1);
    take_value(LOOKUP, count + 1);
    take_value(CHECK, 0);
    lists();
}

static void all_refused(uint64_t number)
{
    take(LOOKUP, number);
    take(INCREMENT, number);
    take(CHECK, number);
    take(BUSY, number);
}

static void bad_headers_and_flows(void)
{
    raised(FULL);
    flow = FLOWS;
    take(LOOKUP, WALL_NO_FLOW);
    take(INCREMENT, WALL_NO_FLOW);
    for (unsigned turn = 0; turn < 3; turn++) {
        uint64_t word = words[turn];
        words[turn] = ~word;
        all_refused(WALL_BAD_HEADER);
        take(CLOSE, WALL_BAD_HEADER);
        words[turn] = word;
    }
    words[3] ^= ONE << 63; /* no spread has it */
    all_refused(WALL_BAD_HEADER);
    take(CLOSE, WALL_BAD_HEADER);
    words[3] ^= ONE << 63;
    length--;
    all_refused(WALL_BAD_HEADER);
    take(CLOSE, WALL_BAD_HEADER);
    length++;
    take(CLOSE, WALL_DONE);
}

/* A bucket with counters in every level, at the edge of each: a carry into this level, which has room. */
static void carry_into(unsigned level)
{
    uint64_t counts[PLACES] = {0};
    enum { LOW = 3, CARRIED = 5, HIGH = 9 };
    raised(FULL);
    counts[LOW] = 1;
    counts[CARRIED] = least(level) - 1;
    counts[HIGH] = entries_of(level) > 1 ? least(level) : 0;
    write_counts(counts);
    all_at(CARRIED, least(level) - 1);
    all_at(LOW, 1);
    all_at(HIGH, counts[HIGH]);
    take(CLOSE, WALL_DONE);
}

/* Words that are damaged after a level was used, and a total that is too small, at its limit, or too large. */
static void damaged(unsigned level)
{
    uint64_t counts[PLACES] = {least(level), 1}, *last = bucket_words() + first_width + levels - 1, *packed = last + 1;
    raised(FULL);
    write_counts(counts);
    flow = flow_at(0);
    *last ^= ONE << 63, all_refused(WALL_UNSOUND), *last ^= ONE << 63;
    *packed ^= ONE << 47, all_refused(WALL_UNSOUND), *packed ^= ONE << 47;
    *packed ^= ONE << 40, all_refused(WALL_UNSOUND), *packed ^= ONE << 40;
    words[2]--, all_refused(WALL_UNSOUND), words[2]++;
    words[1] = words[2], take(INCREMENT, WALL_AT_LIMIT), words[1] = limit;
    words[2]++, take(CHECK, WALL_UNSOUND_WALL), take(BUSY, WALL_UNSOUND_WALL), words[2]--;
    take(CHECK, WALL_DONE);
}

enum { OVERFLOWING = 40 };

/* A level with all its entries in use, and a counter that comes to its edge. */
static void write_crowd(unsigned level, uint64_t of_full)
{
    uint64_t counts[PLACES] = {0};
    raised(of_full);
    for (unsigned place = 0; place < entries_of(level); place++)
        counts[place] = least(level);
    counts[OVERFLOWING] = least(level) - 1;
    write_counts(counts);
}

/* An overflow, refused without full-size buckets; then a flagged bucket, of which one place is moved, then two, then all. */
static void overflow_of(unsigned level)
{
    write_crowd(level, 0);
    flow = flow_at(OVERFLOWING);
    take(INCREMENT, WALL_NO_FULL);
    write_crowd(level, FULL);
    all_at(OVERFLOWING, least(level) - 1);
    all_at(OVERFLOWING, least(level));
    all_at(0, least(level));
    if (words[3] != (own_spread << 32 | ONE << 16 | FULL)) {
        fprintf(stderr, "stack: shape %u, width %u, spread %" PRIu64 ": no overflow into level %u\n", levels, first_width, own_spread, level);
        exit(1);
    }
    for (unsigned place = 0; place < PLACES; place++) {
        flow = flow_at(place);
        take(LOOKUP, WALL_DONE);
        take_value(INCREMENT, came.value + 1);
    }
    take(CHECK, WALL_DONE);
    lists();
    uint64_t *held = words + length - FULL * FULL_WORDS + PLACES, count = *held;
    *held = 0, all_refused(WALL_UNSOUND), *held = count;
    words[2]--, all_refused(WALL_UNSOUND), words[2]++;
    take(CLOSE, WALL_DONE);
}

static void walls_of(unsigned of_shape, unsigned of_width, uint64_t of_spread)
{
    levels = of_shape;
    first_width = of_width;
    own_spread = of_spread;
    raises();
    all_at(0, 0);
    bad_headers_and_flows();
    for (unsigned level = 2; level <= levels; level++) {
        carry_into(level);
        damaged(level);
        overflow_of(level);
    }
}

int main(void)
{
    size_t highest = 0, rows = 0;
    for (unsigned of_shape = 3; of_shape <= WALL_MAX_SHAPE; of_shape++)
        for (unsigned turn = 0; turn < 2; turn++) {
            uint64_t of_spread = turn == 0 ? 0 : 45;
            walls_of(of_shape, 7, of_spread);
            walls_of(of_shape, 1, of_spread);
            walls_of(of_shape, WALL_MAX_WIDTH, of_spread);
        }
    printf("%-10s %8s %8s %8s\n", "call", "shape 3", "shape 4", "shape 5");
    for (unsigned call = 0; call < CALL_KINDS; call++) {
        printf("%-10s %8zu %8zu %8zu\n", names[call], most[call][0], most[call][1], most[call][2]);
        for (unsigned of_shape = 3; of_shape <= WALL_MAX_SHAPE; of_shape++, rows++) {
            size_t took = most[call][of_shape - 3];
            if (took >= WALL_STACK)
                fprintf(stderr, "stack: %s takes %zu bytes at shape %u, and has to stay below %d\n", names[call], took, of_shape, WALL_STACK);
            if (took > highest)
                highest = took;
        }
    }
    printf("stack: %zu rows, the most %zu of %d bytes\n", rows, highest, WALL_STACK);
    return highest >= WALL_STACK;
}
