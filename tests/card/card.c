/*
 * The card's calls from C: the worked example of docs/WALL.md, the bucket of each row; each of the six calls accepted and refused, with spread 0 and with
 * odd ones; the header's sizes, limits and readers, both sides of each. A check that fails prints the line, what was expected and what came; then the exit
 * status is 1.
 */
#include "wall.h"

#include <inttypes.h>
#include <stdio.h>
#include <string.h>

enum { LENGTH = WALL_WORDS(3, 1, 6, 0), FULL_LENGTH = WALL_WORDS(3, 1, 6, 1), A1 = 4, I1, A2, A3, PACKED, MOVED };
enum { FLOWS = 64, ALL = 2 * FLOWS };

#define KEPT UINT64_C(0x5CA1AB1E5CA1AB1E)

_Static_assert(LENGTH == 9 && FULL_LENGTH == 74, "the worked example");
_Static_assert(WALL_WORDS(WALL_MAX_SHAPE, WALL_MAX_WIDTH, WALL_MAX_BITS, WALL_MAX_FULL) == 1708036, "the largest wall");
_Static_assert(WALL_MIN_WIDTH == 1, "0 asks for the default");
_Static_assert(WALL_WORDS(1 | 2, 1 ? 1 : 0, 4 | 2, 0 ? 0 : 1) == 74 && WALL_MAX_LIMIT(1 | 2, 1 ? 7 : 0) == 16777215, "expressions as arguments");
_Static_assert(WALL_MAX_LIMIT(3, WALL_DEFAULT_WIDTH) == 16777215 && WALL_MAX_LIMIT(5, 16) == UINT64_C(17179869183), "as docs/WALL.md has them");

static unsigned long checks, failures;

static void same(int line, const char *what, uint64_t came, uint64_t expected)
{
    checks++;
    if (came == expected)
        return;
    failures++;
    fprintf(stderr, "card: line %d: %s: expected %" PRIx64 " hex, came %" PRIx64 " hex\n", line, what, expected, came);
}

static void judge(int line, wall_answer came, uint64_t number, uint64_t value)
{
    same(line, "number", came.number, number);
    same(line, "value", came.value, value);
}

static void bucket(int line, const uint64_t *words, uint64_t a1, uint64_t i1, uint64_t a2, uint64_t a3, uint64_t packed)
{
    same(line, "A1", words[A1], a1);
    same(line, "I1", words[I1], i1);
    same(line, "A2", words[A2], a2);
    same(line, "A3", words[A3], a3);
    same(line, "packed", words[PACKED], packed);
}

/* The total and word 3, as words and by the readers. */
static void header(int line, const uint64_t *words, uint64_t total, uint64_t full, uint64_t in_use, uint64_t spread)
{
    same(line, "word 2", words[2], total);
    same(line, "word 3", words[3], full | in_use << 16 | spread << 32);
    same(line, "total", WALL_TOTAL(words), total);
    same(line, "U", WALL_IN_USE(words), in_use);
    same(line, "spread", WALL_SPREAD(words), spread);
}

/* A busy list in this many words, and one more: the entries expected stand at its start, every other word is kept, and so is the wall. */
static void listed(int line, const uint64_t *words, size_t length, uint64_t floor, size_t list_length, uint64_t number, const uint64_t *entries,
                   size_t flows)
{
    uint64_t list[2 * ALL + 1], before[FULL_LENGTH];
    memcpy(before, words, length * sizeof *words);
    for (size_t n = 0; n < list_length + 1; n++)
        list[n] = KEPT;
    judge(line, wall_busy(words, length, floor, list, list_length), number, flows);
    for (size_t n = 0; n < list_length + 1; n++)
        same(line, "list", list[n], n < 2 * flows ? entries[n] : KEPT);
    same(line, "words left", (uint64_t)memcmp(before, words, length * sizeof *words), 0);
}

#define JUDGE(call, number, value) judge(__LINE__, call, number, value)
#define SAME(what, came, expected) same(__LINE__, what, came, expected)
#define BUCKET(words, a1, i1, a2, a3, packed) bucket(__LINE__, words, a1, i1, a2, a3, packed)
#define HEADER(words, total, full, in_use, spread) header(__LINE__, words, total, full, in_use, spread)
#define LISTED(words, length, floor, list_length, entries, flows) listed(__LINE__, words, length, floor, list_length, WALL_DONE, entries, flows)
#define UNLISTED(words, length, floor, list_length, number) listed(__LINE__, words, length, floor, list_length, number, NULL, 0)

/* A flow comes from one count to another. */
static void rises(uint64_t *words, size_t length, uint64_t flow, uint64_t from, uint64_t to)
{
    for (uint64_t count = from + 1; count <= to; count++)
        JUDGE(wall_increment(words, length, flow), WALL_DONE, count);
    JUDGE(wall_lookup(words, length, flow), WALL_DONE, to);
    JUDGE(wall_check(words, length), WALL_DONE, 0);
}

static void worked_example(uint64_t *words)
{
    const uint64_t place_of_1 = UINT64_C(1) << 32, place_of_2 = UINT64_C(1) << 16, both = place_of_1 | place_of_2;

    JUDGE(wall_raise(words, LENGTH, 3, 1, 6, 100, 0, 0), WALL_DONE, 0);
    rises(words, LENGTH, 1, 0, 31);
    BUCKET(words, place_of_1, place_of_1, 15, 0, 0);
    rises(words, LENGTH, 1, 31, 32);
    BUCKET(words, 0, place_of_1, 0, 1, 1);
    rises(words, LENGTH, 2, 0, 2);
    BUCKET(words, 0, both, 1, 1, 2);

    JUDGE(wall_raise(words, LENGTH, 3, 1, 6, 100, 0, 0), WALL_DONE, 0);
    SAME("word 0", words[0], UINT64_C(0x06010300014C5742));
    BUCKET(words, 0, 0, 0, 0, 0);
    rises(words, LENGTH, 1, 0, 2);
    BUCKET(words, 0, place_of_1, 1, 0, 0);
    rises(words, LENGTH, 2, 0, 2);
    BUCKET(words, 0, both, 0x11, 0, 0);
    rises(words, LENGTH, 1, 2, 5);
    BUCKET(words, place_of_1, both, 0x21, 0, 0);
    SAME("total", WALL_TOTAL(words), 7);
}

/* The worked example's wall: flow 1 has come to 5, flow 2 to 2. */
static void busy(const uint64_t *words)
{
    uint64_t all[ALL] = {0};
    const uint64_t both[] = {1, 5, 2, 2};
    for (uint64_t flow = 0; flow < FLOWS; flow++)
        all[2 * flow] = flow;
    all[2 * 1 + 1] = 5;
    all[2 * 2 + 1] = 2;
    LISTED(words, LENGTH, 0, ALL, all, FLOWS);
    LISTED(words, LENGTH, 0, ALL + 1, all, FLOWS);
    LISTED(words, LENGTH, 1, 4, both, 2);
    LISTED(words, LENGTH, 1, 5, both, 2);
    LISTED(words, LENGTH, 2, ALL, both, 2);
    LISTED(words, LENGTH, 3, 2, both, 1);
    LISTED(words, LENGTH, 5, 3, both, 1);
    LISTED(words, LENGTH, 6, 2, NULL, 0);
    LISTED(words, LENGTH, UINT64_C(1) << 32, ALL, NULL, 0);
    LISTED(words, LENGTH, UINT64_MAX, ALL, NULL, 0);
    UNLISTED(words, LENGTH, 0, ALL - 1, WALL_LIST_SHORT);
    UNLISTED(words, LENGTH, 1, 3, WALL_LIST_SHORT);
    UNLISTED(words, LENGTH, 5, 1, WALL_LIST_SHORT);
    UNLISTED(words, LENGTH - 1, 1, 4, WALL_BAD_HEADER);
    UNLISTED(words, LENGTH - 1, 1, 0, WALL_BAD_HEADER);
    JUDGE(wall_busy(words, LENGTH, 6, NULL, 0), WALL_DONE, 0);
    JUDGE(wall_busy(words, LENGTH, 5, NULL, 0), WALL_LIST_SHORT, 0);
    JUDGE(wall_busy(NULL, 0, 0, NULL, 0), WALL_BAD_HEADER, 0);
    for (uint64_t floor = 1; floor <= 8; floor++) /* as long as the header says is enough; at floor 5 not a word more than needed */
        JUDGE(wall_busy(words, LENGTH, floor, all, 2 * (WALL_TOTAL(words) / floor)), WALL_DONE, floor <= 2 ? 2 : floor <= 5);
}

/* Two buckets: their flows are listed in turn, and a busy list does not say which of them is not sound. */
static void two_buckets(void)
{
    enum { LENGTH_OF_TWO = WALL_WORDS(3, 1, 7, 0), SECOND = 5 };
    uint64_t words[LENGTH_OF_TWO];
    const uint64_t entries[] = {0, 1, 1, 2, 126, 2, 127, 1};
    JUDGE(wall_raise(words, LENGTH_OF_TWO, 3, 1, 7, 100, 0, 0), WALL_DONE, 0);
    for (size_t n = 0; n < 8; n += 2)
        rises(words, LENGTH_OF_TWO, entries[n], 0, entries[n + 1]);
    LISTED(words, LENGTH_OF_TWO, 1, 8, entries, 4);
    words[SECOND + A2] |= 0x100;
    JUDGE(wall_check(words, LENGTH_OF_TWO), WALL_UNSOUND, 1);
    UNLISTED(words, LENGTH_OF_TWO, 1, 8, WALL_UNSOUND);
}

/* The flows at the sixteen places that are multiples of 4: every `stride`-th from flow 0, which is at place 0. The last to come to 2 is at place 60. */
static void overflow(uint64_t spread, uint64_t stride, uint64_t last)
{
    static uint64_t words[FULL_LENGTH];
    const uint64_t sixteenth = UINT64_C(1) << 60, others = UINT64_C(0x111111111111111), flag = UINT64_C(1) << 40;
    uint64_t entries[2 * 16];
    JUDGE(wall_raise(words, FULL_LENGTH, 3, 1, 6, 100, 1, spread), WALL_DONE, 0);
    for (uint64_t n = 0; n < 16; n++) {
        entries[2 * n] = n * stride, entries[2 * n + 1] = 2;
        rises(words, FULL_LENGTH, n * stride, 0, n * stride == last ? 1 : 2);
    }
    BUCKET(words, sixteenth, others, others, 0, 0);
    HEADER(words, 31, 1, 0, spread);
    rises(words, FULL_LENGTH, last, 1, 2);
    BUCKET(words, sixteenth, others, others, 0, flag);
    SAME("moved flags", words[MOVED], sixteenth);
    SAME("place 60", words[MOVED + 1 + 60], 2);
    HEADER(words, 32, 1, 1, spread);
    rises(words, FULL_LENGTH, 0, 2, 3);
    BUCKET(words, sixteenth, others, others, 0, flag);
    SAME("moved flags", words[MOVED], sixteenth | 1);
    SAME("place 0", words[MOVED + 1], 3);
    SAME("place 60", words[MOVED + 1 + 60], 2);
    HEADER(words, 33, 1, 1, spread);
    entries[1] = 3;
    LISTED(words, FULL_LENGTH, 2, 2 * 16, entries, 16);
    LISTED(words, FULL_LENGTH, 3, 3, entries, 1);
    JUDGE(wall_close(words, FULL_LENGTH), WALL_DONE, 0);
    HEADER(words, 0, 1, 0, spread);
}

/* Each refusal leaves the words as they were. */
static void refusals(uint64_t *words)
{
    uint64_t before[LENGTH];
    memcpy(before, words, sizeof before);
    JUDGE(wall_raise(words, LENGTH, 6, 1, 6, 100, 0, 0), WALL_BAD_SHAPE, 0);
    JUDGE(wall_raise(words, LENGTH, 3, 1, 6, 262144, 0, 0), WALL_BAD_LIMIT, 0);
    JUDGE(wall_raise(words, LENGTH, 3, 1, 6, 100, 0, 2), WALL_BAD_SPREAD, 0);
    JUDGE(wall_raise(words, LENGTH, 3, 1, 6, 100, 0, 65), WALL_BAD_SPREAD, 0);
    JUDGE(wall_raise(words, LENGTH - 1, 3, 1, 6, 100, 0, 0), WALL_BAD_LENGTH, 0);
    JUDGE(wall_lookup(words, LENGTH, 64), WALL_NO_FLOW, 0);
    JUDGE(wall_increment(words, LENGTH, UINT64_MAX), WALL_NO_FLOW, 0);
    JUDGE(wall_lookup(words, LENGTH - 1, 1), WALL_BAD_HEADER, 0);
    JUDGE(wall_increment(words, 0, 1), WALL_BAD_HEADER, 0);
    JUDGE(wall_check(words, LENGTH - 1), WALL_BAD_HEADER, 0);
    JUDGE(wall_close(words, LENGTH - 1), WALL_BAD_HEADER, 0);
    SAME("words left", (uint64_t)memcmp(before, words, sizeof before), 0);
    JUDGE(wall_raise(NULL, 0, 3, 1, 6, 100, 0, 0), WALL_BAD_LENGTH, 0);
    JUDGE(wall_lookup(NULL, 0, 1), WALL_BAD_HEADER, 0);
    JUDGE(wall_increment(NULL, 0, 1), WALL_BAD_HEADER, 0);
    JUDGE(wall_check(NULL, 0), WALL_BAD_HEADER, 0);
    JUDGE(wall_close(NULL, 0), WALL_BAD_HEADER, 0);
}

/* The readers read their own bits, whatever stands beside them. */
static void readers(void)
{
    const uint64_t words[] = {UINT64_MAX, UINT64_MAX, 7, UINT64_C(0xFEDCBA991000FFFF)};
    SAME("total", WALL_TOTAL(words), 7);
    SAME("U", WALL_IN_USE(words), WALL_MAX_FULL);
    SAME("U", WALL_IN_USE(words + 0) * 2, 2 * WALL_MAX_FULL);
    SAME("spread", WALL_SPREAD(words), UINT64_C(0xFEDCBA99));
    SAME("spread", WALL_SPREAD(words + 0) * 2, 2 * UINT64_C(0xFEDCBA99));
}

/* A wall of each shape and width: as many words and as high a limit as the header says, and one more. */
static void sizes(void)
{
    enum { BITS = 8, FULL = 3 };
    static uint64_t words[WALL_WORDS(WALL_MAX_SHAPE, WALL_MAX_WIDTH, BITS, FULL) + 1];
    for (unsigned shape = WALL_MIN_SHAPE; shape <= WALL_MAX_SHAPE; shape++)
        for (unsigned width = WALL_MIN_WIDTH; width <= WALL_MAX_WIDTH; width++) {
            size_t length = WALL_WORDS(shape, width, BITS, FULL);
            uint64_t limit = WALL_MAX_LIMIT(shape, width);
            JUDGE(wall_raise(words, length, shape, width, BITS, limit, FULL, 0), WALL_DONE, 0);
            JUDGE(wall_raise(words, length, shape, width, BITS, limit + 1, FULL, 0), WALL_BAD_LIMIT, 0);
            JUDGE(wall_raise(words, length + 1, shape, width, BITS, limit, FULL, 0), WALL_BAD_LENGTH, 0);
            JUDGE(wall_raise(words, length - 1, shape, width, BITS, limit, FULL, 0), WALL_BAD_LENGTH, 0);
        }
    JUDGE(wall_raise(words, WALL_WORDS(3, WALL_DEFAULT_WIDTH, BITS, FULL), 3, 0, BITS, 1, FULL, 0), WALL_DONE, 0);
}

/* One beyond each limit; with no words at all a raise within them is refused for its length. */
static void limits(void)
{
    JUDGE(wall_raise(NULL, 0, WALL_MIN_SHAPE - 1, 1, 6, 1, 0, 0), WALL_BAD_SHAPE, 0);
    JUDGE(wall_raise(NULL, 0, WALL_MAX_SHAPE + 1, 1, 6, 1, 0, 0), WALL_BAD_SHAPE, 0);
    JUDGE(wall_raise(NULL, 0, 3, WALL_MAX_WIDTH + 1, 6, 1, 0, 0), WALL_BAD_WIDTH, 0);
    JUDGE(wall_raise(NULL, 0, 3, 1, WALL_MIN_BITS - 1, 1, 0, 0), WALL_BAD_BITS, 0);
    JUDGE(wall_raise(NULL, 0, 3, 1, WALL_MAX_BITS + 1, 1, 0, 0), WALL_BAD_BITS, 0);
    for (unsigned bits = WALL_MIN_BITS; bits <= WALL_MAX_BITS; bits++) {
        uint64_t most = WALL_BUCKETS(bits) < WALL_MAX_FULL ? WALL_BUCKETS(bits) : WALL_MAX_FULL;
        JUDGE(wall_raise(NULL, 0, 3, 1, bits, 1, most, 0), WALL_BAD_LENGTH, 0);
        JUDGE(wall_raise(NULL, 0, 3, 1, bits, 1, most + 1, 0), WALL_BAD_FULL, 0);
    }
}

/* Both sides of the spread's edges: with no words at all a raise within every limit is refused for its length. 1, 2, 3, 4 and 5 before 15, 15 before 6. */
static void spread_limits(void)
{
    for (unsigned bits = WALL_MIN_BITS; bits <= WALL_MAX_BITS; bits++) {
        const uint64_t flows = UINT64_C(1) << bits, high = UINT64_C(1) << 32, top = UINT64_C(1) << 63;
        const uint64_t good[] = {0, 1, 3, flows / 2 - 1, flows / 2 + 1, flows - 1};
        const uint64_t bad[] = {2,    4,        flows - 2,        flows, flows + 1, 2 * flows - 1,  high - 2,  high - 1,
                                high, high + 1, high + flows - 1, top,   top + 1,   UINT64_MAX - 1, UINT64_MAX};
        for (size_t n = 0; n < sizeof good / sizeof *good; n++)
            JUDGE(wall_raise(NULL, 0, 3, 1, bits, 1, 0, good[n]), WALL_BAD_LENGTH, 0);
        for (size_t n = 0; n < sizeof bad / sizeof *bad; n++)
            JUDGE(wall_raise(NULL, 0, 3, 1, bits, 1, 0, bad[n]), WALL_BAD_SPREAD, 0);
        JUDGE(wall_raise(NULL, 0, 3, 1, bits, 1, WALL_BUCKETS(bits) + 1, flows), WALL_BAD_FULL, 0);
        JUDGE(wall_raise(NULL, 0, 3, 1, bits, 0, 0, flows + 1), WALL_BAD_LIMIT, 0);
    }
    JUDGE(wall_raise(NULL, 0, 3, 1, WALL_MIN_BITS - 1, 1, 0, 2), WALL_BAD_BITS, 0);
    JUDGE(wall_raise(NULL, 0, 3, 1, UINT64_MAX, 1, 0, UINT64_MAX), WALL_BAD_BITS, 0);
    JUDGE(wall_raise(NULL, 0, 3, WALL_MAX_WIDTH + 1, 6, 1, 0, 2), WALL_BAD_WIDTH, 0);
    JUDGE(wall_raise(NULL, 0, WALL_MAX_SHAPE + 1, 1, 6, 1, 0, 2), WALL_BAD_SHAPE, 0);
}

/* Each call over a fresh wall whose header has this spread, with the number of all of them; in the end the wall is as it was. */
static void calls_at(uint64_t *words, size_t length, uint64_t spread, uint64_t number)
{
    uint64_t before[FULL_LENGTH];
    words[3] = (words[3] & UINT32_MAX) | spread << 32;
    memcpy(before, words, length * sizeof *words);
    JUDGE(wall_lookup(words, length, 1), number, 0);
    JUDGE(wall_check(words, length), number, 0);
    UNLISTED(words, length, 1, 2, number);
    JUDGE(wall_increment(words, length, 1), number, number == WALL_DONE);
    HEADER(words, number == WALL_DONE, 1, 0, spread);
    JUDGE(wall_close(words, length), number, 0);
    SAME("words left", (uint64_t)memcmp(before, words, length * sizeof *words), 0);
}

/* The same edges in a header, in which a spread has 32 bits. */
static void spreads_of_headers(void)
{
    static uint64_t words[FULL_LENGTH];
    const uint64_t good[] = {0, 1, 3, 31, 33, 63};
    const uint64_t bad[] = {2, 62, 64, 65, 127, 256 + 1, 65536, 65536 + 1, UINT64_C(1) << 31, (UINT64_C(1) << 31) + 1, UINT32_MAX - 1, UINT32_MAX};
    for (size_t n = 0; n < sizeof good / sizeof *good; n++) {
        JUDGE(wall_raise(words, FULL_LENGTH, 3, 1, 6, 100, 1, good[n]), WALL_DONE, 0);
        HEADER(words, 0, 1, 0, good[n]);
        calls_at(words, FULL_LENGTH, good[n], WALL_DONE);
    }
    for (size_t n = 0; n < sizeof bad / sizeof *bad; n++)
        calls_at(words, FULL_LENGTH, bad[n], WALL_BAD_HEADER);
}

/* By one addition of the spread for each flow before; with spread 0 the bits in reverse order, one at a time. */
static uint64_t slot_of(unsigned bits, uint64_t spread, uint64_t flow)
{
    uint64_t slot = 0, flows = UINT64_C(1) << bits;
    for (unsigned bit = 0; spread == 0 && bit < bits; bit++)
        slot = slot * 2 + (flow >> bit) % 2;
    for (uint64_t turn = 0; spread != 0 && turn < flow; turn++)
        slot += slot + spread < flows ? spread : spread - flows;
    return slot;
}

/* Two buckets whose entries of level 1 are bytes. Each flow comes to its own number: so many stand at its slot, are looked up and are listed. */
static void own_counts(uint64_t spread)
{
    enum { BITS = 7, MANY = 1 << BITS, WIDTH = 8, BUCKET_WORDS = WIDTH + 3 + 1, LENGTH_OF_MANY = WALL_WORDS(3, WIDTH, BITS, 0) };
    uint64_t words[LENGTH_OF_MANY], entries[2 * MANY];
    JUDGE(wall_raise(words, LENGTH_OF_MANY, 3, WIDTH, BITS, 10000, 0, spread), WALL_DONE, 0);
    for (uint64_t flow = 0; flow < MANY; flow++) {
        entries[2 * flow] = entries[2 * flow + 1] = flow;
        for (uint64_t count = 1; count <= flow; count++)
            JUDGE(wall_increment(words, LENGTH_OF_MANY, flow), WALL_DONE, count);
    }
    HEADER(words, MANY * (MANY - 1) / 2, 0, 0, spread);
    JUDGE(wall_check(words, LENGTH_OF_MANY), WALL_DONE, 0);
    for (uint64_t flow = 0; flow < MANY; flow++) {
        uint64_t slot = slot_of(BITS, spread, flow);
        SAME("entry", words[4 + slot / 64 * BUCKET_WORDS + slot % 64 / 8] >> slot % 8 * 8 & 0xFF, flow);
        JUDGE(wall_lookup(words, LENGTH_OF_MANY, flow), WALL_DONE, flow);
    }
    LISTED(words, LENGTH_OF_MANY, 0, 2 * MANY, entries, MANY);
    LISTED(words, LENGTH_OF_MANY, MANY / 2, MANY, entries + MANY, MANY / 2);
    UNLISTED(words, LENGTH_OF_MANY, MANY / 2, MANY - 1, WALL_LIST_SHORT);
    words[4 + WIDTH + 1] = 1; /* an entry that is not in use */
    JUDGE(wall_check(words, LENGTH_OF_MANY), WALL_UNSOUND, 0);
    JUDGE(wall_close(words, LENGTH_OF_MANY), WALL_DONE, 0);
    HEADER(words, 0, 0, 0, spread);
    LISTED(words, LENGTH_OF_MANY, 1, 0, NULL, 0);
}

/* The largest of everything that stands in word 3: flow 1 stands at the last place, the last flow at place 1. */
static void largest(void)
{
    enum { LAST = (1 << WALL_MAX_BITS) - 1, LENGTH_OF_LARGEST = WALL_WORDS(3, 1, WALL_MAX_BITS, WALL_MAX_FULL) };
    static uint64_t words[LENGTH_OF_LARGEST];
    uint64_t *last_bucket = words + LENGTH_OF_LARGEST - 65 * WALL_MAX_FULL - 5;
    JUDGE(wall_raise(words, LENGTH_OF_LARGEST, 3, 1, WALL_MAX_BITS, 100, WALL_MAX_FULL, LAST), WALL_DONE, 0);
    JUDGE(wall_increment(words, LENGTH_OF_LARGEST, 1), WALL_DONE, 1);
    JUDGE(wall_increment(words, LENGTH_OF_LARGEST, LAST), WALL_DONE, 1);
    HEADER(words, 2, WALL_MAX_FULL, 0, LAST);
    SAME("the last bucket", *last_bucket, UINT64_C(1) << 63);
    SAME("the first bucket", words[A1], UINT64_C(1) << 1);
    JUDGE(wall_lookup(words, LENGTH_OF_LARGEST, 1), WALL_DONE, 1);
    JUDGE(wall_lookup(words, LENGTH_OF_LARGEST, LAST), WALL_DONE, 1);
    JUDGE(wall_lookup(words, LENGTH_OF_LARGEST, LAST + 1), WALL_NO_FLOW, 0);
    JUDGE(wall_check(words, LENGTH_OF_LARGEST), WALL_DONE, 0);
    JUDGE(wall_close(words, LENGTH_OF_LARGEST), WALL_DONE, 0);
    HEADER(words, 0, WALL_MAX_FULL, 0, LAST);
}

static void damage(uint64_t *words)
{
    words[2]++;
    JUDGE(wall_check(words, LENGTH), WALL_UNSOUND_WALL, 0);
    UNLISTED(words, LENGTH, 1, 4, WALL_UNSOUND_WALL);
    UNLISTED(words, LENGTH, 1, 0, WALL_UNSOUND_WALL);
    words[2]--;
    words[A2] |= 0x100; /* an entry above those in use */
    JUDGE(wall_lookup(words, LENGTH, 1), WALL_UNSOUND, 0);
    JUDGE(wall_increment(words, LENGTH, 1), WALL_UNSOUND, 0);
    JUDGE(wall_check(words, LENGTH), WALL_UNSOUND, 0);
    UNLISTED(words, LENGTH, 1, 4, WALL_UNSOUND);
    UNLISTED(words, LENGTH, 1, 0, WALL_UNSOUND);
    JUDGE(wall_close(words, LENGTH), WALL_DONE, 0);
    BUCKET(words, 0, 0, 0, 0, 0);
    JUDGE(wall_check(words, LENGTH), WALL_DONE, 0);
}

int main(void)
{
    uint64_t words[LENGTH];
    memset(words, 0xFF, sizeof words);
    worked_example(words);
    busy(words);
    refusals(words);
    damage(words);
    two_buckets();
    overflow(0, 1, 15);
    overflow(1, 4, 60);
    overflow(5, 4, 12);
    overflow(63, 4, 4);
    readers();
    sizes();
    limits();
    spread_limits();
    spreads_of_headers();
    own_counts(0);
    own_counts(1);
    own_counts(3);
    own_counts(45);
    own_counts(127);
    largest();
    printf("card: %lu checks, %lu failed\n", checks, failures);
    return failures != 0;
}
