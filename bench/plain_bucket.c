#include "plain_bucket.h"

#define ONE ((uint64_t)1)
#define TOP_BIT (ONE << 63)
#define ONES(bits) ((bits) < 64 ? (ONE << (bits) % 64) - 1 : ~(uint64_t)0)

/* A one at each multiple of `step` below 64. */
#define AT(step, n) ((step) * (n) < 64 ? ONE << (step) * (n) % 64 : 0)
#define FOUR_AT(step, n) (AT(step, n) | AT(step, n + 1) | AT(step, n + 2) | AT(step, n + 3))
#define SIXTEEN_AT(step, n) (FOUR_AT(step, n) | FOUR_AT(step, n + 4) | FOUR_AT(step, n + 8) | FOUR_AT(step, n + 12))
#define EVERY(step) (SIXTEEN_AT(step, 0) | SIXTEEN_AT(step, 16))

/* The lanes of `width` bits with an even number. */
#define EVEN(width) (EVERY(2 * (width)) * ONES(width))

#define LEVEL(entries, width, weight, mark_bits, quads, lane)                                                                                        \
    {                                                                                                                                                \
        entries, width, weight, mark_bits, (64 / (lane)-1) * (lane), ONES(mark_bits), EVERY(width) << ((width)-1) | TOP_BIT, EVEN(width), quads,      \
            EVERY(lane), ONES(lane)                                                                                                                  \
    }

/* A level whose entries add up within a lane of two of them, and one that needs a lane of four. */
#define WIDE_LEVEL(entries, width, weight, mark_bits) LEVEL(entries, width, weight, mark_bits, 0, 2 * (width))
#define SLIM_LEVEL(entries, width, weight, mark_bits) LEVEL(entries, width, weight, mark_bits, EVEN(2 * (width)), 4 * (width))

const plain_level plain_levels[3][MAX_LEVELS - 1] = {
    {WIDE_LEVEL(15, 4, 0, 15), WIDE_LEVEL(3, 13, 4, 0)},
    {SLIM_LEVEL(25, 2, 0, 25), WIDE_LEVEL(10, 4, 2, 10), WIDE_LEVEL(2, 12, 6, 0)},
    {SLIM_LEVEL(25, 2, 0, 25), SLIM_LEVEL(10, 3, 2, 10), WIDE_LEVEL(3, 4, 5, 3), WIDE_LEVEL(1, 9, 9, 0)},
};

/* How many ones a word has: counted in lanes of two bits, then four, then eight, and the eight lanes added up by a product. */
static unsigned ones(uint64_t word)
{
    word -= word >> 1 & EVEN(1);
    word = (word & EVEN(2)) + (word >> 2 & EVEN(2));
    word = (word + (word >> 4)) & EVEN(4);
    return (unsigned)(word * EVERY(8) >> 56);
}

/* The same of half a word: above level 1 no level has more than 32 marks. */
static unsigned ones_of_half(uint32_t word)
{
    word -= word >> 1 & (uint32_t)EVEN(1);
    word = (word & (uint32_t)EVEN(2)) + (word >> 2 & (uint32_t)EVEN(2));
    word = (word + (word >> 4)) & (uint32_t)EVEN(4);
    return word * (uint32_t)EVERY(8) >> 24;
}

/* Each lane with an even number, and the one above it. */
PLAIN_INLINE uint64_t fold(uint64_t lanes, unsigned width, uint64_t even)
{
    return (lanes & even) + (lanes >> width & even);
}

/* The lanes of level 1: a chunk of it has 8 entries where they are at most 7 bits wide, else 4. */
typedef struct {
    uint64_t even, even_or_above; /* entries with an even number; and the bits above the chunk */
    uint64_t quads, eights;       /* lanes of two and of four entries, with an even number */
} chunk_lanes;

#define CHUNK(entries, width)                                                                                                                        \
    {                                                                                                                                                \
        EVEN(width) & ONES((entries) * (width)), (EVEN(width) & ONES((entries) * (width))) | ~ONES((entries) * (width)),                             \
            EVEN(2 * (width)) & ONES((entries) * (width)), ONES(4 * (width))                                                                         \
    }

enum { CHUNKS = 8 };

static const chunk_lanes chunks[MAX_WIDTH + 1] = {
    {0, 0, 0, 0}, CHUNK(8, 1),  CHUNK(8, 2),  CHUNK(8, 3),  CHUNK(8, 4),  CHUNK(8, 5),  CHUNK(8, 6),  CHUNK(8, 7),  CHUNK(4, 8),
    CHUNK(4, 9),  CHUNK(4, 10), CHUNK(4, 11), CHUNK(4, 12), CHUNK(4, 13), CHUNK(4, 14), CHUNK(4, 15), CHUNK(4, 16),
};

static uint64_t loaded(const unsigned char *bytes)
{
    uint64_t word;
    memcpy(&word, bytes, sizeof word);
    return word;
}

/* Up to 3 bits wide: each chunk, which takes `width` bytes, by itself. */
static uint64_t sum_of_narrow(const unsigned char *bytes, unsigned width)
{
    const chunk_lanes *lanes = &chunks[width];
    uint64_t sum = 0;
    for (unsigned chunk = 0; chunk < CHUNKS; chunk++, bytes += width) {
        uint64_t pairs = fold(loaded(bytes), width, lanes->even);
        sum += fold(fold(pairs, 2 * width, lanes->quads), 4 * width, lanes->eights);
    }
    return sum;
}

/* 8 bits wide and more: a chunk of 4 entries begins in the middle of a byte where its number and the width are odd. */
static uint64_t sum_of_wide(const unsigned char *bytes, unsigned width)
{
    uint64_t pairs = 0, even = chunks[width].even;
    for (unsigned nibble = 0; nibble < 2 * CHUNKS * width; nibble += width)
        pairs += fold(loaded(bytes + nibble / 2) >> nibble % 2 * 4, width, even);
    return fold(pairs, 2 * width, plain_ones_below(2 * width));
}

/*
 * 4 to 7 bits wide: 16 entries add up within a lane of double width, and the top bits of a word leave room for the odd ones. What a load has above its
 * chunk is taken with the even entries, where it stays above them.
 */
PLAIN_INLINE uint64_t sum_of_thin(const unsigned char *bytes, size_t width)
{
    const chunk_lanes *lanes = &chunks[width];
    uint64_t all = 0, even = 0, mask = lanes->even_or_above;
    for (unsigned chunk = 0; chunk < CHUNKS; chunk += 2, bytes += 2 * width) {
        uint64_t lower = loaded(bytes), upper = loaded(bytes + width);
        all += lower + upper;
        even += (lower & mask) + (upper & mask);
    }
    uint64_t pairs = even + ((all - even) >> width);
    return fold(fold(pairs, 2 * width, lanes->quads), 4 * width, lanes->eights);
}

uint64_t plain_first_sum(const uint64_t *bucket, unsigned width)
{
    const unsigned char *bytes = (const unsigned char *)bucket;
    if (width - MIN_THIN <= MAX_THIN - MIN_THIN)
        return sum_of_thin(bytes, width);
    return width < MIN_THIN ? sum_of_narrow(bytes, width) : sum_of_wide(bytes, width);
}

static unsigned rank(uint64_t bits, unsigned entry)
{
    return ones(bits & plain_ones_below(entry));
}

/* What the levels from 2 up add to a count that goes on at this entry of level 2, in units of 2^width. */
static uint64_t upper_count(const uint64_t *marks, unsigned shape, unsigned entry)
{
    const plain_level *level = plain_levels[shape - 3];
    uint64_t packed = marks[shape], count = 0;
    for (const uint64_t *upper = marks + 1;; upper++, level++) {
        uint64_t on = packed & level->marks;
        count += (*upper >> entry * level->width & plain_ones_below(level->width)) << level->weight;
        if (!(on >> entry & 1))
            return count;
        packed >>= level->mark_bits;
        entry = rank(on, entry);
    }
}

uint64_t plain_own_count(const uint64_t *bucket, unsigned shape, unsigned width, unsigned place)
{
    const uint64_t *marks = bucket + width;
    uint64_t count = plain_first(bucket, width, place);
    return *marks >> place & 1 ? count + (upper_count(marks, shape, rank(*marks, place)) << width) : count;
}

/* Judging from level to level: the marks of the level below, what is left of the packed word, the sum so far. */
typedef struct {
    uint64_t marks, packed, sum;
} judged;

/* Entries that are zero, each named by its highest bit, have to go on. */
static bool zeros_go_on(unsigned width, uint64_t zeros, uint64_t marks)
{
    for (; marks != 0; marks &= marks - 1)
        zeros &= ~(ONE << ((unsigned)__builtin_ctzll(marks) * width + width - 1));
    return zeros == 0;
}

PLAIN_INLINE uint64_t level_sum(const plain_level *level, uint64_t word)
{
    uint64_t lanes = fold(word, level->width, level->pairs);
    if (level->quads != 0)
        lanes = fold(lanes, 2 * level->width, level->quads);
    return (lanes * level->gather >> level->top & level->sum) << level->weight;
}

/* Where no counter goes on, the level's word has to be zero like what is left of the packed word. */
PLAIN_INLINE bool sound_level(const plain_level *level, uint64_t word, judged *by)
{
    if (by->marks == 0) {
        by->packed |= word;
        return true;
    }
    unsigned used = level->weight == 0 ? ones(by->marks) : ones_of_half((uint32_t)by->marks);
    uint64_t in_use = plain_ones_below(used * level->width), wanted = level->high & in_use;
    uint64_t nonzero = (((word & ~level->high) + ~level->high) | word) & level->high;
    by->marks = by->packed & level->marks;
    by->packed >>= level->mark_bits;
    by->sum += level_sum(level, word);
    if (used > level->entries || by->marks >> used != 0)
        return false;
    return nonzero == wanted || (word <= in_use && zeros_go_on(level->width, wanted & ~nonzero, by->marks));
}

/* The last level has few entries: one for each mark below, none of them zero, and nothing above. One mark too many meets a zero. */
PLAIN_INLINE bool sound_last(const plain_level *level, uint64_t word, judged *by)
{
    if (word >> level->entries * level->width != 0)
        return false;
    for (; by->marks != 0; by->marks &= by->marks - 1, word >>= level->width) {
        uint64_t part = word & plain_ones_below(level->width);
        if (part == 0)
            return false;
        by->sum += part << level->weight;
    }
    return word == 0;
}

PLAIN_INLINE uint64_t upper_sum(const uint64_t *marks, unsigned shape)
{
    const plain_level *level = plain_levels[shape - 3];
    judged by = {marks[0], marks[shape] & plain_ones_below(FLAG_BIT), 0};
    if (!sound_level(level, marks[1], &by))
        return PLAIN_UNSOUND;
    if (shape > 3 && !sound_level(level + 1, marks[2], &by))
        return PLAIN_UNSOUND;
    if (shape > 4 && !sound_level(level + 2, marks[3], &by))
        return PLAIN_UNSOUND;
    return sound_last(level + shape - 2, marks[shape - 1], &by) && by.packed == 0 ? by.sum : PLAIN_UNSOUND;
}

/* By shape, so that the compiler knows each level's masks. */
uint64_t plain_upper_sum(const uint64_t *marks, unsigned shape)
{
    switch (shape) {
    case 3:
        return upper_sum(marks, 3);
    case 4:
        return upper_sum(marks, 4);
    default:
        return upper_sum(marks, 5);
    }
}

enum { HELD_BITS = 58 }; /* 64 counts of so many bits add up within a word, and one of more is over any total */

/* What moved places hold, and their own counts. */
typedef struct {
    uint64_t held, own;
} moved_sums;

/* The moved places that end in level 1: whether each holds more than its own count. */
static bool exceed_low(const uint64_t *bucket, unsigned width, const uint64_t *held, uint64_t places, moved_sums *sums)
{
    for (; places != 0; places &= places - 1) {
        size_t place = (size_t)__builtin_ctzll(places);
        uint64_t count = plain_first(bucket, width, (unsigned)place);
        if (held[place] <= count)
            return false;
        sums->own += count;
        sums->held += held[place];
    }
    return true;
}

/*
 * The same of those that go on. In rising order their entries of level 2 are 0, 1 and so on, moved or not; few of them go on again.
 */
static bool exceed_high(const uint64_t *bucket, unsigned shape, unsigned width, const uint64_t *full, moved_sums *sums)
{
    const plain_level *second = plain_levels[shape - 3];
    const uint64_t *marks = bucket + width;
    uint64_t places = marks[0], word = marks[1], again = marks[shape] & second->marks, mask = plain_ones_below(second->width);
    for (unsigned entry = 0; places != 0; entry++, places &= places - 1, word >>= second->width, again >>= 1) {
        unsigned place = (unsigned)__builtin_ctzll(places);
        if (!(full[0] >> place & 1))
            continue;
        uint64_t upper = again & 1 ? upper_count(marks, shape, entry) : word & mask;
        uint64_t own = plain_first(bucket, width, place) + (upper << width), held = full[1 + place];
        if (held <= own)
            return false;
        sums->own += own;
        sums->held += held;
    }
    return true;
}

/* The unmoved places hold 0 just where the moved ones hold all that is held. */
uint64_t plain_flagged_sum(const uint64_t *bucket, unsigned shape, unsigned width, const uint64_t *full, uint64_t used, uint64_t total)
{
    uint64_t packed = bucket[width + shape], any = 0, all = 0, upper = plain_upper_sum(bucket + width, shape);
    if ((packed & plain_ones_below(NUMBER_BIT)) >> FLAG_BIT != 1 || packed >> NUMBER_BIT >= used || upper == PLAIN_UNSOUND)
        return PLAIN_UNSOUND;
    full += FULL_WORDS * (packed >> NUMBER_BIT);
    for (const uint64_t *held = full + 1; held != full + FULL_WORDS; held += 4) {
        any |= held[0] | held[1] | held[2] | held[3];
        all += held[0] + held[1] + held[2] + held[3];
    }
    moved_sums moved = {0, 0};
    if (full[0] == 0 || any >> HELD_BITS != 0 || !exceed_low(bucket, width, full + 1, full[0] & ~bucket[width], &moved) ||
        !exceed_high(bucket, shape, width, full, &moved))
        return PLAIN_UNSOUND;
    uint64_t sum = (upper << width) + plain_first_sum(bucket, width) - moved.own + all;
    return moved.held == all && sum <= total ? sum : PLAIN_UNSOUND;
}

/* The low `count` bits of `word` stay; those above make room for `width` bits of `value`. */
static uint64_t inserted(uint64_t word, unsigned count, unsigned width, uint64_t value)
{
    uint64_t low = word & plain_ones_below(count);
    return low | value << count | (word - low) << width;
}

/* Where a counter stands in the levels from 2 up while a carry climbs: its level's marks begin at bit `first` of the packed word. */
typedef struct {
    const plain_level *level;
    uint64_t *upper, *packed, marks;
    unsigned first, entry;
} climber;

static climber climbed(const climber *from)
{
    unsigned first = from->first + from->level->mark_bits;
    const plain_level *level = from->level + 1;
    uint64_t marks = *from->packed >> first & level->marks;
    return (climber){level, from->upper + 1, from->packed, marks, first, rank(from->marks, from->entry)};
}

/* A counter comes in with 1 at its entry of this level, of which `used` are in use; false and no change where it has no room. */
static bool enter(const climber *at, unsigned used)
{
    if (used == at->level->entries)
        return false;
    *at->upper = inserted(*at->upper, at->entry * at->level->width, at->level->width, 1);
    uint64_t marks = inserted(at->marks, at->entry, 1, 0);
    *at->packed = *at->packed ^ (at->marks ^ marks) << at->first;
    return true;
}

/* A carry into this level, where the counter has an entry. */
static bool carry(const climber *at)
{
    unsigned bit = at->entry * at->level->width;
    uint64_t most = plain_ones_below(at->level->width);
    if ((*at->upper >> bit & most) != most) {
        *at->upper += ONE << bit;
        return true;
    }
    climber next = climbed(at);
    bool has = at->marks >> at->entry & 1;
    if (has ? !carry(&next) : !enter(&next, ones(at->marks)))
        return false;
    if (!has)
        *at->packed |= ONE << at->entry << at->first;
    *at->upper &= ~(most << bit);
    return true;
}

bool plain_carry(uint64_t *bucket, unsigned shape, unsigned width, unsigned place)
{
    uint64_t *marks = bucket + width, *packed = marks + shape;
    const plain_level *level = plain_levels[shape - 3];
    climber at = {level, marks + 1, packed, *packed & level->marks, 0, rank(*marks, place)};
    bool has = *marks >> place & 1;
    if (has ? !carry(&at) : !enter(&at, ones(*marks)))
        return false;
    *marks |= ONE << place;
    plain_add_first(bucket, width, place, -(uint32_t)plain_ones_below(width));
    return true;
}
