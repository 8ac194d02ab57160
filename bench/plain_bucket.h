/*
 * One bucket of the plain store: reading, judging and growing it in place. Entries and marks are worked on as lanes of a word, many at a time.
 */
#ifndef PLAIN_BUCKET_H
#define PLAIN_BUCKET_H

#include <stdbool.h>
#include <stddef.h>
#include <stdint.h>
#include <string.h>

_Static_assert(__BYTE_ORDER__ == __ORDER_LITTLE_ENDIAN__, "entries of level 1 are read from memory at byte offsets");

enum { PLACES = 64, MAX_LEVELS = 5, MAX_WIDTH = 16, MIN_THIN = 4, MAX_THIN = 7, FULL_WORDS = 1 + PLACES, FLAG_BIT = 40, NUMBER_BIT = 48 };

/* A level from 2 up, and the masks that judge and add up its word. */
typedef struct {
    uint8_t entries, width;
    uint8_t weight;        /* widths of the levels from 2 to the one below */
    uint8_t mark_bits;     /* as many as entries, none in the last level */
    uint8_t top;           /* the highest lane of a product with `gather`: it has the sum of all lanes */
    uint64_t marks;        /* the mark bits */
    uint64_t high;         /* the highest bit of each entry, and of the word */
    uint64_t pairs, quads; /* every second entry; every second lane of two entries, or 0 where the sum of all fits in a lane of two */
    uint64_t gather, sum;  /* a one in each lane, of four entries or of two; the bits of a lane */
} plain_level;

/* By shape - 3 and level - 2. */
extern const plain_level plain_levels[3][MAX_LEVELS - 1];

#define PLAIN_INLINE static inline __attribute__((always_inline))

/* What a header says, and the words before the full-size buckets. */
typedef struct {
    unsigned shape, width, bits;
    uint64_t limit, total, full, used, spread;
    uint64_t bucket_words, before_full;
} plain_wall;

PLAIN_INLINE uint64_t plain_ones_below(unsigned bit)
{
    return ((uint64_t)1 << bit) - 1;
}

/* The four bytes that have the whole entry at a bit of level 1: it begins in the first of them and is at most 16 bits wide. */
PLAIN_INLINE uint32_t plain_near(const uint64_t *bucket, unsigned bit)
{
    uint32_t near;
    memcpy(&near, (const unsigned char *)bucket + bit / 8, sizeof near);
    return near;
}

PLAIN_INLINE uint64_t plain_first(const uint64_t *bucket, unsigned width, unsigned place)
{
    return plain_near(bucket, place * width) >> place * width % 8 & (uint32_t)plain_ones_below(width);
}

/* What is added to an entry of level 1 stays within it. */
PLAIN_INLINE void plain_add_first(uint64_t *bucket, unsigned width, unsigned place, uint32_t value)
{
    uint32_t near = plain_near(bucket, place * width) + (value << place * width % 8);
    memcpy((unsigned char *)bucket + place * width / 8, &near, sizeof near);
}

/* The 64 entries of level 1 added up. */
uint64_t plain_first_sum(const uint64_t *bucket, unsigned width);

/* Whether any of these is not zero: the marks of level 1 to which `marks` points, the levels from 2 up and the packed word. */
PLAIN_INLINE bool plain_goes_on(const uint64_t *marks, unsigned shape)
{
    uint64_t any = marks[0] | marks[1] | marks[2] | marks[3];
    if (shape > 3)
        any |= marks[4];
    if (shape > 4)
        any |= marks[5];
    return any != 0;
}

#define PLAIN_UNSOUND UINT64_MAX

/* What the levels from 2 up add to the counts, in units of 2^width, or PLAIN_UNSOUND. `marks` points to those of level 1. */
uint64_t plain_upper_sum(const uint64_t *marks, unsigned shape);

/* The bucket's own count of a place, moved or not. */
uint64_t plain_own_count(const uint64_t *bucket, unsigned shape, unsigned width, unsigned place);

/*
 * What the 64 counts of a bucket with anything from the flag's bit up add up to, or PLAIN_UNSOUND. `full` is the first full-size bucket of `used`; the
 * total is the wall's.
 */
uint64_t plain_flagged_sum(const uint64_t *bucket, unsigned shape, unsigned width, const uint64_t *full, uint64_t used, uint64_t total);

/* A carry out of level 1 at a place of a sound bucket without the flag, or false and no change where a level to enter has all its entries in use. */
bool plain_carry(uint64_t *bucket, unsigned shape, unsigned width, unsigned place);

#endif
