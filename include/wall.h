/*
 * The counter store's calls for C, on x86-64 Linux. docs/WALL.md has each word of a wall; docs/TRUST.md says what has to be believed besides the proofs.
 *
 *     libhost.a  wall_slot, wall_limits, wall_image: where a flow stands, how far a counter goes, one word of an image.
 *     libcard.a  wall_raise, wall_lookup, wall_increment, wall_check, wall_busy, wall_close: the calls over a wall. It uses memcpy and memset.
 *
 * `rt lib --cpu=x86-64` in crates/host and in crates/card builds out/libhost.a and out/libcard.a there. A program may link either or both.
 *
 * No call allocates, keeps a pointer or has a state of its own. Each answers a number and a value. The number is WALL_DONE, or says why the call was
 * refused; where several reasons apply, it is the first of them in the order in which the call's comment names them. A refusal changes no word, of a wall
 * or of a list, and its value is 0, but for the bucket that comes with wall_check's WALL_UNSOUND. Every argument is judged at its full 64 bits.
 *
 * The caller keeps this: `words` and `list` are as aligned as a uint64_t is, on 8 bytes, and all their words can be read, and written by a call that
 * takes them without const; with length 0 they may be NULL. Pieces lent to one call do not overlap. Two calls over the same words at the same time are
 * the caller's to prevent, unless both only read them.
 *
 * The stack has WALL_STACK bytes left for a call, in a program that is linked statically or with -z now. Where memcpy and memset are bound lazily, many
 * linkers' default, each is looked up on the same stack at its own first use, and that call takes more. docs/WALL.md has the bytes, as measured.
 */
#ifndef WALL_H
#define WALL_H

#include <stddef.h>
#include <stdint.h>

#ifdef __cplusplus
extern "C" {
#endif

/* The numbers. 6 has a name for each of the two calls that give it: a switch over the answers of both has one case for them. */
enum {
    WALL_DONE = 0,
    WALL_BAD_SHAPE = 1,     /* the shape is not 3, 4 or 5 */
    WALL_BAD_WIDTH = 2,     /* the width is over 16 */
    WALL_BAD_BITS = 3,      /* the bits are outside 6..22 */
    WALL_BAD_LIMIT = 4,     /* the limit on the total is 0, or more than a counter holds */
    WALL_BAD_FULL = 5,      /* more full-size buckets than buckets, or than 4,096 */
    WALL_NO_WORD = 6,       /* wall_image: the word is not in the image */
    WALL_BAD_LENGTH = 6,    /* wall_raise: the length is not exact */
    WALL_BAD_HEADER = 7,    /* the words are no wall: too few or too many, or a header that is not good, a bad spread in it too */
    WALL_NO_FLOW = 8,       /* the flow is not below 2^bits */
    WALL_UNSOUND = 9,       /* the flow's bucket, or with wall_check and wall_busy some bucket, is not sound */
    WALL_AT_LIMIT = 10,     /* the total stands at its limit */
    /* 11 is never given */
    WALL_NO_FULL = 12,      /* the bucket must overflow, and all full-size buckets are in use */
    WALL_UNSOUND_WALL = 13, /* every bucket is sound, the wall is not */
    WALL_LIST_SHORT = 14,   /* wall_busy: the flows to list need more words than the list has */
    WALL_BAD_SPREAD = 15    /* the spread is even and not 0, or not below 2^bits */
};

/* The limits on what a wall is raised with, both ends included; WALL_STACK, as said above. */
enum {
    WALL_MIN_SHAPE = 3,
    WALL_MAX_SHAPE = 5,
    WALL_MIN_WIDTH = 1, /* or 0, which is read as the default */
    WALL_MAX_WIDTH = 16,
    WALL_DEFAULT_WIDTH = 7,
    WALL_MIN_BITS = 6,
    WALL_MAX_BITS = 22,
    WALL_MAX_FULL = 4096, /* and at most WALL_BUCKETS(bits) */
    WALL_STACK = 2048
};

/*
 * Constant expressions, for arrays and assertions. The arguments are within the limits above, the width by number: 0 would count as 0 here.
 *
 *     WALL_BUCKETS    the buckets of a wall, 64 flows each
 *     WALL_WORDS      the words of a wall, for wall_raise exactly these: static uint64_t words[WALL_WORDS(3, 7, 16, 64)];
 *     WALL_MAX_LIMIT  the largest limit on the total, 2^L - 1, which is the largest count too
 */
#define WALL_BUCKETS(bits) ((uint64_t)1 << ((bits) - 6))
#define WALL_WORDS(shape, width, bits, full) (4 + WALL_BUCKETS(bits) * ((uint64_t)(width) + (uint64_t)(shape) + 1) + 65 * (uint64_t)(full))
#define WALL_MAX_LIMIT(shape, width) (((uint64_t)1 << ((width) + ((shape) == 3 ? 17 : 18))) - 1)

/* Of the words of a wall with a good header: the total of accepted increments, how many full-size buckets are in use, and the spread. */
#define WALL_TOTAL(words) ((words)[2] + 0)
#define WALL_IN_USE(words) ((words)[3] >> 16 & 0xFFFF)
#define WALL_SPREAD(words) ((words)[3] >> 32)

typedef struct {
    uint64_t number;
    uint64_t value;
} wall_answer;

/*
 * The slot of a flow in a wall of 2^bits flows with this spread: with spread 0 the flow with its `bits` bits in reverse order, with an odd spread below
 * 2^bits flow * spread mod 2^bits, so that spread 1 leaves the flow where it is. No other spread is good. The slot's bucket is value / 64, its place
 * there value % 64. Every slot is that of exactly one flow. With spread 0 the slot of a slot is the flow again; with an odd one it need not be: the
 * flow then comes back by the odd spread below 2^bits whose product with this one is 1 mod 2^bits.
 *
 * Answers WALL_DONE and the slot, or WALL_BAD_BITS, WALL_BAD_SPREAD or WALL_NO_FLOW.
 */
wall_answer wall_slot(uint64_t bits, uint64_t spread, uint64_t flow);

/*
 * L, the bits of a counter of this shape whose first level is `width` bits wide: a count goes up to 2^L - 1. L is width + 17 for shape 3, and
 * width + 18 for shapes 4 and 5. Width 0 asks for the default and is read as 7.
 *
 * Answers WALL_DONE and L, WALL_BAD_SHAPE or WALL_BAD_WIDTH.
 */
wall_answer wall_limits(uint64_t shape, uint64_t width);

/*
 * Word n, counted from 0, of the image in bytes[0] to bytes[length - 1]: the eight bytes from bytes[8 * n] on, low byte first. The word is in the image
 * if all eight are; any n may be asked for, and so may any length, a multiple of 8 or not.
 *
 * `bytes` points to `length` readable bytes that nothing changes during the call, at any alignment. Nothing beyond them is read. With length 0 nothing
 * is read at all, and `bytes` may be any pointer, NULL too.
 *
 * Answers WALL_DONE and the word, or WALL_NO_WORD.
 */
wall_answer wall_image(const uint8_t *bytes, size_t length, uint64_t n);

/*
 * A wall is `length` words that the caller lends, a list `list_length` words. The card's calls read and write nothing beyond them. Any words may be lent,
 * and any flow number asked for: words that are no wall are refused.
 */

/*
 * A fresh wall in the words: every word is written, whatever stood there. Width 0 asks for the default: it is read, and stored, as 7. There are exactly
 * WALL_WORDS(shape, width, bits, full) words, with this width. `limit` is the largest total of all flows together, from 1 to 2^L - 1 (L as in
 * wall_limits); `full` is how many full-size buckets the wall has, at most 2^(bits - 6) and at most 4,096. `spread` says where the wall's flows stand, as
 * in wall_slot: 0, or odd and below 2^bits; docs/WALL.md says how a site chooses it.
 *
 * Answers WALL_DONE and 0, or WALL_BAD_SHAPE, WALL_BAD_WIDTH, WALL_BAD_BITS, WALL_BAD_LIMIT, WALL_BAD_FULL, WALL_BAD_SPREAD or WALL_BAD_LENGTH.
 */
wall_answer wall_raise(uint64_t *words, size_t length, uint64_t shape, uint64_t width, uint64_t bits, uint64_t limit, uint64_t full, uint64_t spread);

/*
 * The count of a flow. Its own bucket alone is judged.
 *
 * Answers WALL_DONE and the count, or WALL_BAD_HEADER, WALL_NO_FLOW or WALL_UNSOUND.
 */
wall_answer wall_lookup(const uint64_t *words, size_t length, uint64_t flow);

/*
 * One more of a flow.
 *
 * Answers WALL_DONE and the count after it, or WALL_BAD_HEADER, WALL_NO_FLOW, WALL_UNSOUND, WALL_AT_LIMIT or WALL_NO_FULL.
 */
wall_answer wall_increment(uint64_t *words, size_t length, uint64_t flow);

/*
 * The whole wall judged.
 *
 * Answers WALL_DONE and 0, WALL_BAD_HEADER, WALL_UNSOUND and the lowest bucket that is not sound, counted from 0, or WALL_UNSOUND_WALL.
 */
wall_answer wall_check(const uint64_t *words, size_t length);

/*
 * The busy list: the flows whose count is at least `floor`, in rising flow number, each in two words of the list from list[0] on: the flow, then its
 * count. The words after the last entry keep their contents. Floor 0 lists every flow, a floor above every count none. The whole wall is judged before
 * any word is written, and only read. A list of 2 * 2^bits words is always long enough, and for a floor of 1 and more one of 2 * (WALL_TOTAL(words) /
 * floor) words; an odd list_length is no fault.
 *
 * Answers WALL_DONE and how many flows are listed, or as wall_check WALL_BAD_HEADER, WALL_UNSOUND (here with the value 0) or WALL_UNSOUND_WALL, or
 * WALL_LIST_SHORT.
 */
wall_answer wall_busy(const uint64_t *words, size_t length, uint64_t floor, uint64_t *list, size_t list_length);

/*
 * The interval ends: the fresh wall of the same shape, width, bits, limit, full-size buckets and spread. The header alone has to be good.
 *
 * Answers WALL_DONE and 0, or WALL_BAD_HEADER.
 */
wall_answer wall_close(uint64_t *words, size_t length);

#ifdef __cplusplus
}
#endif

#endif
