#include "plain.h"
#include "plain_bucket.h"

#include <string.h>

enum { HEAD_WORDS = 4, DEFAULT_WIDTH = 7, MIN_BITS = 6, MAX_BITS = 22, MAX_FULL = 4096 };

#define HEAD_MARK 0x00014c5742u /* letters B, W, L and version 1 */
#define HEAD_BITS 0xffffffffffu

static wall_answer answer(uint64_t number, uint64_t value)
{
    return (wall_answer){number, value};
}

static bool known_shape(uint64_t shape)
{
    return shape >= 3 && shape <= 5;
}

static bool known_bits(uint64_t bits)
{
    return bits >= MIN_BITS && bits <= MAX_BITS;
}

static bool known_limit(uint64_t shape, uint64_t width, uint64_t limit)
{
    return limit != 0 && limit >> (width + (shape == 3 ? 17 : 18)) == 0;
}

static bool known_full(uint64_t bits, uint64_t full)
{
    return full <= MAX_FULL && full <= (uint64_t)1 << (bits - 6);
}

static bool known_spread(uint64_t bits, uint64_t spread)
{
    return spread == 0 || (spread % 2 == 1 && spread >> bits == 0);
}

static uint64_t length_of(uint64_t shape, uint64_t width, uint64_t bits, uint64_t full)
{
    return HEAD_WORDS + ((uint64_t)1 << (bits - 6)) * (width + shape + 1) + FULL_WORDS * full;
}

PLAIN_INLINE bool open_wall(const uint64_t *words, size_t length, plain_wall *wall)
{
    if (length < HEAD_WORDS || (words[0] & HEAD_BITS) != HEAD_MARK)
        return false;
    wall->shape = words[0] >> 40 & 0xff;
    wall->width = words[0] >> 48 & 0xff;
    wall->bits = (unsigned)(words[0] >> 56);
    wall->limit = words[1];
    wall->total = words[2];
    wall->full = words[3] & 0xffff;
    wall->used = WALL_IN_USE(words);
    wall->spread = WALL_SPREAD(words);
    if (!known_shape(wall->shape) || wall->width == 0 || wall->width > MAX_WIDTH || !known_bits(wall->bits))
        return false;
    wall->bucket_words = wall->width + wall->shape + 1;
    wall->before_full = HEAD_WORDS + (wall->bucket_words << (wall->bits - MIN_BITS));
    return known_limit(wall->shape, wall->width, wall->limit) && known_full(wall->bits, wall->full) && known_spread(wall->bits, wall->spread) &&
           length == wall->before_full + FULL_WORDS * wall->full && wall->total <= wall->limit && wall->used <= wall->full;
}

PLAIN_INLINE size_t bucket_start(const plain_wall *wall, uint64_t bucket)
{
    return HEAD_WORDS + bucket * wall->bucket_words;
}

PLAIN_INLINE size_t full_start(const plain_wall *wall, uint64_t number)
{
    return wall->before_full + number * FULL_WORDS;
}

PLAIN_INLINE uint64_t slot_of(unsigned bits, uint64_t spread, uint64_t flow)
{
    if (spread != 0)
        return flow * spread & plain_ones_below(bits);
    uint32_t x = (uint32_t)flow;
    x = (x & 0x55555555) << 1 | (x >> 1 & 0x55555555);
    x = (x & 0x33333333) << 2 | (x >> 2 & 0x33333333);
    x = (x & 0x0f0f0f0f) << 4 | (x >> 4 & 0x0f0f0f0f);
    return __builtin_bswap32(x) >> (32 - bits);
}

uint64_t plain_slot(unsigned bits, uint64_t spread, uint64_t flow)
{
    return slot_of(bits, spread, flow);
}

wall_answer plain_raise(uint64_t *words, size_t length, uint64_t shape, uint64_t width, uint64_t bits, uint64_t limit, uint64_t full, uint64_t spread)
{
    if (width == 0)
        width = DEFAULT_WIDTH;
    if (!known_shape(shape))
        return answer(WALL_BAD_SHAPE, 0);
    if (width > MAX_WIDTH)
        return answer(WALL_BAD_WIDTH, 0);
    if (!known_bits(bits))
        return answer(WALL_BAD_BITS, 0);
    if (!known_limit(shape, width, limit))
        return answer(WALL_BAD_LIMIT, 0);
    if (!known_full(bits, full))
        return answer(WALL_BAD_FULL, 0);
    if (!known_spread(bits, spread))
        return answer(WALL_BAD_SPREAD, 0);
    if (length != length_of(shape, width, bits, full))
        return answer(WALL_BAD_LENGTH, 0);
    memset(words, 0, length * sizeof *words);
    words[0] = HEAD_MARK | shape << 40 | width << 48 | bits << 56;
    words[1] = limit;
    words[3] = full | spread << 32;
    return answer(WALL_DONE, 0);
}

/* What the 64 counts add up to, or PLAIN_UNSOUND. Where the sum is not asked for, level 1 is added up only if it could be over the total. */
PLAIN_INLINE uint64_t sum_of(const plain_wall *wall, const uint64_t *words, const uint64_t *bucket, bool asked)
{
    const uint64_t *marks = bucket + wall->width;
    uint64_t sum = 0, most_low = ((uint64_t)PLACES << wall->width) - PLACES;
    if (plain_goes_on(marks, wall->shape)) {
        if (marks[wall->shape] >> FLAG_BIT)
            return plain_flagged_sum(bucket, wall->shape, wall->width, words + wall->before_full, wall->used, wall->total);
        sum = plain_upper_sum(marks, wall->shape);
        if (sum == PLAIN_UNSOUND)
            return PLAIN_UNSOUND;
        sum <<= wall->width;
    }
    if (!asked && sum + most_low <= wall->total)
        return sum;
    sum += plain_first_sum(bucket, wall->width);
    return sum <= wall->total ? sum : PLAIN_UNSOUND;
}

/* The refusals that lookup and increment share; else WALL_DONE, the wall, and the slot of the flow. */
PLAIN_INLINE uint64_t judge(const uint64_t *words, size_t length, uint64_t flow, plain_wall *wall, uint64_t *slot)
{
    if (!open_wall(words, length, wall))
        return WALL_BAD_HEADER;
    if (flow >> wall->bits)
        return WALL_NO_FLOW;
    *slot = slot_of(wall->bits, wall->spread, flow);
    return sum_of(wall, words, words + bucket_start(wall, *slot / PLACES), false) == PLAIN_UNSOUND ? WALL_UNSOUND : WALL_DONE;
}

/* The full-size bucket of a flagged bucket. */
PLAIN_INLINE size_t full_of(const plain_wall *wall, const uint64_t *bucket)
{
    return full_start(wall, bucket[wall->width + wall->shape] >> NUMBER_BIT);
}

PLAIN_INLINE bool flagged(const plain_wall *wall, const uint64_t *bucket)
{
    return bucket[wall->width + wall->shape] >> FLAG_BIT & 1;
}

/* The count at a slot, whose bucket is sound. */
PLAIN_INLINE uint64_t count_at(const plain_wall *wall, const uint64_t *words, uint64_t slot)
{
    const uint64_t *bucket = words + bucket_start(wall, slot / PLACES);
    unsigned place = slot % PLACES;
    if (flagged(wall, bucket)) {
        const uint64_t *full = words + full_of(wall, bucket);
        if (full[0] >> place & 1)
            return full[1 + place];
    }
    if (bucket[wall->width] >> place & 1)
        return plain_own_count(bucket, wall->shape, wall->width, place);
    return plain_first(bucket, wall->width, place);
}

wall_answer plain_lookup(const uint64_t *words, size_t length, uint64_t flow)
{
    plain_wall wall;
    uint64_t slot, number = judge(words, length, flow, &wall, &slot);
    if (number != WALL_DONE)
        return answer(number, 0);
    return answer(WALL_DONE, count_at(&wall, words, slot));
}

/* One more at a place of a flagged bucket, which is moved then if it was not before; answers its count. */
PLAIN_INLINE uint64_t grow_full(const plain_wall *wall, const uint64_t *bucket, uint64_t *full, unsigned place)
{
    if (!(full[0] >> place & 1)) {
        full[0] |= (uint64_t)1 << place;
        full[1 + place] = plain_own_count(bucket, wall->shape, wall->width, place);
    }
    return ++full[1 + place];
}

PLAIN_INLINE void overflow(const plain_wall *wall, uint64_t *words, uint64_t *bucket)
{
    memset(words + full_start(wall, wall->used), 0, FULL_WORDS * sizeof *words);
    bucket[wall->width + wall->shape] |= (uint64_t)1 << FLAG_BIT | wall->used << NUMBER_BIT;
    words[3] += (uint64_t)1 << 16;
}

wall_answer plain_increment(uint64_t *words, size_t length, uint64_t flow)
{
    plain_wall wall;
    uint64_t slot, number = judge(words, length, flow, &wall, &slot);
    if (number != WALL_DONE)
        return answer(number, 0);
    if (wall.total == wall.limit)
        return answer(WALL_AT_LIMIT, 0);
    uint64_t *bucket = words + bucket_start(&wall, slot / PLACES);
    unsigned place = slot % PLACES;
    if (!flagged(&wall, bucket)) {
        uint64_t count = plain_first(bucket, wall.width, place);
        bool carries = count == plain_ones_below(wall.width);
        if (bucket[wall.width] >> place & 1)
            count = plain_own_count(bucket, wall.shape, wall.width, place);
        if (!carries)
            plain_add_first(bucket, wall.width, place, 1);
        if (!carries || plain_carry(bucket, wall.shape, wall.width, place)) {
            words[2] = wall.total + 1;
            return answer(WALL_DONE, count + 1);
        }
        if (wall.used == wall.full)
            return answer(WALL_NO_FULL, 0);
        overflow(&wall, words, bucket);
    }
    words[2] = wall.total + 1;
    return answer(WALL_DONE, grow_full(&wall, bucket, words + full_of(&wall, bucket), place));
}

/* The first word is zero, and each is as the one before it. */
static bool all_zero(const uint64_t *words, size_t count)
{
    return count == 0 || (words[0] == 0 && memcmp(words, words + 1, (count - 1) * sizeof *words) == 0);
}

/* The full-size numbers met: among sound buckets one that is held twice shows; that none is missing then follows from how many are held. */
typedef struct {
    uint64_t held[MAX_FULL / 64], count;
    bool twice;
} numbers;

static void hold(numbers *met, uint64_t number)
{
    uint64_t bit = (uint64_t)1 << number % 64;
    met->twice |= (met->held[number / 64] & bit) != 0;
    met->held[number / 64] |= bit;
    met->count++;
}

wall_answer plain_check(const uint64_t *words, size_t length)
{
    plain_wall wall;
    numbers met = {{0}, 0, false};
    uint64_t counted = 0;
    if (!open_wall(words, length, &wall))
        return answer(WALL_BAD_HEADER, 0);
    const uint64_t *first = words + HEAD_WORDS, *end = words + wall.before_full;
    for (const uint64_t *bucket = first; bucket != end; bucket += wall.bucket_words) {
        uint64_t sum = sum_of(&wall, words, bucket, true);
        if (sum == PLAIN_UNSOUND)
            return answer(WALL_UNSOUND, (uint64_t)(bucket - first) / wall.bucket_words);
        counted += sum;
        if (flagged(&wall, bucket))
            hold(&met, bucket[wall.width + wall.shape] >> NUMBER_BIT);
    }
    bool rest = all_zero(words + full_start(&wall, wall.used), (wall.full - wall.used) * FULL_WORDS);
    if (counted != wall.total || met.twice || met.count != wall.used || !rest)
        return answer(WALL_UNSOUND_WALL, 0);
    return answer(WALL_DONE, 0);
}

/* How many flows are listed does not depend on their order: they are counted by slot. The second walk stops with the last of them. */
wall_answer plain_busy(const uint64_t *words, size_t length, uint64_t floor, uint64_t *list, size_t list_length)
{
    plain_wall wall;
    uint64_t listed = 0;
    if (!open_wall(words, length, &wall))
        return answer(WALL_BAD_HEADER, 0);
    uint64_t number = plain_check(words, length).number, flows = (uint64_t)1 << wall.bits;
    if (number != WALL_DONE)
        return answer(number, 0);
    for (uint64_t slot = 0; slot < flows; slot++)
        listed += count_at(&wall, words, slot) >= floor;
    if (listed > list_length / 2)
        return answer(WALL_LIST_SHORT, 0);
    const uint64_t *end = list + 2 * listed;
    for (uint64_t flow = 0; list < end; flow++) {
        uint64_t count = count_at(&wall, words, slot_of(wall.bits, wall.spread, flow));
        if (count >= floor) {
            *list++ = flow;
            *list++ = count;
        }
    }
    return answer(WALL_DONE, listed);
}

wall_answer plain_close(uint64_t *words, size_t length)
{
    plain_wall wall;
    if (!open_wall(words, length, &wall))
        return answer(WALL_BAD_HEADER, 0);
    memset(words + HEAD_WORDS, 0, (length - HEAD_WORDS) * sizeof *words);
    words[2] = 0;
    words[3] = wall.full | wall.spread << 32;
    return answer(WALL_DONE, 0);
}
