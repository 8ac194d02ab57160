/*
 * The stack of each of the host's calls, beyond its return address, as stack.c has it of the calls over a wall.
 */
#include "painted.h"
#include "wall.h"

#include <inttypes.h>
#include <stdio.h>
#include <stdlib.h>

enum { SLOT, LIMITS, IMAGE, CALL_KINDS };

static const char *const names[CALL_KINDS] = {"slot", "limits", "image"};

typedef struct {
    wall_answer (*slot)(uint64_t, uint64_t, uint64_t);
    wall_answer (*limits)(uint64_t, uint64_t);
    wall_answer (*image)(const uint8_t *, size_t, uint64_t);
} calls;

#define UNUSED __attribute__((unused))

static wall_answer no_slot(uint64_t bits UNUSED, uint64_t spread UNUSED, uint64_t flow UNUSED)
{
    return (wall_answer){0, 0};
}

static wall_answer no_limits(uint64_t shape UNUSED, uint64_t width UNUSED)
{
    return (wall_answer){0, 0};
}

static wall_answer no_image(const uint8_t *at UNUSED, size_t n UNUSED, uint64_t word UNUSED)
{
    return (wall_answer){0, 0};
}

static const calls measured = {wall_slot, wall_limits, wall_image};
static const calls empty = {no_slot, no_limits, no_image};

static const uint8_t bytes[] = {0, 1, 2, 3, 4, 5, 6, 7, 8, 9, 10, 11, 12, 13, 14, 15, 16};

/* The call under way, and its arguments. */
static const calls *volatile by;
static unsigned kind;
static uint64_t first, second, third;
static volatile wall_answer came;

static size_t most[CALL_KINDS];

static void make_call(void)
{
    switch (kind) {
    case SLOT:
        came = by->slot(first, second, third);
        break;
    case LIMITS:
        came = by->limits(first, second);
        break;
    default:
        came = by->image(bytes, first, second);
    }
}

static void take(unsigned call, uint64_t one, uint64_t other, uint64_t last, uint64_t number)
{
    kind = call, first = one, second = other, third = last;
    by = &empty;
    size_t bare = painted_depth(make_call);
    by = &measured;
    size_t took = painted_depth(make_call) - bare;
    if (came.number != number) {
        fprintf(stderr, "stack: %s of %" PRIu64 ", %" PRIu64 ", %" PRIu64 ": expected %" PRIu64 ", came %" PRIu64 "\n", names[call], one, other, last,
                number, came.number);
        exit(1);
    }
    if (took > most[call])
        most[call] = took;
}

int main(void)
{
    int over = 0;
    for (uint64_t bits = WALL_MIN_BITS; bits <= WALL_MAX_BITS; bits++) {
        const uint64_t flows = (uint64_t)1 << bits, spreads[] = {0, 1, flows - 1};
        for (unsigned n = 0; n < sizeof spreads / sizeof *spreads; n++) {
            take(SLOT, bits, spreads[n], 0, WALL_DONE);
            take(SLOT, bits, spreads[n], flows - 1, WALL_DONE);
            take(SLOT, bits, spreads[n], flows, WALL_NO_FLOW);
        }
        take(SLOT, bits, 2, 0, WALL_BAD_SPREAD);
        take(SLOT, bits, flows + 1, 0, WALL_BAD_SPREAD);
    }
    take(SLOT, WALL_MAX_BITS + 1, 0, 0, WALL_BAD_BITS);
    for (uint64_t shape = WALL_MIN_SHAPE; shape <= WALL_MAX_SHAPE; shape++)
        for (uint64_t width = 0; width <= WALL_MAX_WIDTH + 1; width++)
            take(LIMITS, shape, width, 0, width <= WALL_MAX_WIDTH ? WALL_DONE : WALL_BAD_WIDTH);
    take(LIMITS, WALL_MAX_SHAPE + 1, 1, 0, WALL_BAD_SHAPE);
    take(IMAGE, sizeof bytes, 0, 0, WALL_DONE);
    take(IMAGE, sizeof bytes, 1, 0, WALL_DONE);
    take(IMAGE, sizeof bytes, 2, 0, WALL_NO_WORD);
    take(IMAGE, sizeof bytes, UINT64_MAX, 0, WALL_NO_WORD);
    for (unsigned call = 0; call < CALL_KINDS; call++) {
        printf("%-10s %8zu\n", names[call], most[call]);
        if (most[call] >= WALL_STACK) {
            fprintf(stderr, "stack: %s takes %zu bytes, and has to stay below %d\n", names[call], most[call], WALL_STACK);
            over = 1;
        }
    }
    return over;
}
