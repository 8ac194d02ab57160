/*
 * A probe: a million packets of 65,536 flows, of which the busiest has twice as many as the second, three times as many as the third and so on (Zipf's law),
 * numbered in no order. They are counted in a wall and, to show that it is exact, in a plain array beside it.
 *
 *     (cd crates/card && rt lib --cpu=x86-64) && cc -O2 -I include examples/probe.c crates/card/out/libcard.a -o probe && ./probe
 */
#include "wall.h"

#include <inttypes.h>
#include <stdio.h>

enum { SHAPE = 3, WIDTH = 4, BITS = 16, FULL = 8, SPREAD = 0, LENGTH = WALL_WORDS(SHAPE, WIDTH, BITS, FULL), FLOWS = 1 << BITS, PACKETS = 1000000 };

static uint64_t words[LENGTH], plain[FLOWS];
static uint64_t flow_of[FLOWS]; /* by rank */
static double shares[FLOWS];    /* of a rank and all before it */

static uint64_t drawn(void)
{
    static uint64_t state = 88172645463325252;
    state ^= state << 13, state ^= state >> 7, state ^= state << 17;
    return state >> 11;
}

static uint64_t next_flow(void)
{
    double at = (double)drawn() / 9007199254740992 * shares[FLOWS - 1];
    uint64_t rank = 0;
    for (uint64_t half = FLOWS / 2; half > 0; half /= 2)
        if (shares[rank + half - 1] < at)
            rank += half;
    return flow_of[rank];
}

int main(void)
{
    uint64_t refused = 0, wrong = 0;
    for (uint64_t rank = 0; rank < FLOWS; rank++) {
        uint64_t other = drawn() % (rank + 1);
        flow_of[rank] = flow_of[other], flow_of[other] = rank;
        shares[rank] = (rank > 0 ? shares[rank - 1] : 0) + 1.0 / (double)(rank + 1);
    }
    if (wall_raise(words, LENGTH, SHAPE, WIDTH, BITS, WALL_MAX_LIMIT(SHAPE, WIDTH), FULL, SPREAD).number != WALL_DONE)
        return 2;
    for (uint64_t packet = 0; packet < PACKETS; packet++) {
        uint64_t flow = next_flow();
        if (wall_increment(words, LENGTH, flow).number == WALL_DONE)
            plain[flow]++;
        else
            refused++;
    }
    for (uint64_t flow = 0; flow < FLOWS; flow++) {
        wall_answer read = wall_lookup(words, LENGTH, flow);
        wrong += read.number != WALL_DONE || read.value != plain[flow];
    }
    printf("total %" PRIu64 ", refused %" PRIu64 ", full-size buckets in use %" PRIu64 " of %d\n", WALL_TOTAL(words), refused, WALL_IN_USE(words), FULL);
    printf("%.3f bytes a flow, wrong counts %" PRIu64 ", check %" PRIu64 "\n", (double)sizeof words / FLOWS, wrong, wall_check(words, LENGTH).number);
    return wrong > 0;
}
