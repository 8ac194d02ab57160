/*
 * The host's calls from C, on both sides of each edge. A check that fails prints the call, what was expected and what came; then the exit status is 1.
 * The image's bytes stand between two pages that cannot be read, so that a read outside the slice fails too.
 */
#define _DEFAULT_SOURCE

#include "wall.h"

#include <inttypes.h>
#include <signal.h>
#include <stdio.h>
#include <stdlib.h>
#include <string.h>
#include <sys/mman.h>
#include <unistd.h>

_Static_assert(sizeof(wall_answer) == 16, "an answer is two words");
_Static_assert(offsetof(wall_answer, value) == 8, "the number comes first");

static unsigned long checks, failures;
static char call[160]; /* the call under way */

static void judge(wall_answer came, uint64_t number, uint64_t value)
{
    checks++;
    if (came.number == number && came.value == value)
        return;
    failures++;
    fprintf(stderr, "host: %s: expected number %" PRIu64 " value %" PRIu64 " (%" PRIx64 " hex), came number %" PRIu64 " value %" PRIu64 " (%" PRIx64 " hex)\n",
            call, number, value, value, came.number, came.value, came.value);
}

static void slot(uint64_t bits, uint64_t spread, uint64_t flow, uint64_t number, uint64_t value)
{
    snprintf(call, sizeof call, "wall_slot(%" PRIu64 ", %" PRIu64 ", %" PRIu64 ")", bits, spread, flow);
    judge(wall_slot(bits, spread, flow), number, value);
}

static void limits(uint64_t shape, uint64_t width, uint64_t number, uint64_t value)
{
    snprintf(call, sizeof call, "wall_limits(%" PRIu64 ", %" PRIu64 ")", shape, width);
    judge(wall_limits(shape, width), number, value);
}

static void image(const uint8_t *bytes, size_t length, uint64_t n, uint64_t number, uint64_t value)
{
    snprintf(call, sizeof call, "wall_image(%p, %zu, %" PRIu64 ")", (const void *)bytes, length, n);
    judge(wall_image(bytes, length, n), number, value);
}

/* A read that the system refuses, or a call that does not end: said, and a failure. */
static void stopped(int by)
{
    const char *text = by == SIGALRM ? ": no answer\n" : ": a read outside the slice\n";
    ssize_t written = write(STDERR_FILENO, "host: ", 6);
    written += write(STDERR_FILENO, call, strlen(call));
    written += write(STDERR_FILENO, text, strlen(text));
    _exit(written > 0 ? 1 : 2);
}

/* ---- the slot */

/* The low bits of a flow in reverse order, one at a time. */
static uint64_t reversed(unsigned bits, uint64_t flow)
{
    uint64_t r = 0;
    for (unsigned i = 0; i < bits; i++)
        r = r * 2 + (flow >> i) % 2;
    return r;
}

/* Bits 6 to 22 and no others, however large; the last flow and the one after it; 3 before 8. */
static void slots_within(uint64_t spread)
{
    for (uint64_t b = 0; b <= 70; b++)
        slot(b, spread, 0, b >= 6 && b <= 22 ? WALL_DONE : WALL_BAD_BITS, 0);
    slot(UINT64_MAX, spread, 0, WALL_BAD_BITS, 0);
    slot(256 + 6, spread, 0, WALL_BAD_BITS, 0);
    slot((UINT64_C(1) << 32) + 6, spread, 0, WALL_BAD_BITS, 0);
    for (unsigned b = 6; b <= 22; b++) {
        uint64_t flows = UINT64_C(1) << b;
        slot(b, spread, flows - 1, WALL_DONE, spread == 0 ? flows - 1 : flows - spread);
        slot(b, spread, flows, WALL_NO_FLOW, 0);
        slot(b, spread, UINT64_C(1) << 32, WALL_NO_FLOW, 0);
        slot(b, spread, UINT64_MAX, WALL_NO_FLOW, 0);
    }
    slot(5, spread, 32, WALL_BAD_BITS, 0);
    slot(23, spread, UINT64_C(1) << 23, WALL_BAD_BITS, 0);
    slot(0, spread, UINT64_MAX, WALL_BAD_BITS, 0);
    slot(UINT64_MAX, spread, UINT64_MAX, WALL_BAD_BITS, 0);
}

/* Both sides of the spread's edges; 3 before 15 before 8. */
static void spreads(void)
{
    const uint64_t high = UINT64_C(1) << 32, top = UINT64_C(1) << 63;
    for (unsigned b = 6; b <= 22; b++) {
        const uint64_t flows = UINT64_C(1) << b;
        const uint64_t good[] = {1, 3, flows / 2 - 1, flows / 2 + 1, flows - 3, flows - 1};
        const uint64_t bad[] = {2,    4,        flows - 2,        flows, flows + 1, 2 * flows - 1,  high - 2,  high - 1,
                                high, high + 1, high + flows - 1, top,   top + 1,   UINT64_MAX - 1, UINT64_MAX};
        for (size_t i = 0; i < sizeof good / sizeof *good; i++) {
            slot(b, good[i], 1, WALL_DONE, good[i]);
            slot(b, good[i], flows - 1, WALL_DONE, flows - good[i]);
            slot(b, good[i], flows, WALL_NO_FLOW, 0);
        }
        for (size_t i = 0; i < sizeof bad / sizeof *bad; i++) {
            slot(b, bad[i], 0, WALL_BAD_SPREAD, 0);
            slot(b, bad[i], flows - 1, WALL_BAD_SPREAD, 0);
            slot(b, bad[i], flows, WALL_BAD_SPREAD, 0);
            slot(b, bad[i], UINT64_MAX, WALL_BAD_SPREAD, 0);
        }
    }
    slot(5, 2, 0, WALL_BAD_BITS, 0);
    slot(5, 32, 32, WALL_BAD_BITS, 0);
    slot(23, (UINT64_C(1) << 23) + 1, 0, WALL_BAD_BITS, 0);
    slot(UINT64_MAX, UINT64_MAX, UINT64_MAX, WALL_BAD_BITS, 0);
}

/* With spread 0 the document's slots, P2 and P3; with an odd one products by hand. A slot gives the flow back by spread 0, or by the inverse spread. */
static void slots_by_hand(void)
{
    slot(6, 0, 0, WALL_DONE, 0);
    slot(6, 0, 1, WALL_DONE, 32);
    slot(6, 0, 2, WALL_DONE, 16);
    slot(6, 0, 3, WALL_DONE, 48);
    slot(6, 0, 63, WALL_DONE, 63);
    slot(9, 0, 1, WALL_DONE, 256);
    slot(9, 0, 8, WALL_DONE, 32);

    slot(6, 1, 1, WALL_DONE, 1);
    slot(6, 1, 32, WALL_DONE, 32);
    slot(6, 37, 2, WALL_DONE, 10);
    slot(6, 63, 62, WALL_DONE, 2);
    slot(9, 511, 1, WALL_DONE, 511);
    slot(16, 40503, 2, WALL_DONE, 15470);
    slot(22, 4194303, 4194303, WALL_DONE, 1);
    slot(22, 4194301, 4194302, WALL_DONE, 6);

    slot(6, 0, 32, WALL_DONE, 1);
    slot(6, 3, 1, WALL_DONE, 3);
    slot(6, 3, 3, WALL_DONE, 9);
    slot(6, 43, 3, WALL_DONE, 1);
}

/* Every flow of a spread: its bits reversed, or the spread added up as often as the flow says. All slots are met. */
static void every_slot(unsigned b, uint64_t spread)
{
    static unsigned char met[1 << 12];
    uint64_t flows = UINT64_C(1) << b, sum = 0, slots_met = 0;
    memset(met, 0, sizeof met);
    for (uint64_t y = 0; y < flows; y++, sum = (sum + spread) % flows) {
        uint64_t came = wall_slot(b, spread, y).value;
        slot(b, spread, y, WALL_DONE, spread == 0 ? reversed(b, y) : sum);
        if (spread == 0)
            slot(b, 0, came, WALL_DONE, y);
        if (came < flows && !met[came])
            met[came] = 1, slots_met++;
    }
    snprintf(call, sizeof call, "wall_slot(%u, %" PRIu64 ", all flows)", b, spread);
    judge((wall_answer){WALL_DONE, slots_met}, WALL_DONE, flows);
}

static void slots(void)
{
    slots_within(0);
    slots_within(1);
    slots_within(3);
    spreads();
    slots_by_hand();
    for (uint64_t spread = 1; spread < 1 << 6; spread += 2)
        every_slot(6, spread);
    for (unsigned b = 6; b <= 12; b++) {
        const uint64_t flows = UINT64_C(1) << b, of[] = {0, 1, 3, flows / 2 + 1, 40503 % flows, flows - 1};
        for (size_t i = 0; i < sizeof of / sizeof *of; i++)
            every_slot(b, of[i]);
    }
    for (unsigned b = 13; b <= 22; b++)
        for (uint64_t y = 0, flows = UINT64_C(1) << b; y < flows; y += 997) {
            slot(b, 0, y, WALL_DONE, reversed(b, y));
            slot(b, 1, y, WALL_DONE, y);
            slot(b, 5003, y, WALL_DONE, y * 5003 % flows);
            slot(b, flows - 1, y, WALL_DONE, (flows - y) % flows);
        }
}

/* ---- the limits */

static void limits_of_shapes(void)
{
    static const uint64_t bad_shapes[] = {0, 1, 2, 6, 7, 256 + 3, (UINT64_C(1) << 32) + 3, UINT64_MAX};
    static const uint64_t bad_widths[] = {17, 18, 32, 255, 256, 256 + 7, UINT64_C(1) << 32, UINT64_MAX};
    static const unsigned above[] = {17, 18, 18}; /* L less the width, for shapes 3, 4, 5 */

    for (uint64_t shape = 3; shape <= 5; shape++) {
        limits(shape, 0, WALL_DONE, 7 + above[shape - 3]);
        for (uint64_t width = 1; width <= 16; width++)
            limits(shape, width, WALL_DONE, width + above[shape - 3]);
        for (size_t i = 0; i < sizeof bad_widths / sizeof *bad_widths; i++)
            limits(shape, bad_widths[i], WALL_BAD_WIDTH, 0);
    }

    /* a bad shape, and 1 before 2 */
    for (size_t i = 0; i < sizeof bad_shapes / sizeof *bad_shapes; i++) {
        limits(bad_shapes[i], 0, WALL_BAD_SHAPE, 0);
        limits(bad_shapes[i], 7, WALL_BAD_SHAPE, 0);
        limits(bad_shapes[i], 16, WALL_BAD_SHAPE, 0);
        for (size_t j = 0; j < sizeof bad_widths / sizeof *bad_widths; j++)
            limits(bad_shapes[i], bad_widths[j], WALL_BAD_SHAPE, 0);
    }
}

/* ---- the image */

static uint64_t eight(const uint8_t *bytes)
{
    uint64_t word = 0;
    for (int i = 7; i >= 0; i--)
        word = word << 8 | bytes[i];
    return word;
}

/* Each word of a slice of this length, the numbers past its end, and those at which 8 * n or 8 * n + 8 wraps to 0 or a little more. */
static void words_of(const uint8_t *bytes, size_t length)
{
    static const uint64_t far[] = {
        (UINT64_C(1) << 61) - 1, UINT64_C(1) << 61, (UINT64_C(1) << 61) + 1, UINT64_C(1) << 32,
        UINT64_C(1) << 62,       UINT64_C(1) << 63, UINT64_MAX - 1,          UINT64_MAX,
    };
    size_t words = length / 8;

    for (size_t n = 0; n < words; n++)
        image(bytes, length, n, WALL_DONE, eight(bytes + 8 * n));
    image(bytes, length, words, WALL_NO_WORD, 0);
    image(bytes, length, words + 1, WALL_NO_WORD, 0);
    for (size_t i = 0; i < sizeof far / sizeof *far; i++)
        image(bytes, length, far[i], WALL_NO_WORD, 0);
}

static void images(void)
{
    static const uint8_t first[8] = {0x42, 0x57, 0x4C, 0x01, 0x00, 0x03, 0x01, 0x06};
    size_t page = (size_t)sysconf(_SC_PAGESIZE);
    uint8_t *all = mmap(NULL, 3 * page, PROT_READ | PROT_WRITE, MAP_PRIVATE | MAP_ANONYMOUS, -1, 0);
    uint8_t *start, *end;

    if (all == MAP_FAILED || mprotect(all, page, PROT_NONE) != 0 || mprotect(all + 2 * page, page, PROT_NONE) != 0) {
        perror("host: mmap");
        exit(1);
    }
    start = all + page;
    end = start + page;
    for (size_t i = 0; i < page; i++)
        start[i] = (uint8_t)(i * 167 + i / 256 + 129);

    /* the document's word 0, P1 */
    image(first, 8, 0, WALL_DONE, UINT64_C(0x06010300014C5742));

    /* by hand: 15 bytes have one word, 16 two */
    image(end - 15, 15, 0, WALL_DONE, eight(end - 15));
    image(end - 15, 15, 1, WALL_NO_WORD, 0);
    image(end - 16, 16, 1, WALL_DONE, eight(end - 8));
    image(end - 16, 16, 2, WALL_NO_WORD, 0);
    image(end - 7, 7, 0, WALL_NO_WORD, 0);

    /* slices that end at the last readable byte, and that begin at the first */
    for (size_t length = 0; length <= 40; length++) {
        words_of(end - length, length);
        words_of(start, length);
    }
    words_of(start, page);
    words_of(start + 1, page - 1);

    /* an empty slice: at its own place, at an unreadable page, nowhere */
    words_of(start, 0);
    words_of(all, 0);
    words_of(NULL, 0);

    munmap(all, 3 * page);
}

int main(void)
{
    signal(SIGSEGV, stopped);
    signal(SIGBUS, stopped);
    signal(SIGALRM, stopped);
    alarm(60); /* all of it takes less than a second */
    slots();
    limits_of_shapes();
    images();
    if (failures != 0) {
        fprintf(stderr, "host: %lu of %lu checks failed\n", failures, checks);
        return 1;
    }
    printf("host: %lu checks passed\n", checks);
    return 0;
}
