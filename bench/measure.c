#define _POSIX_C_SOURCE 200809L

#include "measure.h"
#include "flat.h"
#include "plain.h"
#include "stream.h"

#include <stdio.h>
#include <stdlib.h>
#include <string.h>
#include <time.h>

enum { CHECKS = 10, CLOSES = 100, LISTS = 2, LIST_WORDS = 2 * FLOWS, REPETITIONS = 9, STORES = 3 };

enum { LOOKUP, INCREMENT, CHECK, CLOSE, LIST_ALL, LIST_NONE, KINDS };

typedef struct {
    bench_case made;
    uint64_t *proved, *plain;
    flat_store flat;
    uint64_t *list;
} stores;

static volatile uint64_t answered; /* keeps the calls from being left out */

#define REPEATED(name, times, call)                                                                                                                  \
    static void name(stores *in)                                                                                                                     \
    {                                                                                                                                                \
        uint64_t sum = 0;                                                                                                                            \
        for (unsigned turn = 0; turn < (times); turn++)                                                                                              \
            sum += (call).value;                                                                                                                     \
        answered = sum;                                                                                                                              \
    }

REPEATED(proved_lookups, in->made.calls, wall_lookup(in->proved, in->made.length, in->made.flows[turn]))
REPEATED(plain_lookups, in->made.calls, plain_lookup(in->plain, in->made.length, in->made.flows[turn]))
REPEATED(flat_lookups, in->made.calls, flat_lookup(&in->flat, in->made.flows[turn]))
REPEATED(proved_increments, in->made.calls, wall_increment(in->proved, in->made.length, in->made.flows[turn]))
REPEATED(plain_increments, in->made.calls, plain_increment(in->plain, in->made.length, in->made.flows[turn]))
REPEATED(flat_increments, in->made.calls, flat_increment(&in->flat, in->made.flows[turn]))
REPEATED(proved_checks, CHECKS, wall_check(in->proved, in->made.length))
REPEATED(plain_checks, CHECKS, plain_check(in->plain, in->made.length))
REPEATED(flat_checks, CHECKS, flat_check(&in->flat))
REPEATED(proved_closes, CLOSES, wall_close(in->proved, in->made.length))
REPEATED(plain_closes, CLOSES, plain_close(in->plain, in->made.length))
REPEATED(flat_closes, CLOSES, flat_close(&in->flat))
REPEATED(proved_lists_all, LISTS, wall_busy(in->proved, in->made.length, 0, in->list, LIST_WORDS))
REPEATED(plain_lists_all, LISTS, plain_busy(in->plain, in->made.length, 0, in->list, LIST_WORDS))
REPEATED(flat_lists_all, LISTS, flat_busy(&in->flat, 0, in->list, LIST_WORDS))
REPEATED(proved_lists_none, LISTS, wall_busy(in->proved, in->made.length, UINT64_MAX, in->list, LIST_WORDS))
REPEATED(plain_lists_none, LISTS, plain_busy(in->plain, in->made.length, UINT64_MAX, in->list, LIST_WORDS))
REPEATED(flat_lists_none, LISTS, flat_busy(&in->flat, UINT64_MAX, in->list, LIST_WORDS))

static const char *const store_names[STORES] = {"wall", "plain", "flat"};

static const struct {
    const char *name, *call;
    void (*run[STORES])(stores *);
} kinds[KINDS] = {
    {"lookup", "lookup", {proved_lookups, plain_lookups, flat_lookups}},
    {"increment", "increment", {proved_increments, plain_increments, flat_increments}},
    {"check", "check", {proved_checks, plain_checks, flat_checks}},
    {"close", "close", {proved_closes, plain_closes, flat_closes}},
    {"list-all", "busy", {proved_lists_all, plain_lists_all, flat_lists_all}},
    {"list-none", "busy", {proved_lists_none, plain_lists_none, flat_lists_none}},
};

/*
 * A check is counted by the bucket, a close by the word and a busy list by the flow; the flat array's 64 counters stand for a bucket, and it has a word
 * for each flow.
 */
static double units(const stores *in, unsigned kind, unsigned store)
{
    switch (kind) {
    case CHECK:
        return (double)CHECKS * BUCKETS;
    case CLOSE:
        return (double)CLOSES * (store == 2 ? (size_t)FLOWS : in->made.length);
    case LIST_ALL:
    case LIST_NONE:
        return (double)LISTS * FLOWS;
    default:
        return (double)in->made.calls;
    }
}

static uint64_t *fresh(size_t length)
{
    uint64_t *words = malloc(length * sizeof *words);
    if (words == NULL)
        abort();
    return words;
}

static stores opened(const char *path)
{
    bench_case made = read_case(path);
    return (stores){made, fresh(made.length), fresh(made.length), {FLOWS, 0, 0, fresh(FLOWS)}, fresh(LIST_WORDS)};
}

static void restored(stores *in)
{
    memcpy(in->proved, in->made.words, in->made.length * sizeof *in->proved);
    memcpy(in->plain, in->made.words, in->made.length * sizeof *in->plain);
    memcpy(in->flat.counts, in->made.counts, FLOWS * sizeof *in->flat.counts);
    in->flat.limit = in->made.words[1];
    in->flat.total = in->made.words[2];
}

void run_calls(const char *kind, const char *path)
{
    stores in = opened(path);
    for (unsigned k = 0; k < KINDS; k++) {
        bool asked = strcmp(kind, "all") ? !strcmp(kind, kinds[k].name) : k < LIST_ALL;
        if (!asked)
            continue;
        for (unsigned store = 0; store < STORES; store++) {
            restored(&in);
            kinds[k].run[store](&in);
            printf("%s_%s %.0f\n", store_names[store], kinds[k].call, units(&in, k, store));
        }
    }
}

/* This thread's own time: the machine may have other work. */
static double nanoseconds(void)
{
    struct timespec now;
    clock_gettime(CLOCK_THREAD_CPUTIME_ID, &now);
    return (double)now.tv_sec * 1e9 + (double)now.tv_nsec;
}

static int by_size(const void *left, const void *right)
{
    double a = *(const double *)left, b = *(const double *)right;
    return (a > b) - (a < b);
}

/* The median of each store per unit; the stores take turns, so that a disturbance meets all of them. */
static void medians(stores *in, unsigned kind, double median[STORES])
{
    double took[STORES][REPETITIONS];
    for (unsigned turn = 0; turn < REPETITIONS; turn++)
        for (unsigned store = 0; store < STORES; store++) {
            restored(in);
            double began = nanoseconds();
            kinds[kind].run[store](in);
            took[store][turn] = (nanoseconds() - began) / units(in, kind, store);
        }
    for (unsigned store = 0; store < STORES; store++) {
        qsort(took[store], REPETITIONS, sizeof took[store][0], by_size);
        median[store] = took[store][REPETITIONS / 2];
    }
}

void print_ratios(const char *path)
{
    stores in = opened(path);
    double median[KINDS][STORES];
    for (unsigned kind = 0; kind < KINDS; kind++)
        medians(&in, kind, median[kind]);
    for (unsigned store = 0; store < 2; store++) {
        fputs(store_names[store], stdout);
        for (unsigned kind = 0; kind < KINDS; kind++)
            printf(" %.1f", median[kind][store] / median[kind][2]);
        putchar('\n');
    }
}

void print_bits(const char *path)
{
    bench_case made = read_case(path);
    unsigned shape = made.words[0] >> 40 & 0xff;
    double buckets = (double)BUCKETS * (WIDTH + shape + 1);
    printf("%zu %.2f %.2f\n", made.length, (double)made.length * 64 / FLOWS, buckets * 64 / FLOWS);
}
