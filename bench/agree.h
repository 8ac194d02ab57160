/*
 * The plain store and the proved one side by side: every answer and every word has to be the same, or the program stops with what differed.
 */
#ifndef AGREE_H
#define AGREE_H

#include "stream.h"

/* Two walls of one length, the first the proved store's, the second the plain one's. */
typedef struct {
    size_t length;
    uint64_t *proved, *plain;
} pair;

void agree_raise(pair *both, uint64_t shape, uint64_t width, uint64_t bits, uint64_t limit, uint64_t full, uint64_t spread);
uint64_t agree_lookup(pair *both, uint64_t flow);
uint64_t agree_increment(pair *both, uint64_t flow);
uint64_t agree_check(pair *both);
uint64_t agree_busy(pair *both, uint64_t floor, size_t list_length);
void agree_close(pair *both);
void agree_words(const pair *both);

/* The stream of a case through both stores, one call at a time. */
void build_case(unsigned shape, wall_kind kind, const char *path);

/* Small walls with damaged words through both stores; prints how often each number was answered. */
void agree_on_damage(void);

#endif
