/*
 * A plain C store over the same words, with the calls, answers and refusals of include/wall.h. It is what the proved store is measured beside.
 */
#ifndef PLAIN_H
#define PLAIN_H

#include "wall.h"

wall_answer plain_raise(uint64_t *words, size_t length, uint64_t shape, uint64_t width, uint64_t bits, uint64_t limit, uint64_t full, uint64_t spread);
wall_answer plain_lookup(const uint64_t *words, size_t length, uint64_t flow);
wall_answer plain_increment(uint64_t *words, size_t length, uint64_t flow);
wall_answer plain_check(const uint64_t *words, size_t length);
wall_answer plain_busy(const uint64_t *words, size_t length, uint64_t floor, uint64_t *list, size_t list_length);
wall_answer plain_close(uint64_t *words, size_t length);

/* The flow with its bits in reverse order, or its product with an odd spread, mod 2^bits. */
uint64_t plain_slot(unsigned bits, uint64_t spread, uint64_t flow);

#endif
