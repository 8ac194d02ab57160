/*
 * A flat array of 64-bit counters behind the same bounds: the flow below N, the total below M. Its check adds the counters up, before a busy list too.
 */
#ifndef FLAT_H
#define FLAT_H

#include "wall.h"

typedef struct {
    uint64_t flows, limit, total;
    uint64_t *counts;
} flat_store;

wall_answer flat_lookup(const flat_store *store, uint64_t flow);
wall_answer flat_increment(flat_store *store, uint64_t flow);
wall_answer flat_check(const flat_store *store);
wall_answer flat_busy(const flat_store *store, uint64_t floor, uint64_t *list, size_t list_length);
wall_answer flat_close(flat_store *store);

#endif
