#include "flat.h"

#include <string.h>

static wall_answer answer(uint64_t number, uint64_t value)
{
    return (wall_answer){number, value};
}

wall_answer flat_lookup(const flat_store *store, uint64_t flow)
{
    if (flow >= store->flows)
        return answer(WALL_NO_FLOW, 0);
    return answer(WALL_DONE, store->counts[flow]);
}

wall_answer flat_increment(flat_store *store, uint64_t flow)
{
    if (flow >= store->flows)
        return answer(WALL_NO_FLOW, 0);
    if (store->total >= store->limit)
        return answer(WALL_AT_LIMIT, 0);
    store->total++;
    return answer(WALL_DONE, ++store->counts[flow]);
}

wall_answer flat_check(const flat_store *store)
{
    uint64_t sum = 0;
    for (uint64_t flow = 0; flow < store->flows; flow++)
        sum += store->counts[flow];
    return answer(sum == store->total ? WALL_DONE : WALL_UNSOUND_WALL, 0);
}

wall_answer flat_busy(const flat_store *store, uint64_t floor, uint64_t *list, size_t list_length)
{
    wall_answer checked = flat_check(store);
    uint64_t listed = 0;
    if (checked.number != WALL_DONE)
        return checked;
    for (uint64_t flow = 0; flow < store->flows; flow++)
        listed += store->counts[flow] >= floor;
    if (listed > list_length / 2)
        return answer(WALL_LIST_SHORT, 0);
    const uint64_t *end = list + 2 * listed;
    for (uint64_t flow = 0; list < end; flow++)
        if (store->counts[flow] >= floor) {
            *list++ = flow;
            *list++ = store->counts[flow];
        }
    return answer(WALL_DONE, listed);
}

wall_answer flat_close(flat_store *store)
{
    store->total = 0;
    memset(store->counts, 0, store->flows * sizeof *store->counts);
    return answer(WALL_DONE, 0);
}
