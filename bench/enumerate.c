/* All plans of some tables, one after the other. */
#include "problems.h"

#include <string.h>

/* Do the slots of boats 0 to i keep the pairs among them that have i as the higher boat? */
static int keeps(const harbour_tables *t, const uint8_t *slots, size_t i)
{
    const uint64_t *rows = t->rows;
    for (size_t k = 0; k < t->pair_bytes; k += 2) {
        size_t lower = t->pairs[k];
        if (t->pairs[k + 1] == i && !(rows[slots[lower]] >> slots[i] & 1))
            return 0;
        rows += t->sizes[lower];
    }
    return 1;
}

static uint64_t count_from(const harbour_tables *t, uint8_t *slots, size_t i, uint64_t found, uint8_t *plan)
{
    if (i == t->n) {
        if (!found)
            memcpy(plan, slots, i);
        return found + 1;
    }
    for (slots[i] = 0; slots[i] < t->sizes[i]; slots[i]++)
        if (keeps(t, slots, i))
            found = count_from(t, slots, i + 1, found, plan);
    return found;
}

uint64_t count_plans(const harbour_tables *t, uint8_t *plan)
{
    uint8_t slots[HARBOUR_BOATS];
    return count_from(t, slots, 0, 0, plan);
}
