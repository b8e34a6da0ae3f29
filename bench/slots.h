/* The steps of BT and CBJ in the form that document 01 prescribes, slot by slot. */
#ifndef SLOTS_H
#define SLOTS_H

#include "links.h"

/* The first pair that forbids the slot, or the end; NULL where the checks do not reach so far. */
INLINE const link *failing(const link *l, const link *end, const uint64_t *held, uint64_t slot, uint64_t *checks)
{
    for (; l < end; l++) {
        if (!*checks)
            return NULL;
        --*checks;
        if (!(l->rows[held[l->boat]] >> slot & 1))
            return l;
    }
    return end;
}

/* How far a search has come: boat i is next; those before it hold slots, and sets for CBJ. */
typedef struct {
    size_t i;
    const uint64_t *held, *set;
    allowance left;
} reached;

/* BT and CBJ. */
INLINE harbour_reply look_back(int jumps, const index_of *x, reached from, uint8_t *plan, allowance given)
{
    uint64_t held[HARBOUR_BOATS], set[HARBOUR_BOATS];
    uint64_t checks = from.left.checks, trials = from.left.trials, slot = 0, conflicts = 0;
    size_t i = from.i;
    for (size_t k = 0; k < i; k++) {
        held[k] = from.held[k];
        set[k] = from.set[k];
    }
    while (i < x->n) {
        const link *first = x->links + x->first[i], *end = x->links + x->first[i + 1];
        const uint64_t size = x->sizes[i];
        for (; slot < size; slot++) {
            if (!trials)
                return reply(HARBOUR_UNDECIDED_BY_TRIALS, given, checks, trials);
            trials--;
            const link *l = failing(first, end, held, slot, &checks);
            if (!l)
                return reply(HARBOUR_UNDECIDED_BY_CHECKS, given, checks, trials);
            if (l == end)
                break;
            if (jumps)
                conflicts |= 1ull << l->boat;
        }
        if (slot < size) {
            held[i] = slot;
            set[i++] = conflicts;
            slot = conflicts = 0;
            continue;
        }
        if (jumps ? !conflicts : !i)
            return reply(HARBOUR_NO_PLAN, given, checks, trials);
        i = back(jumps, i, set, &conflicts);
        slot = held[i] + 1;
    }
    return solved(held, x->n, plan, given, checks, trials);
}

#endif
