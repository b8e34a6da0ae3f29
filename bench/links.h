/* A boat's listed pairs as links, and what is left of the allowances: for the plain searches. */
#ifndef LINKS_H
#define LINKS_H

#include "plain.h"

#include <string.h>

#define INLINE static inline __attribute__((always_inline))

/* A listed pair as one of its boats sees it; before is for looking ahead: where the other boat's live word stands. */
typedef struct {
    const uint64_t *rows;
    uint32_t boat, before;
} link;

/* The pairs of boat i stand from first[i] up to first[i + 1], by rising other boat. */
typedef struct {
    size_t n;
    const uint8_t *sizes;
    uint16_t first[HARBOUR_BOATS + 1];
    link links[HARBOUR_PAIRS];
} index_of;

/* What is left of both allowances. */
typedef struct {
    uint64_t checks, trials;
} allowance;

INLINE harbour_reply reply(uint64_t answer, allowance given, uint64_t checks, uint64_t trials)
{
    return (harbour_reply){ answer, 0, given.checks - checks, given.trials - trials };
}

INLINE harbour_reply solved(const uint64_t *held, size_t n, uint8_t *plan, allowance given, uint64_t checks,
                            uint64_t trials)
{
    for (size_t i = 0; i < n; i++)
        plan[i] = (uint8_t)held[i];
    return reply(HARBOUR_SOLVED, given, checks, trials);
}

INLINE size_t deepest(uint64_t set)
{
    return 63 - (size_t)__builtin_clzll(set);
}

/* The boat that a search goes back to; who else is to blame goes along. */
INLINE size_t back(int jumps, size_t i, const uint64_t *set, uint64_t *conflicts)
{
    if (!jumps)
        return i - 1;
    const size_t to = deepest(*conflicts);
    *conflicts = (set[to] | *conflicts) & ~(1ull << to);
    return to;
}

/* The builtin is a call where the processor may lack the instruction; this is not. */
INLINE uint64_t ones(uint64_t x)
{
    x -= x >> 1 & 0x5555555555555555ull;
    x = (x & 0x3333333333333333ull) + (x >> 2 & 0x3333333333333333ull);
    return ((x + (x >> 4)) & 0x0f0f0f0f0f0f0f0full) * 0x0101010101010101ull >> 56;
}

/* under: 1 for each pair under its higher boat, 0 under its lower. */
static void make_index(index_of *x, int under, const harbour_tables *of)
{
    uint16_t next[HARBOUR_BOATS + 1] = { 0 };
    const uint64_t *rows = of->rows;
    const uint8_t *end = of->pairs + of->pair_bytes;
    x->n = of->n;
    x->sizes = of->sizes;
    for (const uint8_t *pair = of->pairs; pair < end; pair += 2)
        next[pair[under] + 1]++;
    for (size_t i = 0; i < of->n; i++)
        next[i + 1] += next[i];
    memcpy(x->first, next, sizeof next);
    for (const uint8_t *pair = of->pairs; pair < end; pair += 2) {
        x->links[next[pair[under]]++] = (link){ rows, pair[1 - under], 0 };
        rows += of->sizes[pair[0]];
    }
}

#endif
