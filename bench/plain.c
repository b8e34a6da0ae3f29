#include "slots.h"

#include <string.h>

/* For each boat and b: how many of its pairs stand before boat b. */
static void make_ranks(uint8_t rank[HARBOUR_BOATS][HARBOUR_BOATS], const index_of *x)
{
    for (size_t i = 0; i < x->n; i++) {
        const link *first = x->links + x->first[i], *end = x->links + x->first[i + 1], *l = first;
        for (size_t b = 0; b <= i; b++) {
            while (l < end && l->boat < b)
                l++;
            rank[i][b] = (uint8_t)(l - first);
        }
    }
}

/* Every b(j) down to the boat before i: as b(j) is below j, those of the boats before i stay as they are. */
INLINE void lower(uint8_t low[HARBOUR_BOATS], size_t i, uint8_t before)
{
    for (size_t j = 0; j < HARBOUR_BOATS; j++)
        low[j] = low[j] < before ? low[j] : before;
    low[i] = before;
}

/* BM. */
static harbour_reply marking(const index_of *x, uint8_t *plan, allowance given)
{
    uint64_t held[HARBOUR_BOATS];
    uint8_t rank[HARBOUR_BOATS][HARBOUR_BOATS], mark[HARBOUR_BOATS][HARBOUR_SLOTS], low[HARBOUR_BOATS] = { 0 };
    uint64_t checks = given.checks, trials = given.trials, slot = 0;
    size_t i = 0;
    make_ranks(rank, x);
    memset(mark, 0, x->n * sizeof *mark);
    while (i < x->n) {
        const uint8_t b = low[i], size = x->sizes[i], before = (uint8_t)(i ? i - 1 : 0);
        const link *first = x->links + x->first[i] + rank[i][b], *end = x->links + x->first[i + 1];
        for (; slot < size; slot++) {
            if (!trials)
                return reply(HARBOUR_UNDECIDED_BY_TRIALS, given, checks, trials);
            trials--;
            if (mark[i][slot] < b)
                continue;
            const link *l = failing(first, end, held, slot, &checks);
            if (!l)
                return reply(HARBOUR_UNDECIDED_BY_CHECKS, given, checks, trials);
            mark[i][slot] = l == end ? before : (uint8_t)l->boat;
            if (l == end)
                break;
        }
        if (slot < size) {
            held[i++] = slot;
            slot = 0;
            continue;
        }
        if (!i)
            return reply(HARBOUR_NO_PLAN, given, checks, trials);
        lower(low, i--, before);
        slot = held[i] + 1;
    }
    return solved(held, x->n, plan, given, checks, trials);
}

/* A live word for each boat at the start, then one for what each pair's trial leaves: nothing is put back. */
typedef struct {
    uint64_t live[HARBOUR_BOATS + HARBOUR_PAIRS], blame[HARBOUR_BOATS + HARBOUR_PAIRS];
    uint32_t last[HARBOUR_BOATS];
} words_of;

static void make_words(words_of *w, index_of *x)
{
    for (size_t j = 0; j < x->n; j++) {
        w->live[j] = ~0ull >> (HARBOUR_SLOTS - x->sizes[j]);
        w->blame[j] = 0;
        w->last[j] = (uint32_t)j;
    }
    for (size_t k = 0; k < x->first[x->n]; k++) {
        uint32_t *last = &w->last[x->links[k].boat];
        x->links[k].before = *last;
        *last = (uint32_t)(HARBOUR_BOATS + k);
    }
}

/* The pair whose higher boat the slot empties, or the end; NULL where the checks do not reach so far. */
INLINE const link *emptied(int jumps, const link *l, const link *end, words_of *w, size_t to, uint64_t slot, size_t i,
                           uint64_t *checks)
{
    for (; l < end; l++, to++) {
        const uint64_t live = w->live[l->before], due = ones(live), stays = live & l->rows[slot];
        if (due > *checks)
            return NULL;
        *checks -= due;
        if (!stays)
            return l;
        w->live[to] = stays;
        if (jumps)
            w->blame[to] = w->blame[l->before] | (uint64_t)(stays != live) << i;
    }
    return end;
}

/* FC and FC-CBJ. */
INLINE harbour_reply look_ahead(int jumps, index_of *x, uint8_t *plan, allowance given)
{
    words_of w;
    uint64_t held[HARBOUR_BOATS], set[HARBOUR_BOATS];
    uint64_t checks = given.checks, trials = given.trials, conflicts = 0, from = ~0ull;
    size_t i = 0;
    make_words(&w, x);
    while (i < x->n) {
        const link *first = x->links + x->first[i], *end = x->links + x->first[i + 1];
        const size_t to = HARBOUR_BOATS + x->first[i];
        uint64_t rest = w.live[w.last[i]] & from;
        for (; rest; rest &= rest - 1) {
            if (!trials)
                return reply(HARBOUR_UNDECIDED_BY_TRIALS, given, checks, trials);
            trials--;
            const link *l = emptied(jumps, first, end, &w, to, (uint64_t)__builtin_ctzll(rest), i, &checks);
            if (!l)
                return reply(HARBOUR_UNDECIDED_BY_CHECKS, given, 0, trials);
            if (l == end)
                break;
            if (jumps)
                conflicts |= w.blame[l->before];
        }
        if (rest) {
            held[i] = (uint64_t)__builtin_ctzll(rest);
            set[i++] = conflicts;
            conflicts = 0;
            from = ~0ull;
            continue;
        }
        if (jumps)
            conflicts |= w.blame[w.last[i]];
        if (jumps ? !conflicts : !i)
            return reply(HARBOUR_NO_PLAN, given, checks, trials);
        i = back(jumps, i, set, &conflicts);
        from = ~1ull << held[i];
    }
    return solved(held, x->n, plan, given, checks, trials);
}

INLINE harbour_reply searched(const harbour_tables *of, uint64_t method, uint8_t *plan, allowance given)
{
    index_of x;
    make_index(&x, method < HARBOUR_FC, of);
    switch (method) {
    case HARBOUR_BT: return look_back(0, &x, (reached){ 0, NULL, NULL, given }, plan, given);
    case HARBOUR_CBJ: return look_back(1, &x, (reached){ 0, NULL, NULL, given }, plan, given);
    case HARBOUR_BM: return marking(&x, plan, given);
    case HARBOUR_FC: return look_ahead(0, &x, plan, given);
    default: return look_ahead(1, &x, plan, given);
    }
}

outcome plain_run(const draft *of, uint64_t method, uint64_t checks, uint64_t trials)
{
    outcome got = { 0 };
    got.reply = searched(&of->made, method, got.plan, (allowance){ checks, trials });
    return got;
}
