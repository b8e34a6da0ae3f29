/* The examination in plain C: numbers 2, 3, 4, 51 to 54, 6 and 7. Each search gives the lowest boat, pair or word
 * at fault, or their number. */
#include "plain.h"

static size_t bad_size(const harbour_tables *t)
{
    size_t i = 0;
    while (i < t->n && t->sizes[i] && t->sizes[i] <= HARBOUR_SLOTS)
        i++;
    return i;
}

/* The words that the pairs before it ask for go to words. */
static size_t bad_pair(const harbour_tables *t, size_t *words)
{
    size_t k = 0;
    int last = -1;
    for (; k < t->pair_bytes / 2; k++) {
        const uint8_t lower = t->pairs[2 * k], higher = t->pairs[2 * k + 1];
        const int pair = lower << 8 | higher;
        if (lower >= higher || higher >= t->n || pair <= last)
            break;
        *words += t->sizes[lower];
        last = pair;
    }
    return k;
}

static harbour_reply found(uint64_t answer, size_t place)
{
    return (harbour_reply){ answer, place, 0, 0 };
}

/* Which way a bad pair is bad. */
static harbour_reply way_bad(const harbour_tables *t, size_t k)
{
    const uint8_t lower = t->pairs[2 * k], higher = t->pairs[2 * k + 1];
    if (lower >= t->n)
        return found(HARBOUR_REFUSED_PAIR_NO_BOAT, 2 * k);
    if (higher >= t->n)
        return found(HARBOUR_REFUSED_PAIR_NO_BOAT, 2 * k + 1);
    if (lower == higher)
        return found(HARBOUR_REFUSED_PAIR_SAME_BOAT, 2 * k + 1);
    if (lower > higher)
        return found(HARBOUR_REFUSED_PAIR_HIGHER_FIRST, 2 * k);
    return found(HARBOUR_REFUSED_PAIR_NOT_RISING, 2 * k);
}

/* A pair's words are joined, so that only a pair at fault is gone through word by word. */
static size_t bad_word(const harbour_tables *t)
{
    size_t from = 0;
    for (size_t k = 0; k < t->pair_bytes; k += 2) {
        const size_t to = from + t->sizes[t->pairs[k]];
        const uint64_t past = ~1ull << (t->sizes[t->pairs[k + 1]] - 1);
        uint64_t joined = 0;
        for (size_t at = from; at < to; at++)
            joined |= t->rows[at];
        if (joined & past) {
            while (!(t->rows[from] & past))
                from++;
            return from;
        }
        from = to;
    }
    return from;
}

harbour_reply plain_examine(const harbour_tables *t)
{
    size_t place, words = 0;
    if (t->n > HARBOUR_BOATS)
        return found(HARBOUR_REFUSED_BOATS, 0);
    if ((place = bad_size(t)) < t->n)
        return found(HARBOUR_REFUSED_SIZE, place);
    if (t->pair_bytes % 2 || t->pair_bytes > 2 * HARBOUR_PAIRS)
        return found(HARBOUR_REFUSED_PAIR_BYTES, 0);
    if ((place = bad_pair(t, &words)) < t->pair_bytes / 2)
        return way_bad(t, place);
    if (words != t->row_words)
        return found(HARBOUR_REFUSED_ROW_WORDS, 0);
    if ((place = bad_word(t)) < words)
        return found(HARBOUR_REFUSED_ROW_BIT, place);
    return found(HARBOUR_FINE, 0);
}
