#include "lent_tables.h"

#include "tally.h"

lent_tables lend_tables(const harbour_tables *given) {
    lent_tables made;
    made.sizes = lend_bytes(given->sizes, given->n);
    made.pairs = lend_bytes(given->pairs, given->pair_bytes);
    made.rows = lend_words(given->rows, given->row_words);
    return made;
}

harbour_tables tables_of(const lent_tables *lent) {
    harbour_tables seen;
    seen.sizes = bytes_of(&lent->sizes);
    seen.n = lent->sizes.length;
    seen.pairs = bytes_of(&lent->pairs);
    seen.pair_bytes = lent->pairs.length;
    seen.rows = words_of(&lent->rows);
    seen.row_words = lent->rows.length / sizeof(uint64_t);
    return seen;
}

void tables_left_alone(const char *what, const lent_tables *lent) {
    holds(what, "sizes changed", left_alone_from(&lent->sizes, 0));
    holds(what, "pairs changed", left_alone_from(&lent->pairs, 0));
    holds(what, "rows changed", left_alone_from(&lent->rows, 0));
}

void take_tables_back(lent_tables *lent) {
    take_back(&lent->sizes);
    take_back(&lent->pairs);
    take_back(&lent->rows);
}
