#include "filed.h"

#include <stdlib.h>
#include <string.h>

#include "lent.h"

enum { MOST_BOATS = 255 };

int stands_in_file(const harbour_tables *given) {
    if (given->n > MOST_BOATS || given->pair_bytes % 2 != 0) return 0;
    for (size_t at = 0; at < given->pair_bytes; at += 2) {
        if (given->pairs[at] >= given->n) return 0;
    }
    return 1;
}

static uint8_t *copy_bytes(const uint8_t *from, size_t bytes) {
    uint8_t *made = (uint8_t *)memory(bytes);
    if (bytes != 0) memcpy(made, from, bytes);
    return made;
}

static size_t words_needed(const harbour_tables *given) {
    size_t words = 0;
    for (size_t at = 0; at < given->pair_bytes; at += 2) words += given->sizes[given->pairs[at]];
    return words;
}

static harbour_tables copy_tables(const harbour_tables *given) {
    const size_t words = words_needed(given);
    uint64_t *rows = (uint64_t *)memory(words * sizeof *rows);
    for (size_t at = 0; at < words; at++) rows[at] = at < given->row_words ? given->rows[at] : 0;
    harbour_tables made = {copy_bytes(given->sizes, given->n), given->n, copy_bytes(given->pairs, given->pair_bytes),
        given->pair_bytes, rows, words};
    return made;
}

static void put(filed *into, unsigned byte) {
    into->bytes[into->length] = (uint8_t)byte;
    into->length += 1;
}

static void put_mark(filed *into, const char *mark) {
    put(into, (unsigned char)mark[0]);
    put(into, (unsigned char)mark[1]);
}

static void put_low_first(filed *into, uint64_t number, unsigned bytes) {
    for (unsigned byte = 0; byte < bytes; byte++) put(into, (unsigned)(number >> (8 * byte) & 255));
}

static void put_sizes(filed *into) {
    put_mark(into, "SZ");
    put(into, (unsigned)into->tables.n);
    for (size_t boat = 0; boat < into->tables.n; boat++) put(into, into->tables.sizes[boat]);
}

static void put_pairs(filed *into) {
    const uint64_t *row = into->tables.rows;
    for (const uint8_t *pair = into->tables.pairs; pair < into->tables.pairs + into->tables.pair_bytes; pair += 2) {
        put_mark(into, "PR");
        put(into, pair[0]);
        put(into, pair[1]);
        for (size_t slot = 0; slot < into->tables.sizes[pair[0]]; slot++) put_low_first(into, *row++, 8);
    }
}

filed file_of(const harbour_tables *given) {
    filed made;
    made.tables = copy_tables(given);
    made.length = 0;
    made.bytes = (uint8_t *)memory(3 + given->n + 2 * given->pair_bytes + 8 * made.tables.row_words + 4);
    put_sizes(&made);
    put_pairs(&made);
    put_mark(&made, "ED");
    put_low_first(&made, given->pair_bytes / 2, 2);
    return made;
}

void free_file(filed *made) {
    free((void *)made->tables.sizes);
    free((void *)made->tables.pairs);
    free((void *)made->tables.rows);
    free(made->bytes);
}
