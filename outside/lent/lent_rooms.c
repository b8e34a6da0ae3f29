#include "lent_rooms.h"

#include <string.h>

#include "tally.h"

room room_for(harbour_tables tables) {
    room enough;
    enough.sizes = tables.n;
    enough.pairs = tables.pair_bytes;
    enough.rows = tables.row_words;
    return enough;
}

lent_tables lend_rooms(room lent) {
    lent_tables made;
    made.sizes = lend_bytes(NULL, lent.sizes);
    made.pairs = lend_bytes(NULL, lent.pairs);
    made.rows = lend_words(NULL, lent.rows);
    return made;
}

harbour_rooms rooms_of(const lent_tables *lent) {
    harbour_rooms seen;
    seen.sizes = bytes_of(&lent->sizes);
    seen.size_room = lent->sizes.length;
    seen.pairs = bytes_of(&lent->pairs);
    seen.pair_room = lent->pairs.length;
    seen.rows = words_of(&lent->rows);
    seen.row_room = lent->rows.length / sizeof(uint64_t);
    return seen;
}

void rooms_left_alone(const char *what, const lent_tables *lent, harbour_tables written) {
    holds(what, "memory for sizes changed after them", left_alone_from(&lent->sizes, written.n));
    holds(what, "memory for pairs changed after them", left_alone_from(&lent->pairs, written.pair_bytes));
    holds(what, "memory for rows changed after them",
        left_alone_from(&lent->rows, written.row_words * sizeof(uint64_t)));
}

static int begins_with(const lent_part *lent, const void *due, size_t bytes) {
    return bytes == 0 || (bytes <= lent->length && memcmp(lent->part, due, bytes) == 0);
}

void rooms_hold(const char *what, const lent_tables *lent, harbour_tables due) {
    holds(what, "other sizes", begins_with(&lent->sizes, due.sizes, due.n));
    holds(what, "other pairs", begins_with(&lent->pairs, due.pairs, due.pair_bytes));
    holds(what, "other rows", begins_with(&lent->rows, due.rows, due.row_words * sizeof(uint64_t)));
}
