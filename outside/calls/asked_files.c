#include "asked_files.h"

#include <string.h>

#include "tally.h"

const harbour_tables none_standing = {NULL, 0, NULL, 0, NULL, 0};

room plenty(void) {
    room lent;
    lent.sizes = 300;
    lent.pairs = 700;
    lent.rows = 900;
    return lent;
}

static room more_than(room enough) {
    enough.sizes += 3;
    enough.pairs += 5;
    enough.rows += 7;
    return enough;
}

void write_is(const char *what, const harbour_tables *given, size_t file_room, uint64_t answer, uint64_t place,
    const filed *due) {
    lent_tables lent = lend_tables(given);
    lent_part file = lend_bytes(NULL, file_room);
    harbour_tables t = tables_of(&lent);
    harbour_written got = harbour_write(t.sizes, t.n, t.pairs, t.pair_bytes, t.rows, t.row_words, bytes_of(&file),
        file_room);
    const size_t length = due == NULL ? 0 : due->length;
    same(what, "answer", got.answer, answer);
    same(what, "place", got.place, place);
    same(what, "length", got.length, length);
    holds(what, "another file", length == 0 || memcmp(bytes_of(&file), due->bytes, length) == 0);
    holds(what, "file memory changed after the file", left_alone_from(&file, length));
    tables_left_alone(what, &lent);
    take_back(&file);
    take_tables_back(&lent);
}

/* Six comparisons: these tables stand in the memory, and nothing else in it has changed. */
static void left_standing(const char *what, const lent_tables *lent, harbour_tables standing) {
    rooms_hold(what, lent, standing);
    rooms_left_alone(what, lent, standing);
}

void read_is(const char *what, const uint8_t *file, size_t bytes, room lent, uint64_t answer, uint64_t place,
    harbour_tables standing) {
    lent_part file_memory = lend_bytes(file, bytes);
    lent_tables rooms = lend_rooms(lent);
    harbour_rooms r = rooms_of(&rooms);
    harbour_read_reply got = harbour_read(bytes_of(&file_memory), bytes, r.sizes, r.size_room, r.pairs, r.pair_room,
        r.rows, r.row_room);
    same(what, "answer", got.answer, answer);
    same(what, "place", got.place, place);
    same(what, "boats", got.boats, standing.n);
    same(what, "pair bytes", got.pair_bytes, standing.pair_bytes);
    same(what, "row words", got.row_words, standing.row_words);
    holds(what, "the file changed", left_alone_from(&file_memory, 0));
    left_standing(what, &rooms, standing);
    take_tables_back(&rooms);
    take_back(&file_memory);
}

void lawful_file_is(const char *what, const uint8_t *file, size_t bytes, const uint8_t *plan, size_t plan_bytes,
    room lent, uint64_t answer, harbour_tables standing) {
    lent_part file_memory = lend_bytes(file, bytes), given = lend_bytes(plan, plan_bytes);
    lent_tables rooms = lend_rooms(lent);
    harbour_rooms r = rooms_of(&rooms);
    same(what, "answer", harbour_lawful_file(bytes_of(&file_memory), bytes, bytes_of(&given), plan_bytes, r.sizes,
        r.size_room, r.pairs, r.pair_room, r.rows, r.row_room), answer);
    holds(what, "the file changed", left_alone_from(&file_memory, 0));
    holds(what, "the given plan changed", left_alone_from(&given, 0));
    left_standing(what, &rooms, standing);
    take_tables_back(&rooms);
    take_back(&given);
    take_back(&file_memory);
}

void unread(const char *what, const uint8_t *file, size_t bytes, uint64_t answer, uint64_t place) {
    static const uint8_t plan[5] = {0};
    const room none = room_for(none_standing);
    read_is(what, file, bytes, plenty(), answer, place, none_standing);
    read_is(what, file, bytes, none, answer, place, none_standing);
    lawful_file_is(what, file, bytes, plan, sizeof plan, plenty(), answer, none_standing);
    lawful_file_is(what, file, bytes, NULL, 0, none, answer, none_standing);
}

void read_as(const char *what, const filed *file, uint64_t answer, uint64_t place) {
    static const uint8_t plan[256] = {0};
    const room enough = room_for(file->tables);
    read_is(what, file->bytes, file->length, enough, answer, place, file->tables);
    read_is(what, file->bytes, file->length, more_than(enough), answer, place, file->tables);
    lawful_file_is(what, file->bytes, file->length, plan, file->tables.n, enough, answer, file->tables);
    lawful_file_is(what, file->bytes, file->length, plan, file->tables.n, more_than(enough), answer, file->tables);
}

void read_from_file(const char *what, const harbour_tables *given, uint64_t answer, uint64_t place) {
    if (!stands_in_file(given)) return;
    filed file = file_of(given);
    read_as(what, &file, answer, place);
    free_file(&file);
}

void unwritten(const char *what, const harbour_tables *given, uint64_t answer, uint64_t place) {
    write_is(what, given, 2000, answer, place, NULL);
    write_is(what, given, 0, answer, place, NULL);
}

void filed_and_read(const char *what, const harbour_tables *given) {
    filed file = file_of(given);
    write_is(what, given, file.length, HARBOUR_FINE, 0, &file);
    write_is(what, given, file.length + 9, HARBOUR_FINE, 0, &file);
    write_is(what, given, file.length - 1, HARBOUR_REFUSED_ROOM, 0, NULL);
    read_is(what, file.bytes, file.length, room_for(*given), HARBOUR_FINE, 0, *given);
    read_is(what, file.bytes, file.length, more_than(room_for(*given)), HARBOUR_FINE, 0, *given);
    free_file(&file);
}
