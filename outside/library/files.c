#include "ask.h"

#include <inttypes.h>
#include <stdio.h>
#include <stdlib.h>
#include <string.h>

#include "harbour.h"
#include "lent_rooms.h"
#include "tally.h"
#include "text.h"

/* What is lent for writing is filled as the second program takes it to be: bytes fall from 255, again and
 * again, and words from the largest. */
static lent_part lend_falling_bytes(size_t bytes) {
    uint8_t *fill = memory(bytes);
    for (size_t at = 0; at < bytes; at++) fill[at] = (uint8_t)(255 - at % 256);
    lent_part made = lend_bytes(fill, bytes);
    free(fill);
    return made;
}

static lent_part lend_falling_words(size_t words) {
    uint64_t *fill = memory(words * sizeof *fill);
    for (size_t at = 0; at < words; at++) fill[at] = UINT64_MAX - at;
    lent_part made = lend_words(fill, words);
    free(fill);
    return made;
}

static lent_part read_bytes(char **line) {
    size_t bytes;
    uint8_t *read = hex_bytes(field(line), &bytes);
    lent_part made = lend_bytes(read, bytes);
    free(read);
    return made;
}

static lent_tables read_rooms(char **line) {
    lent_tables made;
    made.sizes = lend_falling_bytes(decimal(field(line)));
    made.pairs = lend_falling_bytes(decimal(field(line)));
    made.rows = lend_falling_words(decimal(field(line)));
    return made;
}

static void write_rooms(const lent_tables *lent) {
    const harbour_rooms all = rooms_of(lent);
    putchar(' ');
    write_bytes(all.sizes, all.size_room);
    putchar(' ');
    write_bytes(all.pairs, all.pair_room);
    putchar(' ');
    write_words(all.rows, all.row_room);
    putchar('\n');
}

/* What was written is read as the same tables, in just the memory that they need. */
static void reads_again(const uint8_t *file, size_t bytes, harbour_tables due) {
    lent_tables again = lend_rooms(room_for(due));
    harbour_read_reply reply = harbour_read_t(file, bytes, rooms_of(&again));
    same("read again", "answer", reply.answer, HARBOUR_FINE);
    rooms_hold("read again", &again, due);
    take_tables_back(&again);
}

/* What was read is written as the same file, in just the memory that it needs. */
static void writes_again(harbour_tables read, const lent_part *file) {
    lent_part again = lend_bytes(NULL, file->length);
    harbour_written reply = harbour_write_t(read, bytes_of(&again), again.length);
    same("written again", "answer", reply.answer, HARBOUR_FINE);
    same("written again", "length", reply.length, file->length);
    holds("written again", "another file", memcmp(bytes_of(&again), bytes_of(file), file->length) == 0);
    take_back(&again);
}

void ask_write(const lent_tables *lent, char *line) {
    lent_part file = lend_falling_bytes(decimal(field(&line)));
    harbour_written reply = harbour_write_t(tables_of(lent), bytes_of(&file), file.length);
    printf("w %" PRIu64 " %" PRIu64 " %" PRIu64 " ", reply.answer, reply.place, reply.length);
    write_bytes(bytes_of(&file), file.length);
    putchar('\n');
    holds("write", "file memory changed after the file", left_alone_from(&file, reply.length));
    tables_left_alone("write", lent);
    int inside = reply.length <= file.length;
    holds("write", "the file is not inside its memory", inside);
    if (reply.answer == HARBOUR_FINE && inside) reads_again(bytes_of(&file), reply.length, tables_of(lent));
    take_back(&file);
}

static int is_inside(harbour_tables read, harbour_rooms all) {
    return read.n <= all.size_room && read.pair_bytes <= all.pair_room && read.row_words <= all.row_room;
}

/* The tables as read, examined again, are what the reply says of them. */
static void read_and_examined(harbour_tables read, harbour_read_reply reply) {
    harbour_reply again = harbour_examine_t(read);
    same("read", "the examination's answer", reply.answer, again.answer);
    same("read", "the examination's place", reply.place, again.place);
}

static int none_is_read(uint64_t answer) {
    return answer >= HARBOUR_REFUSED_MARK && answer <= HARBOUR_REFUSED_ROOM;
}

void ask_read(char *line) {
    lent_part file = read_bytes(&line);
    lent_tables lent = read_rooms(&line);
    harbour_read_reply reply = harbour_read_t(bytes_of(&file), file.length, rooms_of(&lent));
    harbour_tables read = harbour_tables_read(rooms_of(&lent), reply);
    printf("f %" PRIu64 " %" PRIu64, reply.answer, reply.place);
    printf(" %" PRIu64 " %" PRIu64 " %" PRIu64, reply.boats, reply.pair_bytes, reply.row_words);
    write_rooms(&lent);
    holds("read", "the file changed", left_alone_from(&file, 0));
    rooms_left_alone("read", &lent, read);
    int inside = is_inside(read, rooms_of(&lent));
    holds("read", "the tables are not inside their memory", inside);
    if (!none_is_read(reply.answer) && inside) read_and_examined(read, reply);
    if (reply.answer == HARBOUR_FINE && inside) writes_again(read, &file);
    take_tables_back(&lent);
    take_back(&file);
}

void ask_desk(char *line) {
    lent_part file = read_bytes(&line), given = read_bytes(&line);
    lent_tables lent = read_rooms(&line);
    printf("d %" PRIu64, harbour_lawful_file_t(bytes_of(&file), file.length, bytes_of(&given), given.length,
        rooms_of(&lent)));
    write_rooms(&lent);
    holds("lawful_file", "the file changed", left_alone_from(&file, 0));
    holds("lawful_file", "the given plan changed", left_alone_from(&given, 0));
    rooms_left_alone("lawful_file", &lent, tables_of(&lent));
    take_tables_back(&lent);
    take_back(&given);
    take_back(&file);
}
