#include <string.h>

#include "asked_files.h"
#include "calls.h"
#include "harbours.h"
#include "tally.h"

enum { FILE_BYTES = 92, BYTES = 16, WORDS = 32 };

/* One memory for all parts, so that they can be laid over one another: the file of five_boats stands among
 * the words, so that tables can be lent there too; all else is filled. */
typedef struct {
    uint64_t file[WORDS], rows[WORDS];
    uint8_t sizes[BYTES], pairs[BYTES], plan[BYTES], again[2 * FILE_BYTES];
} memory_of_all;

static memory_of_all all, before;

static uint8_t *file(void) {
    return (uint8_t *)all.file;
}

static harbour_rooms laid_out(void) {
    static const uint8_t plan[] = {1, 0, 0, 0, 0};
    filed made = file_of(&five_boats);
    memset(&all, 0x5a, sizeof all);
    memcpy(all.file, made.bytes, FILE_BYTES);
    memcpy(all.plan, plan, sizeof plan);
    free_file(&made);
    before = all;
    harbour_rooms lent = {all.sizes, BYTES, all.pairs, BYTES, all.rows, WORDS};
    return lent;
}

static void nothing_changed(const char *what) {
    holds(what, "memory changed", memcmp(&all, &before, sizeof all) == 0);
}

static void read_is_owed(const char *what, const uint8_t *from, harbour_rooms lent, uint64_t place) {
    const harbour_read_reply got = harbour_read_t(from, FILE_BYTES, lent);
    same(what, "answer", got.answer, HARBOUR_OWED);
    same(what, "place", got.place, place);
    same(what, "lengths", got.boats + got.pair_bytes + got.row_words, 0);
    same(what, "desk's answer", harbour_lawful_file_t(from, FILE_BYTES, all.plan, 5, lent), HARBOUR_OWED);
    nothing_changed(what);
}

/* A file would be written over while it is read. */
static void rooms_in_the_file(void) {
    const harbour_rooms apart = laid_out();
    harbour_rooms lent = apart;
    lent.sizes = file() + FILE_BYTES - 1;
    read_is_owed("sizes in the file", file(), lent, 2);
    lent = apart;
    lent.pairs = file() + 3;
    read_is_owed("pairs in the file", file(), lent, 4);
    lent = apart;
    lent.rows = all.file + 1;
    read_is_owed("rows in the file", file(), lent, 6);
    lent = apart;
    lent.pairs = all.sizes + BYTES - 1;
    read_is_owed("pairs over the sizes", file(), lent, 4);
    lent = apart;
    lent.sizes = (uint8_t *)(all.rows + WORDS - 1);
    read_is_owed("rows over the sizes", file(), lent, 6);
}

static void null_with_a_length(void) {
    const harbour_rooms apart = laid_out();
    harbour_rooms lent = apart;
    read_is_owed("file NULL", NULL, lent, 0);
    lent.sizes = NULL;
    read_is_owed("sizes NULL", file(), lent, 2);
    lent = apart;
    lent.pairs = NULL;
    read_is_owed("pairs NULL", file(), lent, 4);
    lent = apart;
    lent.rows = NULL;
    read_is_owed("rows NULL", file(), lent, 6);
    same("given NULL", "answer", harbour_lawful_file_t(file(), FILE_BYTES, NULL, 5, apart), HARBOUR_OWED);
    nothing_changed("given NULL");
}

/* The plan would be lost while the tables are read. */
static void plan_in_the_rooms(void) {
    const harbour_rooms lent = laid_out();
    const uint8_t *const inside[] = {all.sizes, all.pairs + 2, (const uint8_t *)(all.rows + 3)};
    for (size_t at = 0; at < LENGTH(inside); at++) {
        const uint64_t got = harbour_lawful_file_t(file(), FILE_BYTES, inside[at], 5, lent);
        same("a plan in the memory for tables", "answer", got, HARBOUR_OWED);
        nothing_changed("a plan in the memory for tables");
    }
}

static void write_is_owed(const char *what, harbour_tables given, uint8_t *into, uint64_t place) {
    const harbour_written got = harbour_write_t(given, into, FILE_BYTES);
    same(what, "answer", got.answer, HARBOUR_OWED);
    same(what, "place", got.place, place);
    same(what, "length", got.length, 0);
    nothing_changed(what);
}

static void written_over_the_tables(harbour_tables given) {
    before = all;
    write_is_owed("the file over the sizes", given, all.sizes, 6);
    write_is_owed("the file over the pairs", given, all.pairs + 7, 6);
    write_is_owed("the file over the rows", given, (uint8_t *)all.rows + 1, 6);
    write_is_owed("file NULL", given, NULL, 6);
    given.rows = NULL;
    write_is_owed("rows NULL", given, all.again, 4);
    given.pairs = NULL;
    write_is_owed("pairs NULL", given, all.again, 2);
    given.sizes = NULL;
    write_is_owed("sizes NULL", given, all.again, 0);
}

/* Read, asked of a run, and written again: what is only read may be shared. */
static void there_and_back(void) {
    const harbour_rooms lent = laid_out();
    const harbour_read_reply reply = harbour_read_t(file(), FILE_BYTES, lent);
    const harbour_tables given = harbour_tables_read(lent, reply);
    same("read_t", "answer", reply.answer, HARBOUR_FINE);
    same("read_t", "boats", given.n, five_boats.n);
    same("read_t", "pair bytes", given.pair_bytes, five_boats.pair_bytes);
    same("read_t", "row words", given.row_words, five_boats.row_words);
    same("lawful_t", "answer", harbour_lawful_t(given, all.plan, 5).answer, HARBOUR_LAWFUL);
    same("lawful_file_t", "answer", harbour_lawful_file_t(file(), FILE_BYTES, all.plan, 5, lent), HARBOUR_LAWFUL);
    same("lawful_file_t", "answer", harbour_lawful_file_t(file(), FILE_BYTES, file() + 1, 5, lent),
        HARBOUR_REFUSED_GIVEN_SLOT);
    same("write_t", "length", harbour_write_t(given, all.again, FILE_BYTES).length, FILE_BYTES);
    holds("write_t", "another file", memcmp(all.again, all.file, FILE_BYTES) == 0);
    same("write_t", "the byte after the file", all.again[FILE_BYTES], 0x5a);
    written_over_the_tables(given);
}

/* Where nothing was read, the tables are those of no boats, wherever the memory is. */
static void nothing_read(void) {
    const harbour_rooms lent = laid_out();
    const harbour_tables none = harbour_tables_read(lent, harbour_read_t(file(), FILE_BYTES - 1, lent));
    same("nothing read", "boats", none.n, 0);
    same("nothing read", "pair bytes", none.pair_bytes, 0);
    same("nothing read", "row words", none.row_words, 0);
    same("nothing read", "answer", harbour_examine_t(none).answer, HARBOUR_FINE);
    nothing_changed("nothing read");
}

void guarded_files(void) {
    rooms_in_the_file();
    null_with_a_length();
    plan_in_the_rooms();
    there_and_back();
    nothing_read();
}
