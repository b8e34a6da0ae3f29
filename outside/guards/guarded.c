#include "guarded.h"

#include <string.h>

#include "tally.h"

enum { ONE = 101, TWO, THREE };

static harbour_tables tables_at(const part *parts) {
    harbour_tables tables = {(const uint8_t *)parts[0].start, parts[0].length, (const uint8_t *)parts[1].start,
        parts[1].length, (const uint64_t *)parts[2].start, parts[2].length};
    return tables;
}

/* The memory lent for tables, from this part on. */
static harbour_rooms rooms_at(const part *parts) {
    harbour_rooms rooms = {(uint8_t *)parts[0].start, parts[0].length, (uint8_t *)parts[1].start, parts[1].length,
        (uint64_t *)parts[2].start, parts[2].length};
    return rooms;
}

static replied told(harbour_reply reply) {
    replied all = {{reply.answer, reply.place, reply.checks, reply.trials, 0}};
    return all;
}

static replied ask_run(const part *parts) {
    return told(harbour_run_t(ONE, tables_at(parts), (uint8_t *)parts[3].start, parts[3].length,
        (uint64_t *)parts[4].start, parts[4].length, TWO, THREE));
}

static replied ask_examine(const part *parts) {
    return told(harbour_examine_t(tables_at(parts)));
}

static replied ask_lawful(const part *parts) {
    return told(harbour_lawful_t(tables_at(parts), (const uint8_t *)parts[3].start, parts[3].length));
}

static replied ask_broken(const part *parts) {
    return told(harbour_broken_t(tables_at(parts), (const uint8_t *)parts[3].start, parts[3].length));
}

static replied ask_rows(const part *parts) {
    const harbour_part got = harbour_rows_t(tables_at(parts), ONE, TWO);
    replied all = {{got.start, got.length, 0, 0, 0}};
    return all;
}

static replied ask_read(const part *parts) {
    const uint8_t *const file = (const uint8_t *)parts[0].start;
    const harbour_read_reply got = harbour_read_t(file, parts[0].length, rooms_at(parts + 1));
    replied all = {{got.answer, got.place, got.boats, got.pair_bytes, got.row_words}};
    return all;
}

static replied ask_write(const part *parts) {
    const harbour_written got = harbour_write_t(tables_at(parts), (uint8_t *)parts[3].start, parts[3].length);
    replied all = {{got.answer, got.place, got.length, 0, 0}};
    return all;
}

static replied ask_lawful_file(const part *parts) {
    replied all = {{harbour_lawful_file_t((const uint8_t *)parts[0].start, parts[0].length,
        (const uint8_t *)parts[1].start, parts[1].length, rooms_at(parts + 2)), 0, 0, 0, 0}};
    return all;
}

/* The plain function's reply, as heard.c plays it, and the reply where something is owed; a place of 0 for
 * every pointer where the reply names none. */
const guarded every_guarded[GUARDED] = {
    {"harbour_run_t", "bbwBW", {1, 3, 5, 7, 9}, ask_run, {{71, 72, 73, 74}}, {{190}}, {ONE, TWO, THREE}},
    {"harbour_examine_t", "bbw", {0, 2, 4}, ask_examine, {{71, 72, 73, 74}}, {{190}}, {0, 0, 0}},
    {"harbour_lawful_t", "bbwb", {0, 2, 4, 6}, ask_lawful, {{71, 72, 73, 74}}, {{190}}, {0, 0, 0}},
    {"harbour_broken_t", "bbwb", {0, 2, 4, 6}, ask_broken, {{72, 72, 73, 74}}, {{190}}, {0, 0, 0}},
    {"harbour_rows_t", "bbw", {0, 0, 0}, ask_rows, {{71, 72}}, {{0}}, {ONE, TWO, 0}},
    {"harbour_read_t", "bBBW", {0, 2, 4, 6}, ask_read, {{71, 72, 73, 74, 75}}, {{190}}, {0, 0, 0}},
    {"harbour_write_t", "bbwB", {0, 2, 4, 6}, ask_write, {{71, 72, 73}}, {{190}}, {0, 0, 0}},
    {"harbour_lawful_file_t", "bbBBW", {0, 0, 0, 0, 0}, ask_lawful_file, {{71}}, {{190}}, {0, 0, 0}},
};

size_t parts_of(const guarded *g) {
    return strlen(g->kinds);
}

int is_words(const guarded *g, size_t at) {
    return g->kinds[at] == 'w' || g->kinds[at] == 'W';
}

int is_written(const guarded *g, size_t at) {
    return g->kinds[at] == 'B' || g->kinds[at] == 'W';
}

static void replies(const guarded *g, const char *what, const part *parts, replied due, unsigned calls) {
    memset(&last_heard, 0, sizeof last_heard);
    const replied got = g->ask(parts);
    same(g->name, what, last_heard.calls, calls);
    for (size_t at = 0; at < REPLIED; at++) same(g->name, what, got.number[at], due.number[at]);
}

void is_called(const guarded *g, const char *what, const part *parts) {
    replies(g, what, parts, g->played, 1);
    for (size_t at = 0; at < parts_of(g); at++) {
        same(g->name, what, last_heard.parts[at].start, parts[at].start);
        same(g->name, what, last_heard.parts[at].length, parts[at].length);
    }
    for (size_t at = 0; at < NUMBERS; at++) same(g->name, what, last_heard.numbers[at], g->numbers[at]);
}

void is_owed(const guarded *g, const char *what, const part *parts, size_t at) {
    replied due = g->owed;
    due.number[1] = g->places[at];
    replies(g, what, parts, due, 0);
}
