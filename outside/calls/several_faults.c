#include "asked.h"
#include "asked_files.h"
#include "calls.h"
#include "harbours.h"

#include <string.h>

/* Five boats with any set of faults: bit k of the set puts in the fault of number k, bit 5 that of a bad pair. */
typedef struct {
    uint8_t sizes[65], pairs[9];
    uint64_t rows[8];
    harbour_tables given;
} spoiled;

enum { BAD_PAIR = 5, LAST_OF_TABLES = 7, LAST_OF_RUN = 9, GIVEN_LENGTH = 10, GIVEN_SLOT = 11 };

/* The ways in which the second pair can be bad. */
static const struct {
    uint8_t pair[2];
    uint64_t answer, place;
} ways[] = {
    {{5, 2}, HARBOUR_REFUSED_PAIR_NO_BOAT, 2}, {{1, 5}, HARBOUR_REFUSED_PAIR_NO_BOAT, 3},
    {{1, 1}, HARBOUR_REFUSED_PAIR_SAME_BOAT, 3}, {{2, 1}, HARBOUR_REFUSED_PAIR_HIGHER_FIRST, 2},
    {{0, 2}, HARBOUR_REFUSED_PAIR_NOT_RISING, 2},
};

static int has(unsigned faults, unsigned number) {
    return faults >> number & 1;
}

static void spoil(spoiled *made, unsigned faults, size_t way) {
    memset(made->sizes, 1, sizeof made->sizes);
    memset(made->pairs, 0, sizeof made->pairs);
    memcpy(made->sizes, five_boats.sizes, five_boats.n);
    memcpy(made->pairs, five_boats.pairs, five_boats.pair_bytes);
    memcpy(made->rows, five_boats.rows, sizeof made->rows);
    if (has(faults, 3)) made->sizes[3] = 0;
    if (has(faults, BAD_PAIR)) memcpy(made->pairs + 2, ways[way].pair, 2);
    if (has(faults, 7)) made->rows[4] |= UINT64_C(1) << 2;
    made->given.sizes = made->sizes;
    made->given.n = has(faults, 2) ? 65 : 5;
    made->given.pairs = made->pairs;
    made->given.pair_bytes = has(faults, 4) ? 9 : 8;
    made->given.rows = made->rows;
    made->given.row_words = has(faults, 6) ? 7 : 8;
}

/* What is tested first of the set, as an answer; the number is 0 where the set is empty. */
static harbour_reply first(unsigned faults, size_t way) {
    static const uint64_t places[] = {0, 0, 0, 3, 0, 0, 0, 4, 0, 0, 0, 2};
    for (unsigned number = 1; number <= GIVEN_SLOT; number++) {
        if (number == BAD_PAIR && has(faults, BAD_PAIR)) return due_reply(ways[way].answer, ways[way].place, 0, 0);
        if (has(faults, number)) return due_reply(HARBOUR_REFUSED + number, places[number], 0, 0);
    }
    return due_reply(0, 0, 0, 0);
}

static void run_with(unsigned faults, size_t way, uint64_t method) {
    static const uint8_t plan[] = {1, 0, 0, 0, 0};
    static const uint64_t checks[] = {13, 13, 11, 14, 14}, trials[] = {15, 15, 15, 10, 10};
    spoiled made;
    spoil(&made, faults, way);
    terms under = ample(has(faults, 1) ? method + 5 : method, &made.given);
    if (has(faults, 8)) under.plan_bytes = 4;
    if (has(faults, 9)) under.work_words = HARBOUR_WORK - 1;
    harbour_reply due = first(faults, way);
    if (faults == 0) due = due_reply(HARBOUR_SOLVED, 0, checks[method - 1], trials[method - 1]);
    run_is("a run with several faults", &made.given, under, due, faults == 0 ? plan : NULL);
}

/* Where the tables stand in a file, the rows there are never of a wrong number. */
static void ask_of_file(const spoiled *made, unsigned of_tables, size_t way) {
    const harbour_reply due = first(of_tables, way), in_file = first(of_tables & ~(1u << 6), way);
    if (due.answer != HARBOUR_FINE) unwritten("tables with several faults", &made->given, due.answer, due.place);
    if (in_file.answer != HARBOUR_FINE) {
        read_from_file("a file of tables with several faults", &made->given, in_file.answer, in_file.place);
    }
}

static void ask_with(unsigned faults, size_t way) {
    const unsigned of_tables = faults & ((2u << LAST_OF_TABLES) - 1);
    uint8_t plan[] = {1, 0, 0, 0, 0};
    spoiled made;
    spoil(&made, of_tables, way);
    if (has(faults, GIVEN_SLOT)) plan[2] = 2;
    size_t bytes = has(faults, GIVEN_LENGTH) ? 4 : 5;
    harbour_reply due = first(faults, way), of_examination = first(of_tables, way);
    examine_is("tables with several faults", &made.given, of_examination.answer, of_examination.place);
    rows_are("tables with several faults", &made.given, 1, 4, of_tables == 0 ? 5 : 0, of_tables == 0 ? 2 : 0);
    lawful_is("a plan with several faults", &made.given, plan, bytes, due.answer, due.place);
    broken_is("a plan with several faults", &made.given, plan, bytes, due.answer, due.place);
    ask_of_file(&made, of_tables, way);
}

/* Sets without a bad pair are gone through with the first way alone. */
static int is_asked(unsigned faults, size_t way) {
    return way == 0 || has(faults, BAD_PAIR);
}

static void runs_with(size_t way) {
    for (unsigned faults = 0; faults < 2u << LAST_OF_RUN; faults += 2) {
        if (!is_asked(faults, way)) continue;
        for (uint64_t method = HARBOUR_BT; method <= HARBOUR_FC_CBJ; method++) run_with(faults, way, method);
    }
}

static void questions_with(size_t way) {
    const unsigned tables_only = (2u << LAST_OF_TABLES) - 4;
    for (unsigned faults = 0; faults < 2u << GIVEN_SLOT; faults += 4) {
        if ((faults & ~tables_only & ~(3u << GIVEN_LENGTH)) != 0) continue;
        if (is_asked(faults, way)) ask_with(faults, way);
    }
}

void several_faults(void) {
    for (size_t way = 0; way < LENGTH(ways); way++) {
        runs_with(way);
        questions_with(way);
    }
}
