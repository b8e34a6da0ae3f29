#include "asked.h"
#include "asked_files.h"
#include "calls.h"
#include "tally.h"

static void replied(const char *what, harbour_reply got, uint64_t answer, uint64_t trials) {
    reply_is(what, got, due_reply(answer, 0, 0, trials));
}

/* A run of one boat, or none, with each part that may be NULL. */
static void runs(void) {
    static uint64_t work[HARBOUR_WORK];
    static const uint8_t one[] = {1};
    uint8_t plan[1] = {77};
    for (uint64_t method = HARBOUR_BT; method <= HARBOUR_FC_CBJ; method++) {
        work[0] = 77;
        replied("NULL for all but work", harbour_run(method, NULL, 0, NULL, 0, NULL, 0, NULL, 0, work,
            HARBOUR_WORK, 0, 0), HARBOUR_SOLVED, 0);
        same("NULL for all but work", "working word", work[0], 0);
        work[0] = 77;
        replied("NULL for pairs and rows", harbour_run(method, one, 1, NULL, 0, NULL, 0, plan, 1, work,
            HARBOUR_WORK, HARBOUR_AMPLE, HARBOUR_AMPLE), HARBOUR_SOLVED, 1);
        same("NULL for pairs and rows", "slot", plan[0], 0);
        plan[0] = 77;
        work[0] = 77;
        replied("NULL for plan", harbour_run(method, one, 1, NULL, 0, NULL, 0, NULL, 0, work, HARBOUR_WORK,
            HARBOUR_AMPLE, HARBOUR_AMPLE), HARBOUR_REFUSED_PLAN_MEMORY, 0);
        replied("NULL for work", harbour_run(method, one, 1, NULL, 0, NULL, 0, plan, 1, NULL, 0,
            HARBOUR_AMPLE, HARBOUR_AMPLE), HARBOUR_REFUSED_WORK_MEMORY, 0);
        replied("NULL for all", harbour_run(method, NULL, 0, NULL, 0, NULL, 0, NULL, 0, NULL, 0,
            HARBOUR_AMPLE, HARBOUR_AMPLE), HARBOUR_REFUSED_WORK_MEMORY, 0);
        same("refused", "slot", plan[0], 77);
        same("refused", "working word", work[0], 77);
    }
    replied("NULL for all, no method", harbour_run(0, NULL, 0, NULL, 0, NULL, 0, NULL, 0, NULL, 0, 0, 0),
        HARBOUR_REFUSED_METHOD, 0);
}

static void questions(void) {
    static const uint8_t one[] = {1}, pair[] = {0, 1};
    static const uint64_t row[] = {1};
    replied("NULL for all", harbour_examine(NULL, 0, NULL, 0, NULL, 0), HARBOUR_FINE, 0);
    replied("NULL for pairs and rows", harbour_examine(one, 1, NULL, 0, NULL, 0), HARBOUR_FINE, 0);
    replied("NULL for sizes", harbour_examine(NULL, 0, pair, 2, row, 1), HARBOUR_REFUSED_PAIR_NO_BOAT, 0);
    replied("NULL for sizes and pairs", harbour_examine(NULL, 0, NULL, 0, row, 1), HARBOUR_REFUSED_ROW_WORDS, 0);
    replied("NULL for all", harbour_lawful(NULL, 0, NULL, 0, NULL, 0, NULL, 0), HARBOUR_LAWFUL, 0);
    replied("NULL for all", harbour_broken(NULL, 0, NULL, 0, NULL, 0, NULL, 0), HARBOUR_UNBROKEN, 0);
    replied("NULL for given", harbour_lawful(one, 1, NULL, 0, NULL, 0, NULL, 0), HARBOUR_REFUSED_GIVEN_LENGTH, 0);
    replied("NULL for given", harbour_broken(one, 1, NULL, 0, NULL, 0, NULL, 0), HARBOUR_REFUSED_GIVEN_LENGTH, 0);
    harbour_part part = harbour_rows(NULL, 0, NULL, 0, NULL, 0, 0, 1);
    same("NULL for all", "start", part.start, 0);
    same("NULL for all", "length", part.length, 0);
    const uint8_t two[] = {1, 1};
    replied("NULL for rows", harbour_examine(two, 2, pair, 2, NULL, 0), HARBOUR_REFUSED_ROW_WORDS, 0);
}

static void read_answered(const char *what, harbour_read_reply got, uint64_t answer, uint64_t boats) {
    same(what, "answer", got.answer, answer);
    same(what, "place", got.place, 0);
    same(what, "boats", got.boats, boats);
    same(what, "pair bytes", got.pair_bytes, 0);
    same(what, "row words", got.row_words, 0);
}

static const uint8_t no_boats[] = {'S', 'Z', 0, 'E', 'D', 0, 0}, one_boat[] = {'S', 'Z', 1, 1, 'E', 'D', 0, 0};
static const uint8_t no_slot[] = {'S', 'Z', 1, 0, 'P', 'R', 0, 0, 'E', 'D', 1, 0};

/* A file with nothing for one of the parts needs no memory there. */
static void readings(void) {
    uint8_t sizes[1] = {77}, pairs[2] = {77, 77};
    read_answered("NULL for all", harbour_read(NULL, 0, NULL, 0, NULL, 0, NULL, 0), HARBOUR_REFUSED_FILE_END, 0);
    read_answered("NULL for all but the file", harbour_read(no_boats, sizeof no_boats, NULL, 0, NULL, 0, NULL, 0),
        HARBOUR_FINE, 0);
    read_answered("NULL for pairs and rows", harbour_read(one_boat, sizeof one_boat, sizes, 1, NULL, 0, NULL, 0),
        HARBOUR_FINE, 1);
    same("NULL for pairs and rows", "size", sizes[0], 1);
    read_answered("NULL for sizes", harbour_read(one_boat, sizeof one_boat, NULL, 0, pairs, 2, NULL, 0),
        HARBOUR_REFUSED_ROOM, 0);
    read_answered("NULL for pairs", harbour_read(no_slot, sizeof no_slot, sizes, 1, NULL, 0, NULL, 0),
        HARBOUR_REFUSED_ROOM, 0);
    same("NULL for pairs", "pair byte", pairs[0], 77);
    same("NULL for rows", "answer", harbour_read(no_slot, sizeof no_slot, sizes, 1, pairs, 2, NULL, 0).answer,
        HARBOUR_REFUSED_SIZE);
    same("NULL for rows", "pair byte", pairs[1], 0);
}

static void writings(void) {
    static const uint8_t one[] = {1};
    uint8_t file[sizeof one_boat];
    filed none = file_of(&none_standing);
    write_is("NULL for all", &none_standing, 0, HARBOUR_REFUSED_ROOM, 0, NULL);
    write_is("NULL for tables", &none_standing, sizeof no_boats, HARBOUR_FINE, 0, &none);
    same("NULL for the file", "answer", harbour_write(one, 1, NULL, 0, NULL, 0, NULL, 0).answer, HARBOUR_REFUSED_ROOM);
    same("NULL for all", "answer", harbour_write(NULL, 0, NULL, 0, NULL, 0, NULL, 0).answer, HARBOUR_REFUSED_ROOM);
    same("NULL for tables", "length", harbour_write(NULL, 0, NULL, 0, NULL, 0, file, sizeof file).length, 7);
    same("NULL for pairs and rows", "length", harbour_write(one, 1, NULL, 0, NULL, 0, file, sizeof file).length, 8);
    for (size_t at = 0; at < sizeof file; at++) same("NULL for pairs and rows", "byte", file[at], one_boat[at]);
    free_file(&none);
}

static void desk_is(const char *what, uint64_t got, uint64_t due) {
    same(what, "the desk's answer", got, due);
}

static void desk_questions(void) {
    const size_t none = sizeof no_boats, one = sizeof one_boat;
    uint8_t sizes[1] = {77}, slot[1] = {0};
    desk_is("NULL for all", harbour_lawful_file(NULL, 0, NULL, 0, NULL, 0, NULL, 0, NULL, 0), HARBOUR_REFUSED_FILE_END);
    desk_is("NULL for all but the file", harbour_lawful_file(no_boats, none, NULL, 0, NULL, 0, NULL, 0, NULL, 0),
        HARBOUR_LAWFUL);
    desk_is("NULL for sizes", harbour_lawful_file(one_boat, one, slot, 1, NULL, 0, NULL, 0, NULL, 0),
        HARBOUR_REFUSED_ROOM);
    desk_is("NULL for given", harbour_lawful_file(one_boat, one, NULL, 0, sizes, 1, NULL, 0, NULL, 0),
        HARBOUR_REFUSED_GIVEN_LENGTH);
    same("NULL for given", "size", sizes[0], 1);
    desk_is("NULL for pairs and rows", harbour_lawful_file(one_boat, one, slot, 1, sizes, 1, NULL, 0, NULL, 0),
        HARBOUR_LAWFUL);
}

void nothing_lent(void) {
    runs();
    questions();
    readings();
    writings();
    desk_questions();
}
