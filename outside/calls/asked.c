#include "asked.h"

#include "asked_files.h"
#include "tally.h"

terms ample(uint64_t method, const harbour_tables *given) {
    terms made;
    made.method = method;
    made.plan_bytes = given->n;
    made.work_words = HARBOUR_WORK;
    made.checks = made.trials = HARBOUR_AMPLE;
    return made;
}

harbour_reply due_reply(uint64_t answer, uint64_t place, uint64_t checks, uint64_t trials) {
    harbour_reply due;
    due.answer = answer;
    due.place = place;
    due.checks = checks;
    due.trials = trials;
    return due;
}

void reply_is(const char *what, harbour_reply got, harbour_reply due) {
    same(what, "answer", got.answer, due.answer);
    same(what, "place", got.place, due.place);
    same(what, "checks", got.checks, due.checks);
    same(what, "trials", got.trials, due.trials);
}

static void plan_is(const char *what, const lent_part *lent, const uint8_t *plan, size_t n) {
    for (size_t boat = 0; plan != NULL && boat < n; boat++) same(what, "slot", bytes_of(lent)[boat], plan[boat]);
}

static void work_is_cleared(const char *what, const lent_part *lent, int refused) {
    size_t cleared = refused ? 0 : HARBOUR_WORK;
    size_t left = 0;
    for (size_t at = 0; at < cleared; at++) left += words_of(lent)[at] != 0;
    same(what, "working words that are not 0", left, 0);
}

void run_is(const char *what, const harbour_tables *given, terms under, harbour_reply due, const uint8_t *plan) {
    lent_tables lent = lend_tables(given);
    lent_run run = run_lent(&lent, under);
    reply_is(what, run.reply, due);
    plan_is(what, &run.plan, plan, given->n);
    work_is_cleared(what, &run.work, due.answer >= HARBOUR_REFUSED);
    run_left_alone(what, &run, due, &lent);
    take_run_back(&run);
    take_tables_back(&lent);
}

void examine_is(const char *what, const harbour_tables *given, uint64_t answer, uint64_t place) {
    lent_tables lent = lend_tables(given);
    harbour_tables t = tables_of(&lent);
    harbour_reply got = harbour_examine(t.sizes, t.n, t.pairs, t.pair_bytes, t.rows, t.row_words);
    reply_is(what, got, due_reply(answer, place, 0, 0));
    tables_left_alone(what, &lent);
    take_tables_back(&lent);
}

/* The two questions about a given plan have one type. */
typedef harbour_reply plan_question(const uint8_t *, size_t, const uint8_t *, size_t, const uint64_t *, size_t,
    const uint8_t *, size_t);

static void plan_reply_is(const char *what, plan_question *asked, const harbour_tables *given, const uint8_t *plan,
    size_t bytes, harbour_reply due) {
    lent_tables lent = lend_tables(given);
    lent_part plan_memory = lend_bytes(plan, bytes);
    harbour_tables t = tables_of(&lent);
    harbour_reply got = asked(t.sizes, t.n, t.pairs, t.pair_bytes, t.rows, t.row_words, bytes_of(&plan_memory), bytes);
    reply_is(what, got, due);
    holds(what, "the given plan changed", left_alone_from(&plan_memory, 0));
    tables_left_alone(what, &lent);
    take_back(&plan_memory);
    take_tables_back(&lent);
}

void lawful_is(const char *what, const harbour_tables *given, const uint8_t *plan, size_t bytes,
    uint64_t answer, uint64_t place) {
    plan_reply_is(what, harbour_lawful, given, plan, bytes, due_reply(answer, place, 0, 0));
}

void broken_is(const char *what, const harbour_tables *given, const uint8_t *plan, size_t bytes,
    uint64_t answer, uint64_t place) {
    plan_reply_is(what, harbour_broken, given, plan, bytes, due_reply(answer, place, 0, 0));
}

void rows_are(const char *what, const harbour_tables *given, uint64_t lower, uint64_t higher,
    uint64_t start, uint64_t length) {
    lent_tables lent = lend_tables(given);
    harbour_tables t = tables_of(&lent);
    harbour_part got = harbour_rows(t.sizes, t.n, t.pairs, t.pair_bytes, t.rows, t.row_words, lower, higher);
    same(what, "start", got.start, start);
    same(what, "length", got.length, length);
    tables_left_alone(what, &lent);
    take_tables_back(&lent);
}

void refused_by_all(const char *what, const harbour_tables *given, uint64_t answer, uint64_t place) {
    static const uint8_t plan[512] = {0};
    for (uint64_t method = HARBOUR_BT; method <= HARBOUR_FC_CBJ; method++) {
        run_is(what, given, ample(method, given), due_reply(answer, place, 0, 0), NULL);
    }
    examine_is(what, given, answer, place);
    lawful_is(what, given, plan, given->n, answer, place);
    broken_is(what, given, plan, given->n, answer, place);
    rows_are(what, given, 0, 1, 0, 0);
    unwritten(what, given, answer, place);
    if (answer != HARBOUR_REFUSED_ROW_WORDS) read_from_file(what, given, answer, place);
}
