#include <string.h>

#include "asked.h"
#include "calls.h"
#include "harbours.h"
#include "tally.h"

enum { BYTES = 8, WORDS = HARBOUR_WORK + 16 };

/* One memory for all parts of a run, so that they can be laid over one another: case E stands at its
 * beginning, and all else is filled. */
typedef struct {
    uint8_t sizes[BYTES], pairs[BYTES], plan[BYTES];
    uint64_t rows[BYTES], work[WORDS];
} memory_of_all;

static memory_of_all all, before;

static harbour_tables laid_out(void) {
    memset(&all, 0x5a, sizeof all);
    memcpy(all.sizes, case_e.sizes, case_e.n);
    memcpy(all.pairs, case_e.pairs, case_e.pair_bytes);
    memcpy(all.rows, case_e.rows, case_e.row_words * sizeof *all.rows);
    before = all;
    harbour_tables made = {all.sizes, case_e.n, all.pairs, case_e.pair_bytes, all.rows, case_e.row_words};
    return made;
}

static harbour_reply run(harbour_tables given, uint8_t *plan, uint64_t *work) {
    return harbour_run_t(HARBOUR_CBJ, given, plan, 3, work, HARBOUR_WORK, HARBOUR_AMPLE, HARBOUR_AMPLE);
}

static void is_owed(const char *what, harbour_reply got, uint64_t place) {
    reply_is(what, got, due_reply(HARBOUR_OWED, place, 0, 0));
    holds(what, "memory changed", memcmp(&all, &before, sizeof all) == 0);
}

/* The tables are put where the search would clear them, or write its plan. */
static void overlaps(void) {
    harbour_tables given = laid_out();
    memcpy(all.work + 8, case_e.rows, sizeof *all.rows * case_e.row_words);
    memcpy(all.work, case_e.sizes, case_e.n);
    memcpy(all.work + 4, case_e.pairs, case_e.pair_bytes);
    before = all;
    given.rows = all.work + 8;
    is_owed("rows among the working words", run(given, all.plan, all.work), 9);
    given.rows = all.rows;
    given.sizes = (const uint8_t *)all.work;
    is_owed("sizes among the working words", run(given, all.plan, all.work), 9);
    given.sizes = all.sizes;
    given.pairs = (const uint8_t *)(all.work + 4);
    is_owed("pairs among the working words", run(given, all.plan, all.work), 9);
    given.pairs = all.pairs;
    is_owed("the plan among the working words", run(given, (uint8_t *)(all.work + HARBOUR_WORK - 1), all.work), 9);
    is_owed("the plan over the sizes", run(given, all.sizes + 2, all.work), 7);
    is_owed("the plan over the pairs", run(given, all.pairs, all.work), 7);
    is_owed("the plan over the rows", run(given, (uint8_t *)(all.rows + 1), all.work), 7);
}

static void null_with_a_length(void) {
    harbour_tables none = laid_out(), given = none;
    given.sizes = NULL;
    is_owed("sizes NULL", run(given, all.plan, all.work), 1);
    is_owed("sizes NULL", harbour_examine_t(given), 0);
    is_owed("sizes NULL", harbour_lawful_t(given, all.plan, 3), 0);
    given = none;
    given.pairs = NULL;
    is_owed("pairs NULL", run(given, all.plan, all.work), 3);
    is_owed("pairs NULL", harbour_examine_t(given), 2);
    is_owed("pairs NULL", harbour_broken_t(given, all.plan, 3), 2);
    given = none;
    given.rows = NULL;
    is_owed("rows NULL", run(given, all.plan, all.work), 5);
    is_owed("rows NULL", harbour_examine_t(given), 4);
    same("rows NULL", "length", harbour_rows_t(given, 0, 2).length, 0);
    is_owed("plan NULL", run(none, NULL, all.work), 7);
    is_owed("work NULL", run(none, all.plan, NULL), 9);
    is_owed("given NULL", harbour_lawful_t(none, NULL, 3), 6);
    is_owed("given NULL", harbour_broken_t(none, NULL, 3), 6);
}

/* Next to one another, and what is only read over one another, is no slip. */
static void answered(void) {
    static const uint8_t solved[] = {1, 0, 0};
    harbour_tables given = laid_out();
    reply_is("examine_t", harbour_examine_t(given), due_reply(HARBOUR_FINE, 0, 0, 0));
    reply_is("lawful_t", harbour_lawful_t(given, solved, 3), due_reply(HARBOUR_LAWFUL, 0, 0, 0));
    reply_is("broken_t", harbour_broken_t(given, all.pairs, 2), due_reply(HARBOUR_REFUSED_GIVEN_LENGTH, 0, 0, 0));
    reply_is("lawful_t", harbour_lawful_t(given, all.sizes, 3), due_reply(HARBOUR_REFUSED_GIVEN_SLOT, 0, 0, 0));
    same("rows_t", "length", harbour_rows_t(given, 0, 2).length, 2);
    all.sizes[3] = 77;
    reply_is("run_t", run(given, all.sizes + 4, all.work), due_reply(HARBOUR_SOLVED, 0, 2, 6));
    holds("run_t", "the plan beside the sizes", memcmp(all.sizes + 4, solved, 3) == 0 && all.sizes[3] == 77);
    holds("run_t", "working words after the last", memcmp(all.work + HARBOUR_WORK, before.work + HARBOUR_WORK,
        sizeof all.work - HARBOUR_WORK * sizeof *all.work) == 0);
}

void guarded(void) {
    overlaps();
    null_with_a_length();
    answered();
}
