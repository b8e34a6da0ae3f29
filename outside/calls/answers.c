#include "asked.h"
#include "calls.h"
#include "harbours.h"
#include "tally.h"

/* What a case comes to under the five methods, in the order of their numbers. */
typedef struct {
    const char *name;
    const harbour_tables *given;
    const uint8_t *plan;
    uint64_t checks[5], trials[5];
} expected;

static const uint8_t plan_0[] = {0}, plan_01[] = {0, 1}, plan_100[] = {1, 0, 0}, plan_10000[] = {1, 0, 0, 0, 0};

static const expected cases[] = {
    {"case A", &case_a, plan_0, {0, 0, 0, 0, 0}, {0, 0, 0, 0, 0}},
    {"case B", &case_b, plan_0, {0, 0, 0, 0, 0}, {1, 1, 1, 1, 1}},
    {"case C", &case_c, plan_01, {2, 2, 2, 2, 2}, {3, 3, 3, 2, 2}},
    {"case D", &case_d, NULL, {10, 10, 10, 10, 10}, {10, 10, 10, 4, 4}},
    {"case E", &case_e, plan_100, {3, 2, 2, 2, 2}, {8, 6, 8, 4, 4}},
    {"case F", &case_f, NULL, {4, 2, 2, 2, 2}, {10, 6, 10, 2, 2}},
    {"case G", &case_g, NULL, {20, 10, 20, 20, 10}, {22, 11, 22, 10, 5}},
    {"five boats", &five_boats, plan_10000, {13, 13, 11, 14, 14}, {15, 15, 15, 10, 10}},
};

static void decided(void) {
    for (size_t at = 0; at < LENGTH(cases); at++) {
        const expected *due = &cases[at];
        uint64_t answer = due->plan == NULL ? HARBOUR_NO_PLAN : HARBOUR_SOLVED;
        for (uint64_t method = HARBOUR_BT; method <= HARBOUR_FC_CBJ; method++) {
            harbour_reply reply = due_reply(answer, 0, due->checks[method - 1], due->trials[method - 1]);
            terms under = ample(method, due->given);
            run_is(due->name, due->given, under, reply, due->plan);
            under.checks = reply.checks;
            under.trials = reply.trials;
            run_is("an exact fit", due->given, under, reply, due->plan);
            under.plan_bytes += 3;
            under.work_words += 5;
            run_is("more memory than is needed", due->given, under, reply, due->plan);
        }
    }
}

static void allowed(const char *what, const harbour_tables *given, uint64_t method, uint64_t checks, uint64_t trials,
    harbour_reply due, const uint8_t *plan) {
    terms under = ample(method, given);
    under.checks = checks;
    under.trials = trials;
    run_is(what, given, under, due, plan);
}

static void cut_short(void) {
    const uint64_t by_checks = HARBOUR_UNDECIDED_BY_CHECKS, by_trials = HARBOUR_UNDECIDED_BY_TRIALS;
    const uint64_t most = HARBOUR_AMPLE;
    allowed("D, 9 checks", &case_d, HARBOUR_BT, 9, most, due_reply(by_checks, 0, 9, 10), NULL);
    allowed("D, 9 trials", &case_d, HARBOUR_BT, most, 9, due_reply(by_trials, 0, 9, 9), NULL);
    allowed("D, 9 of both", &case_d, HARBOUR_BT, 9, 9, due_reply(by_trials, 0, 9, 9), NULL);
    allowed("D, 10 of both", &case_d, HARBOUR_BT, 10, 10, due_reply(HARBOUR_NO_PLAN, 0, 10, 10), NULL);
    allowed("E, 2 and 6", &case_e, HARBOUR_CBJ, 2, 6, due_reply(HARBOUR_SOLVED, 0, 2, 6), plan_100);
    allowed("E, 2 and 6", &case_e, HARBOUR_BT, 2, 6, due_reply(by_trials, 0, 2, 6), NULL);
    for (uint64_t method = HARBOUR_BT; method <= HARBOUR_FC_CBJ; method++) {
        allowed("A, none", &case_a, method, 0, 0, due_reply(HARBOUR_SOLVED, 0, 0, 0), plan_0);
        allowed("D, none", &case_d, method, 0, 0, due_reply(by_trials, 0, 0, 0), NULL);
        uint64_t trials = method <= HARBOUR_BM ? 3 : 1;
        allowed("E, no check", &case_e, method, 0, most, due_reply(by_checks, 0, 0, trials), NULL);
    }
}

static void examined(void) {
    for (size_t at = 0; at < LENGTH(cases); at++) {
        examine_is(cases[at].name, cases[at].given, HARBOUR_FINE, 0);
    }
}

static void judged(void) {
    static const uint8_t breaking[3][3] = {{0, 0, 0}, {0, 1, 0}, {0, 1, 1}}, plan_110[] = {1, 1, 0};
    for (uint64_t pair = 0; pair < 3; pair++) {
        lawful_is("D, broken", &case_d, breaking[pair], 3, HARBOUR_UNLAWFUL, 0);
        broken_is("D, broken", &case_d, breaking[pair], 3, HARBOUR_BROKEN, pair);
    }
    lawful_is("E, another lawful plan", &case_e, plan_110, 3, HARBOUR_LAWFUL, 0);
    broken_is("E, another lawful plan", &case_e, plan_110, 3, HARBOUR_UNBROKEN, 0);
    for (size_t at = 0; at < LENGTH(cases); at++) {
        if (cases[at].plan == NULL) continue;
        lawful_is(cases[at].name, cases[at].given, cases[at].plan, cases[at].given->n, HARBOUR_LAWFUL, 0);
        broken_is(cases[at].name, cases[at].given, cases[at].plan, cases[at].given->n, HARBOUR_UNBROKEN, 0);
    }
}

static void shown(void) {
    const uint64_t far = UINT64_C(1) << 32, most = UINT64_MAX;
    const uint64_t not_listed[][2] = {{0, 1}, {2, 0}, {2, 1}, {2, 2}, {0, 5}, {5, 6}, {0, 258}, {256, 2}, {far, 2},
        {0, far + 2}, {most, 0}, {0, most}, {most, most}};
    rows_are("rows of 0-2", &five_boats, 0, 2, 0, 3);
    rows_are("rows of 1-2", &five_boats, 1, 2, 3, 2);
    rows_are("rows of 1-4", &five_boats, 1, 4, 5, 2);
    rows_are("rows of 3-4", &five_boats, 3, 4, 7, 1);
    for (size_t at = 0; at < LENGTH(not_listed); at++) {
        rows_are("rows of no listed pair", &five_boats, not_listed[at][0], not_listed[at][1], 0, 0);
    }
    rows_are("rows of no boats", &case_a, 0, 0, 0, 0);
}

/* Parts that are only read may share memory: sizes 1, 2, 3, 1; the pair 2-3; the given plan 1, 2, 3, 1. */
static void shared(void) {
    const uint8_t bytes[] = {1, 2, 3, 1}, *pair = bytes + 1;
    const uint64_t rows[] = {1, 1, 1};
    same("one memory", "examine", harbour_examine(bytes, 4, pair, 2, rows, 3).answer, HARBOUR_FINE);
    same("one memory", "rows", harbour_rows(bytes, 4, pair, 2, rows, 3, 2, 3).length, 3);
    harbour_reply lawful = harbour_lawful(bytes, 4, pair, 2, rows, 3, bytes, 4);
    harbour_reply broken = harbour_broken(bytes, 4, pair, 2, rows, 3, bytes, 4);
    same("one memory", "lawful", lawful.answer, HARBOUR_REFUSED_GIVEN_SLOT);
    same("one memory", "broken", broken.answer, HARBOUR_REFUSED_GIVEN_SLOT);
}

void answers(void) {
    decided();
    cut_short();
    examined();
    judged();
    shown();
    shared();
}
