#include "lent_run.h"

#include "tally.h"

lent_run run_lent(const lent_tables *lent, terms under) {
    lent_run made;
    made.plan = lend_bytes(NULL, under.plan_bytes);
    made.work = lend_words(NULL, under.work_words);
    made.reply = harbour_run_t(under.method, tables_of(lent), bytes_of(&made.plan), under.plan_bytes,
        words_of(&made.work), under.work_words, under.checks, under.trials);
    return made;
}

void run_left_alone(const char *what, const lent_run *run, harbour_reply by, const lent_tables *lent) {
    size_t written = by.answer == HARBOUR_SOLVED ? tables_of(lent).n : 0;
    size_t cleared = by.answer >= HARBOUR_REFUSED ? 0 : HARBOUR_WORK * sizeof(uint64_t);
    holds(what, "plan memory changed outside the promise", left_alone_from(&run->plan, written));
    holds(what, "working memory changed outside the promise", left_alone_from(&run->work, cleared));
    tables_left_alone(what, lent);
}

void take_run_back(lent_run *run) {
    take_back(&run->plan);
    take_back(&run->work);
}
