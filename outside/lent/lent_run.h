/* A run on lent tables, with the memory that it was lent beside them. */
#ifndef LENT_RUN_H
#define LENT_RUN_H

#include "harbour.h"
#include "lent_tables.h"

/* All that a run is given beside the tables. */
typedef struct {
    uint64_t method;
    size_t plan_bytes, work_words;
    uint64_t checks, trials;
} terms;

typedef struct {
    harbour_reply reply;
    lent_part plan, work;
} lent_run;

lent_run run_lent(const lent_tables *lent, terms under);

/* Five comparisons: nothing lent is changed but what the promise lets a run with this reply change. */
void run_left_alone(const char *what, const lent_run *run, harbour_reply by, const lent_tables *lent);

void take_run_back(lent_run *run);

#endif
