/* Problems run on every side, and how long each side takes. */
#ifndef MEASURE_H
#define MEASURE_H

#include "sides.h"

enum { METHODS = HARBOUR_FC_CBJ + 1 };

extern const char *const method_name[METHODS];

/* One problem, by one method, through one function of each side. */
typedef struct {
    const char *family;
    unsigned file;
    const draft *of;
    uint64_t method, allowance; /* of checks, and of trials */
    runner *const *by;
} job;

/* Over some jobs. */
typedef struct {
    unsigned jobs;
    uint64_t checks, trials;
    double seconds[ALL_SIDES];
} sums;

/* Answer, counts and plan, the same from all sides; the program ends where they differ. */
outcome agreed(const job *j);

/* The best of some rounds of all sides in turn. */
sums measured(const job *j);

void add(sums *to, const sums *s);

/* The library's time over a plain side's. */
double ratio(const sums *s, int side);

/* The one that counts. */
double larger_ratio(const sums *s);

/* BT and CBJ alone: a plain side's time, slot by slot, over the same compiler's by whole words. */
double form_ratio(const sums *s, int side);

#endif
