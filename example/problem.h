/* A port as a problem for the library: slots for berths, and rows for rules. The port has at most 64
 * boats and 64 berths. */
#ifndef PROBLEM_H
#define PROBLEM_H

#include "draft.h"
#include "port.h"

typedef struct {
    const port *port;
    draft draft;
    berth slots[HARBOUR_BOATS][HARBOUR_SLOTS];    /* what each slot of each boat means */
    unsigned forbidden[NO_RULE];                  /* pairings of slots that each rule shuts out */
} problem;

void make_problem(problem *made, const port *from);

#endif
