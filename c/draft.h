/* Tables in the making, and a run on them. */
#ifndef DRAFT_H
#define DRAFT_H

#include "harbour.h"

/* Room for the largest harbour, and the tables that have been made in it. */
typedef struct {
    harbour_tables made;
    uint8_t sizes[HARBOUR_BOATS], pairs[2 * HARBOUR_PAIRS];
    uint64_t rows[HARBOUR_ROWS];
} draft;

/* No boats, and no pairs. */
void start_draft(draft *in);

/* So many boats more, all of one size. */
void add_boats(draft *in, size_t boats, size_t size);

/* The next pair in rising order, with a row for each slot of the lower boat. */
void add_pair(draft *in, size_t lower, size_t higher, const uint64_t *rows);

/* All of that room, for the tables of a file. */
harbour_rooms rooms_of(draft *in);

/* What a run comes to; the plan is all 0 unless solved. */
typedef struct {
    harbour_reply reply;
    uint8_t plan[HARBOUR_BOATS];
} outcome;

/* A run with all the memory that it needs. */
outcome run(const draft *of, uint64_t method, uint64_t checks, uint64_t trials);

#endif
