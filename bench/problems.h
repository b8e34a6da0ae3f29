/* Problems of known kinds, as drafts of tables, and a count of their plans. */
#ifndef PROBLEMS_H
#define PROBLEMS_H

#include "draft.h"

/* Boat = row of the board, slot = column. */
void make_queens(draft *d, size_t n);

/* Source 000's zebra; order 0 is the source's own, any other a shuffle. */
void make_zebra(draft *d, unsigned order);

/* Each pair is listed with this chance, and each two slots of it forbidden with that one, in thousandths. */
void make_scattered(draft *d, size_t boats, size_t size, unsigned listed, unsigned forbidden, uint64_t number);

/* The seed of a numbered file. */
uint64_t seed_of(uint64_t number);

/* A number below a bound; the seed moves on. */
uint64_t draw(uint64_t *seed, uint64_t below);

/* How many plans the tables have; the first goes to plan. */
uint64_t count_plans(const harbour_tables *t, uint8_t *plan);

#endif
