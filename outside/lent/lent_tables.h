/* A harbour's tables, lent to a call. */
#ifndef LENT_TABLES_H
#define LENT_TABLES_H

#include "lent.h"
#include "harbour.h"

typedef struct {
    lent_part sizes, pairs, rows;
} lent_tables;

lent_tables lend_tables(const harbour_tables *given);

/* The tables as a call is given them: the lent parts. */
harbour_tables tables_of(const lent_tables *lent);

/* Three comparisons: no table is changed by a call. */
void tables_left_alone(const char *what, const lent_tables *lent);

void take_tables_back(lent_tables *lent);

#endif
