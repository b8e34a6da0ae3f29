/* Memory that a call is lent for tables: the parts are those of lent tables, with nothing in them yet. */
#ifndef LENT_ROOMS_H
#define LENT_ROOMS_H

#include "lent_tables.h"

/* How many bytes or words each part has. */
typedef struct {
    size_t sizes, pairs, rows;
} room;

/* Just enough for these tables. */
room room_for(harbour_tables tables);

lent_tables lend_rooms(room lent);

/* The parts as a call is given them. */
harbour_rooms rooms_of(const lent_tables *lent);

/* Three comparisons: the guards stand, and what comes after tables of these lengths is as it was. */
void rooms_left_alone(const char *what, const lent_tables *lent, harbour_tables written);

/* Three comparisons: these tables stand at the beginning of the parts. */
void rooms_hold(const char *what, const lent_tables *lent, harbour_tables due);

#endif
