/* All sides on one file and on its tables: the same replies, and the same in all memory that is lent. The program ends
   where they differ; each gives back how often it has tried. */
#ifndef SAME_H
#define SAME_H

#include "draft.h"

/* A file in memory, with room for a byte too many. */
typedef struct {
    size_t length;
    uint8_t bytes[HARBOUR_FILE + 1];
} file;

/* The file whole, in rooms too small, and with a byte too many; then cut, and with a bit changed, at its first and last
   places and at every so many between. It is left as it was. */
unsigned try_readings(file *f, size_t every);

/* The tables whole, in a room too small, with a bad pair, and with a row too few. They are left as they were. */
unsigned try_writings(draft *d);

#endif
