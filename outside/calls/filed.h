/* Files of tables, made by another hand than the library's. */
#ifndef FILED_H
#define FILED_H

#include "harbour.h"

/* A file, and the tables that stand in it; both are to be freed. */
typedef struct {
    uint8_t *bytes;
    size_t length;
    harbour_tables tables;
} filed;

/* A file has a byte for the number of boats, and whole pairs whose lower boat has a size. */
int stands_in_file(const harbour_tables *given);

/* Of tables that stand in one. Rows too many are left out, and those that are missing are 0. */
filed file_of(const harbour_tables *given);

void free_file(filed *made);

#endif
