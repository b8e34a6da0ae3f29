/* The problems of the benchmark, in families. */
#ifndef FAMILIES_H
#define FAMILIES_H

#include "problems.h"

typedef struct {
    const char *name;
    unsigned files;
    uint64_t allowance; /* of checks, and of trials */
    void (*make)(draft *d, unsigned file);
} family;

/* Boards of queens are the first. */
enum { QUEENS, FAMILIES = 5 };

extern const family families[FAMILIES], tiny_tables;

/* Of all families; the tiny tables are none. */
unsigned file_count(void);

#endif
