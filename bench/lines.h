/* The lines that are printed. */
#ifndef LINES_H
#define LINES_H

#include "measure.h"

typedef void line(const char *name, const char *method, const sums *s);

void print_head(void);

/* By the check and by the trial. */
line print_searches;

/* By the call. */
line print_calls;

void print_bytes_head(void);

/* Of so many bytes, a second. */
void print_bytes(const char *name, const char *way, size_t bytes, const sums *s);

/* All that a limit is set on: for each method the larger ratio over all files, and the largest on a family. */
void print_larger(const sums *all, const double *largest, const sums *tiny);

#endif
