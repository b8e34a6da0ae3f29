/* How many comparisons were made, and how many differed. */
#ifndef TALLY_H
#define TALLY_H

#include <stdint.h>

/* Counts one comparison of two numbers; the first few that differ are told. */
void same(const char *what, const char *of_it, uint64_t got, uint64_t due);

/* Counts one comparison that was made elsewhere. */
void holds(const char *what, const char *of_it, int yes);

/* Writes the tally's line; gives back the program's exit status. */
int tally_told(void);

#endif
