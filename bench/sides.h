/* What is timed: the library, and beside it the plain C as each compiler builds it, slot by slot and by whole words. */
#ifndef SIDES_H
#define SIDES_H

#include "draft.h"

/* The Makefile defines WITH_CLANG where it finds one. */
#ifdef WITH_CLANG
enum { LIBRARY, GCC, CLANG, SIDES, GCC_WORDS = SIDES, CLANG_WORDS, ALL_SIDES };
#else
enum { LIBRARY, GCC, SIDES, GCC_WORDS = SIDES, ALL_SIDES };
#endif

typedef outcome runner(const draft *of, uint64_t method, uint64_t checks, uint64_t trials);

/* One a side. The library examines and clears in both; the plain C searches alone, or does all of it. By whole words
   there are searches alone, of BT and CBJ. */
extern runner *const searches[ALL_SIDES], *const calls[ALL_SIDES];

typedef harbour_read_reply reader(const uint8_t *file, size_t bytes, harbour_rooms in);
typedef harbour_written writer(harbour_tables t, uint8_t *file, size_t room);

/* Of the file there is nothing by whole words. */
extern reader *const readers[ALL_SIDES];
extern writer *const writers[ALL_SIDES];

extern const char *const side_name[ALL_SIDES];

/* Which compilers, in a line. */
void print_compilers(void);

#endif
