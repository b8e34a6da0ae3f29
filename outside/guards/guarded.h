/* The guarded functions as one list, each asked with parts at any addresses. */
#ifndef GUARDED_H
#define GUARDED_H

#include "heard.h"

/* Any reply, as its numbers in their order; 0 after the last. */
enum { REPLIED = 5 };
typedef struct {
    uint64_t number[REPLIED];
} replied;

typedef struct {
    const char *name, *kinds;    /* of its pointers: b bytes, w words; B and W where they are written */
    uint64_t places[PARTS];      /* of its pointers, among the plain function's parameters */
    replied (*ask)(const part *parts);
    replied played, owed;        /* its replies where the plain function is called, and where not, but for the place */
    uint64_t numbers[NUMBERS];   /* with which it is asked */
} guarded;

/* In the order of the list. */
enum { RUN, EXAMINE, LAWFUL, BROKEN, ROWS, READ, WRITE, LAWFUL_FILE, GUARDED };

extern const guarded every_guarded[GUARDED];

size_t parts_of(const guarded *g);
int is_words(const guarded *g, size_t at);
int is_written(const guarded *g, size_t at);

/* The plain function is called once with just these parts, and its reply handed over. */
void is_called(const guarded *g, const char *what, const part *parts);

/* The pointer at this index is named, and nothing called. */
void is_owed(const guarded *g, const char *what, const part *parts, size_t at);

#endif
