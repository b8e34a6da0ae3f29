/* The plain functions, played: what they were called with is kept, and nothing that a pointer points to
 * is looked at. So the guarded ones can be given any address there is. */
#ifndef HEARD_H
#define HEARD_H

#include "harbour.h"

enum { PARTS = 5, NUMBERS = 3 };

/* Where a part begins, and how many bytes or words it has. */
typedef struct {
    uintptr_t start;
    size_t length;
} part;

typedef struct {
    unsigned calls;
    part parts[PARTS];
    uint64_t numbers[NUMBERS];    /* those that are no lengths, in the order of the parameters */
} heard;

extern heard last_heard;

/* What the played functions reply, number after number: as many of these as a reply has. */
enum { PLAYED = 71 };

#endif
