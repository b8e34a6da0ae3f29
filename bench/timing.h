/* How long each side takes. */
#ifndef TIMING_H
#define TIMING_H

/* Something that every side does, once. */
typedef void task(const void *of, int side);

/* Seconds a time, of sides LIBRARY up to the last: the best of some rounds of all of them in turn. */
void time_sides(task *once, const void *of, int sides, double *seconds);

#endif
