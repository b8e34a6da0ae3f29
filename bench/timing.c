#include "timing.h"

#include "sides.h"

#include <time.h>

enum { ROUNDS = 4 };

static const double STRETCH = 0.02;

static double now(void)
{
    struct timespec t;
    clock_gettime(CLOCK_PROCESS_CPUTIME_ID, &t);
    return (double)t.tv_sec + 1e-9 * (double)t.tv_nsec;
}

/* Seconds a time, over so many times. */
static double stretch(task *once, const void *of, int side, unsigned times)
{
    double from = now();
    for (unsigned k = 0; k < times; k++)
        once(of, side);
    return (now() - from) / times;
}

void time_sides(task *once, const void *of, int sides, double *seconds)
{
    double first = stretch(once, of, GCC, 1);
    unsigned times = first < STRETCH ? (unsigned)(STRETCH / (first + 1e-9)) + 1 : 1;
    for (int round = 0; round < ROUNDS; round++)
        for (int side = LIBRARY; side < sides; side++) {
            double took = stretch(once, of, side, times);
            if (round == 0 || took < seconds[side])
                seconds[side] = took;
        }
}
