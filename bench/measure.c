#include "measure.h"

#include "timing.h"

#include <stdio.h>
#include <stdlib.h>
#include <string.h>

const char *const method_name[METHODS] = {
    [HARBOUR_BT] = "BT", [HARBOUR_CBJ] = "CBJ", [HARBOUR_BM] = "BM", [HARBOUR_FC] = "FC", [HARBOUR_FC_CBJ] = "FC-CBJ",
};

/* Those that take part: the last ones, by whole words, where there are such. */
static int sides_of(const job *j)
{
    return j->by[GCC_WORDS] && j->method <= HARBOUR_CBJ ? ALL_SIDES : SIDES;
}

static outcome run_once(const job *j, int side)
{
    return j->by[side](j->of, j->method, j->allowance, j->allowance);
}

static void run_for_time(const void *j, int side)
{
    run_once(j, side);
}

static void differ(const job *j, const outcome *o)
{
    printf("DIFFER: %s, file %u, %s\n", j->family, j->file, method_name[j->method]);
    for (int side = LIBRARY; side < sides_of(j); side++)
        printf("  %s: answer %llu, checks %llu, trials %llu\n", side_name[side],
               (unsigned long long)o[side].reply.answer, (unsigned long long)o[side].reply.checks,
               (unsigned long long)o[side].reply.trials);
    exit(1);
}

outcome agreed(const job *j)
{
    outcome o[ALL_SIDES];
    for (int side = LIBRARY; side < sides_of(j); side++)
        o[side] = run_once(j, side);
    for (int side = GCC; side < sides_of(j); side++)
        if (memcmp(&o[LIBRARY], &o[side], sizeof *o) != 0)
            differ(j, o);
    return o[LIBRARY];
}

sums measured(const job *j)
{
    outcome o = agreed(j);
    sums s = { 1, o.reply.checks, o.reply.trials, { 0 } };
    time_sides(run_for_time, j, sides_of(j), s.seconds);
    return s;
}

void add(sums *to, const sums *s)
{
    to->jobs += s->jobs;
    to->checks += s->checks;
    to->trials += s->trials;
    for (int side = LIBRARY; side < ALL_SIDES; side++)
        to->seconds[side] += s->seconds[side];
}

double ratio(const sums *s, int side)
{
    return s->seconds[LIBRARY] / s->seconds[side];
}

double larger_ratio(const sums *s)
{
    double larger = 0;
    for (int side = GCC; side < SIDES; side++)
        if (ratio(s, side) > larger)
            larger = ratio(s, side);
    return larger;
}

double form_ratio(const sums *s, int side)
{
    return s->seconds[side] / s->seconds[side - GCC + GCC_WORDS];
}
