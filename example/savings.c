#include "savings.h"

#include <inttypes.h>
#include <stdio.h>
#include <string.h>

typedef struct {
    uint64_t number, held_to;    /* a plain method is held to itself */
    const char *name;
} method;

static const method methods[] = {
    {HARBOUR_BT, HARBOUR_BT, "BT, plain backtracking"},
    {HARBOUR_CBJ, HARBOUR_BT, "CBJ, backjumping"},
    {HARBOUR_BM, HARBOUR_BT, "BM, backmarking"},
    {HARBOUR_FC, HARBOUR_FC, "FC, forward checking"},
    {HARBOUR_FC_CBJ, HARBOUR_FC, "FC-CBJ, both"},
};

enum { METHODS = sizeof methods / sizeof methods[0] };

static void show_saved(uint64_t plain, uint64_t spent) {
    uint64_t percent = plain == 0 ? 0 : (100 * (plain - spent) + plain / 2) / plain;
    printf("%8" PRIu64 " (%2" PRIu64 "%%)", plain - spent, percent);
}

static void show_one(const method *by, harbour_reply reply, harbour_reply held_to, int same_plan) {
    printf("  %-23s %7" PRIu64 " %7" PRIu64, by->name, reply.checks, reply.trials);
    if (by->number == by->held_to) {
        printf("%14s%14s", "-", "-");
    } else {
        show_saved(held_to.checks, reply.checks);
        show_saved(held_to.trials, reply.trials);
    }
    puts(same_plan ? "   the same" : "   ANOTHER");
}

static int no_worse(harbour_reply reply, harbour_reply held_to) {
    return reply.answer == held_to.answer && reply.checks <= held_to.checks && reply.trials <= held_to.trials;
}

int show_savings(const problem *of, uint8_t *plan) {
    outcome results[METHODS];
    int as_promised = 1;
    printf("  %-23s %7s %7s%14s%14s   plan\n", "method", "checks", "trials", "checks saved", "trials saved");
    for (size_t at = 0; at < METHODS; at++) {
        outcome *got = &results[at];
        *got = run(&of->draft, methods[at].number, HARBOUR_AMPLE, HARBOUR_AMPLE);
        harbour_reply held_to = results[methods[at].held_to - 1].reply;
        int same_plan = memcmp(got->plan, results[0].plan, of->port->n) == 0;
        show_one(&methods[at], got->reply, held_to, same_plan);
        as_promised &= same_plan && no_worse(got->reply, held_to);
    }
    memcpy(plan, results[0].plan, of->port->n);
    return as_promised;
}
