#include "say.h"

#include <inttypes.h>
#include <stdio.h>

static const char *boat_named(const problem *of, uint8_t boat) {
    return boat < of->port->n ? of->port->boats[boat].name : "a boat that is not there";
}

/* What a pair has to be, by the refusal that it is not; NULL for other refusals. */
static const char *rule_of_pairs(uint64_t answer) {
    switch (answer) {
    case HARBOUR_REFUSED_PAIR_NO_BOAT: return "A pair is of boats in the list";
    case HARBOUR_REFUSED_PAIR_SAME_BOAT: return "A pair is of two boats";
    case HARBOUR_REFUSED_PAIR_HIGHER_FIRST: return "The boat that is listed first comes first";
    case HARBOUR_REFUSED_PAIR_NOT_RISING: return "Pairs follow as their boats are listed, each once";
    default: return NULL;
    }
}

/* The boats behind a refusal's place. */
static void say_boats(const problem *of, harbour_reply reply) {
    const char *const rule = rule_of_pairs(reply.answer);
    if (rule != NULL) {
        const uint8_t *const pair = of->draft.pairs + (reply.place - reply.place % 2);
        printf("  The pair is %s, then %s. %s.\n", boat_named(of, pair[0]), boat_named(of, pair[1]), rule);
    } else if (reply.answer == HARBOUR_REFUSED_SIZE) {
        printf("  Boat %" PRIu64 " is %s.\n", reply.place, boat_named(of, (uint8_t)reply.place));
    }
}

void say(const problem *of, harbour_reply reply) {
    printf("  %s.\n", harbour_say_run(reply).text);
    switch (reply.answer) {
    case HARBOUR_SOLVED:
        return;
    case HARBOUR_NO_PLAN:
        puts("  The search is complete: no way of placing the boats keeps every rule.");
        return;
    case HARBOUR_UNDECIDED_BY_CHECKS:
    case HARBOUR_UNDECIDED_BY_TRIALS:
        puts("  This is not \"no plan\". Ask again with a larger allowance.");
        return;
    default:
        say_boats(of, reply);
        puts("  Nothing was searched, so this says nothing about plans. Mend the tables first.");
    }
}
