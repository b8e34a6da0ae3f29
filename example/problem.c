#include "problem.h"

#include <string.h>

/* Earliest hour first, then the quays in their order. */
static void make_slots(problem *made, size_t boat) {
    const port *port = made->port;
    size_t size = 0;
    for (int hour = port->first_hour; hour <= port->last_hour; hour++) {
        for (int quay = 0; quay < port->quay_count; quay++) {
            berth at = {hour, quay};
            if (can_lie(&port->boats[boat], at)) made->slots[boat][size++] = at;
        }
    }
    add_boats(&made->draft, 1, size);
}

/* One row: the slots of the higher boat that no rule shuts out. */
static uint64_t make_row(problem *made, size_t lower, size_t slot, size_t higher) {
    const boat *boats = made->port->boats;
    uint64_t row = 0;
    for (size_t other = 0; other < made->draft.sizes[higher]; other++) {
        rule broken = why_not(&boats[lower], made->slots[lower][slot], &boats[higher], made->slots[higher][other]);
        if (broken == NO_RULE) {
            row |= UINT64_C(1) << other;
        } else {
            made->forbidden[broken] += 1;
        }
    }
    return row;
}

static uint64_t all_slots(unsigned size) {
    return size == 0 ? 0 : UINT64_MAX >> (HARBOUR_SLOTS - size);
}

/* A pair is listed only where some rule speaks of it: what is not listed costs no check. */
static void make_pair(problem *made, size_t lower, size_t higher) {
    const uint8_t *sizes = made->draft.sizes;
    uint64_t rows[HARBOUR_SLOTS];
    int listed = 0;
    for (size_t slot = 0; slot < sizes[lower]; slot++) {
        rows[slot] = make_row(made, lower, slot, higher);
        listed |= rows[slot] != all_slots(sizes[higher]);
    }
    if (listed) add_pair(&made->draft, lower, higher, rows);
}

void make_problem(problem *made, const port *from) {
    memset(made, 0, sizeof *made);
    made->port = from;
    start_draft(&made->draft);
    for (size_t boat = 0; boat < from->n; boat++) make_slots(made, boat);
    for (size_t lower = 0; lower < from->n; lower++) {
        for (size_t higher = lower + 1; higher < from->n; higher++) make_pair(made, lower, higher);
    }
}
