#include "chart.h"

#include <stdio.h>

/* Words between commas; none is a dash. */
static void draw_needs(const boat *boat) {
    const char *const words[] = {"ice", "crane", "deep water"};
    const char *between = "";
    for (unsigned need = 0; need < sizeof words / sizeof words[0]; need++) {
        if (!(boat->needs >> need & 1)) continue;
        printf("%s%s", between, words[need]);
        between = ", ";
    }
    if (boat->crew_of != NULL) {
        printf("%sthe crew of %s", between, boat->crew_of);
        between = ", ";
    }
    puts(*between == '\0' ? "-" : "");
}

static void draw_boat(const problem *of, size_t at) {
    const boat *boat = &of->port->boats[at];
    printf("  %-8s %d-%d  %6u   ", boat->name, boat->from, boat->until, of->draft.sizes[at]);
    draw_needs(boat);
}

void draw_port(const problem *of) {
    size_t n = of->port->n;
    puts("  boat     hours  berths   needs");
    for (size_t boat = 0; boat < n; boat++) draw_boat(of, boat);
    puts("\n  The house rules, and how many pairings of berths each shuts out:");
    for (int rule = 0; rule < NO_RULE; rule++) printf("  %5u  %s\n", of->forbidden[rule], rule_said[rule]);
    printf("  A deep boat has no berth at Inner. Of %zu pairs of boats, rules touch %zu.\n", n * (n - 1) / 2,
        of->draft.made.pair_bytes / 2);
}

const char *boat_at(const problem *of, const uint8_t *plan, int hour, int quay) {
    for (size_t boat = 0; boat < of->port->n; boat++) {
        berth at = of->slots[boat][plan[boat]];
        if (at.hour == hour && at.quay == quay) return of->port->boats[boat].name;
    }
    return ".";
}

void draw_plan(const problem *of, const uint8_t *plan) {
    const port *port = of->port;
    printf("\n         ");
    for (int quay = 0; quay < port->quay_count; quay++) printf("| %-9s", port->quays[quay]);
    printf("|\n  -------");
    for (int quay = 0; quay < port->quay_count; quay++) printf("+----------");
    puts("+");
    for (int hour = port->first_hour; hour <= port->last_hour; hour++) {
        printf("  %02d:00  ", hour);
        for (int quay = 0; quay < port->quay_count; quay++) printf("| %-9s", boat_at(of, plan, hour, quay));
        puts("|");
    }
    putchar('\n');
}
