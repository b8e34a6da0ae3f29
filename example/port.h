/* A port as its harbour master sees it: boats with their needs, quays, hours, and the house rules. */
#ifndef PORT_H
#define PORT_H

#include <stddef.h>

/* Where and when a boat lies: a quay of the port's list, and an hour of the evening. */
typedef struct {
    int hour, quay;
} berth;

/* What a boat needs, one bit each. */
enum { ICE = 1, CRANE = 2, DEEP = 4 };

typedef struct {
    const char *name;
    int from, until;        /* the hours in which it can come */
    unsigned needs;
    const char *crew_of;    /* the boat that it shares a crew with, or NULL */
} boat;

typedef struct {
    const boat *boats;
    size_t n;
    const char *const *quays;
    int quay_count, first_hour, last_hour;
} port;

/* Tonight's harbour, and a pier that is too small for its boats. */
extern const port tonight, fuel_pier;

/* The house rules, and the answer that none of them is broken. */
typedef enum { SAME_BERTH, ICE_PLANT, ONE_CRANE, LOW_WATER, SHARED_CREW, NO_RULE } rule;

extern const char *const rule_said[NO_RULE];

/* A deep boat does not lie at a shallow quay. */
int can_lie(const boat *boat, berth at);

/* Why two boats cannot lie there together, by the first rule that says so. */
rule why_not(const boat *one, berth at, const boat *other, berth there);

#endif
