#include "port.h"

#include <stdlib.h>
#include <string.h>

static const boat boats_tonight[] = {
    {"Tern", 17, 19, ICE, NULL},
    {"Gannet", 20, 21, CRANE, NULL},
    {"Petrel", 20, 21, ICE, NULL},
    {"Fulmar", 19, 21, ICE | DEEP, "Dunlin"},
    {"Puffin", 17, 18, ICE | CRANE, NULL},
    {"Skua", 20, 21, DEEP, NULL},
    {"Eider", 19, 21, CRANE | DEEP, NULL},
    {"Curlew", 20, 21, DEEP, NULL},
    {"Plover", 20, 21, CRANE, NULL},
    {"Dunlin", 17, 18, 0, "Fulmar"},
};

static const boat boats_at_pier[] = {{"Heron", 6, 6, 0, NULL}, {"Merlin", 6, 6, 0, NULL}, {"Osprey", 6, 6, 0, NULL}};

static const char *const quays_tonight[] = {"North", "South", "Inner"}, *const sides_of_pier[] = {"East", "West"};

const port tonight = {boats_tonight, 10, quays_tonight, 3, 17, 21};
const port fuel_pier = {boats_at_pier, 3, sides_of_pier, 2, 6, 6};

enum { SHALLOW_QUAY = 2, LOW_WATER_FROM = 19, LOW_WATER_UNTIL = 20 };

const char *const rule_said[NO_RULE] = {
    "a berth holds one boat an hour",
    "the ice plant serves one boat an hour",
    "the crane serves one boat an hour",
    "at low water, 19 and 20, one deep boat an hour",
    "a shared crew needs a free hour in between",
};

int can_lie(const boat *boat, berth at) {
    int deep_enough = !(boat->needs & DEEP) || at.quay != SHALLOW_QUAY;
    return boat->from <= at.hour && at.hour <= boat->until && deep_enough;
}

static int share_a_crew(const boat *one, const boat *other) {
    return one->crew_of != NULL && strcmp(one->crew_of, other->name) == 0;
}

rule why_not(const boat *one, berth at, const boat *other, berth there) {
    unsigned both_need = one->needs & other->needs;
    int same_hour = at.hour == there.hour;
    int low_water = LOW_WATER_FROM <= at.hour && at.hour <= LOW_WATER_UNTIL;
    if (same_hour && at.quay == there.quay) return SAME_BERTH;
    if (same_hour && (both_need & ICE)) return ICE_PLANT;
    if (same_hour && (both_need & CRANE)) return ONE_CRANE;
    if (same_hour && (both_need & DEEP) && low_water) return LOW_WATER;
    if (share_a_crew(one, other) && abs(at.hour - there.hour) < 2) return SHARED_CREW;
    return NO_RULE;
}
