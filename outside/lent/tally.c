#include "tally.h"

#include <inttypes.h>
#include <stdio.h>

enum { TOLD_AT_MOST = 10 };

static uint64_t comparisons, differed;

static int to_be_told(int agrees) {
    comparisons += 1;
    if (agrees) return 0;
    differed += 1;
    return differed <= TOLD_AT_MOST;
}

void same(const char *what, const char *of_it, uint64_t got, uint64_t due) {
    if (!to_be_told(got == due)) return;
    fprintf(stderr, "DIFFERS %s, %s: %" PRIu64 " in place of %" PRIu64 "\n", what, of_it, got, due);
}

void holds(const char *what, const char *of_it, int yes) {
    if (to_be_told(yes)) fprintf(stderr, "DIFFERS %s: %s\n", what, of_it);
}

int tally_told(void) {
    fprintf(stderr, "comparisons %" PRIu64 ", differed %" PRIu64 "\n", comparisons, differed);
    return differed != 0;
}
