#include "asked.h"
#include "asked_files.h"
#include "calls.h"
#include "harbours.h"

#include <string.h>

static void solved_by_all(const char *what, const harbour_tables *given, uint64_t checks) {
    static const uint8_t first[HARBOUR_BOATS] = {0};
    for (uint64_t method = HARBOUR_BT; method <= HARBOUR_FC_CBJ; method++) {
        run_is(what, given, ample(method, given), due_reply(HARBOUR_SOLVED, 0, checks, given->n), first);
    }
    examine_is(what, given, HARBOUR_FINE, 0);
    lawful_is(what, given, first, given->n, HARBOUR_LAWFUL, 0);
    broken_is(what, given, first, given->n, HARBOUR_UNBROKEN, 0);
    filed_and_read(what, given);
    read_from_file(what, given, HARBOUR_LAWFUL, 0);
}

static void methods(void) {
    const uint64_t wrong[] = {0, 6, 255, 257, (UINT64_C(1) << 32) + 1, UINT64_MAX};
    for (size_t at = 0; at < LENGTH(wrong); at++) {
        harbour_reply due = due_reply(HARBOUR_REFUSED_METHOD, 0, 0, 0);
        run_is("no such method", &case_e, ample(wrong[at], &case_e), due, NULL);
        run_is("no such method, no boats", &case_a, ample(wrong[at], &case_a), due, NULL);
    }
}

static void boats(void) {
    const size_t too_many[] = {65, 66, 128, 255, 256, 257, 320};
    harbour_tables most = lone_boats(64, 1);
    solved_by_all("64 boats", &most, 0);
    for (size_t at = 0; at < LENGTH(too_many); at++) {
        harbour_tables given = lone_boats(too_many[at], 1);
        refused_by_all("too many boats", &given, HARBOUR_REFUSED_BOATS, 0);
    }
}

static void sizes(void) {
    const uint8_t wrong[] = {0, 65, 128, 255};
    harbour_tables most = lone_boats(64, 64);
    solved_by_all("64 boats of 64 slots", &most, 0);
    for (size_t at = 0; at < LENGTH(wrong); at++) {
        harbour_tables given = lone_boats(3, wrong[at]);
        refused_by_all("every size wrong", &given, HARBOUR_REFUSED_SIZE, 0);
        const uint8_t last[] = {1, 64, wrong[at]}, middle_too[] = {64, 0, wrong[at]};
        given.sizes = last;
        refused_by_all("the last size wrong", &given, HARBOUR_REFUSED_SIZE, 2);
        given.sizes = middle_too;
        refused_by_all("the last two sizes wrong", &given, HARBOUR_REFUSED_SIZE, 1);
    }
}

static void pair_bytes(void) {
    const size_t wrong[] = {1, 3, 4031, 4033, 4034, 4036};
    harbour_tables most = crowd(64, 2 * HARBOUR_PAIRS, HARBOUR_PAIRS);
    solved_by_all("2,016 pairs", &most, HARBOUR_PAIRS);
    for (size_t at = 0; at < LENGTH(wrong); at++) {
        harbour_tables given = crowd(64, wrong[at], HARBOUR_PAIRS);
        refused_by_all("pair bytes", &given, HARBOUR_REFUSED_PAIR_BYTES, 0);
    }
}

/* Two pairs of three boats, of which the second is wrong, with its due answer; the pair after them is wrong too. */
typedef struct {
    uint8_t pairs[4];
    uint64_t answer, place;
} second_wrong;

static const second_wrong seconds[] = {
    {{0, 1, 3, 2}, HARBOUR_REFUSED_PAIR_NO_BOAT, 2}, {{0, 1, 1, 3}, HARBOUR_REFUSED_PAIR_NO_BOAT, 3},
    {{0, 1, 3, 4}, HARBOUR_REFUSED_PAIR_NO_BOAT, 2}, {{0, 1, 255, 255}, HARBOUR_REFUSED_PAIR_NO_BOAT, 2},
    {{1, 2, 0, 64}, HARBOUR_REFUSED_PAIR_NO_BOAT, 3}, {{0, 1, 255, 0}, HARBOUR_REFUSED_PAIR_NO_BOAT, 2},
    {{0, 1, 1, 1}, HARBOUR_REFUSED_PAIR_SAME_BOAT, 3}, {{1, 2, 0, 0}, HARBOUR_REFUSED_PAIR_SAME_BOAT, 3},
    {{0, 1, 2, 1}, HARBOUR_REFUSED_PAIR_HIGHER_FIRST, 2}, {{1, 2, 1, 0}, HARBOUR_REFUSED_PAIR_HIGHER_FIRST, 2},
    {{0, 1, 0, 1}, HARBOUR_REFUSED_PAIR_NOT_RISING, 2}, {{0, 2, 0, 1}, HARBOUR_REFUSED_PAIR_NOT_RISING, 2},
    {{1, 2, 0, 2}, HARBOUR_REFUSED_PAIR_NOT_RISING, 2}, {{1, 2, 0, 1}, HARBOUR_REFUSED_PAIR_NOT_RISING, 2},
};

static void second_pairs(harbour_tables given) {
    static const uint8_t thirds[][2] = {{9, 0}, {0, 9}, {9, 9}, {2, 2}, {2, 0}, {0, 1}};
    uint8_t pairs[6];
    given.pairs = pairs;
    given.pair_bytes = 6;
    for (size_t at = 0; at < LENGTH(seconds); at++) {
        for (size_t third = 0; third < LENGTH(thirds); third++) {
            memcpy(pairs, seconds[at].pairs, 4);
            memcpy(pairs + 4, thirds[third], 2);
            refused_by_all("the second pair wrong", &given, seconds[at].answer, seconds[at].place);
        }
    }
}

static void first_pairs(harbour_tables given) {
    static const struct {
        uint8_t pair[2];
        uint64_t answer, place;
    } wrong[] = {
        {{3, 0}, HARBOUR_REFUSED_PAIR_NO_BOAT, 0}, {{0, 3}, HARBOUR_REFUSED_PAIR_NO_BOAT, 1},
        {{3, 4}, HARBOUR_REFUSED_PAIR_NO_BOAT, 0}, {{64, 65}, HARBOUR_REFUSED_PAIR_NO_BOAT, 0},
        {{0, 64}, HARBOUR_REFUSED_PAIR_NO_BOAT, 1}, {{2, 255}, HARBOUR_REFUSED_PAIR_NO_BOAT, 1},
        {{255, 255}, HARBOUR_REFUSED_PAIR_NO_BOAT, 0}, {{0, 0}, HARBOUR_REFUSED_PAIR_SAME_BOAT, 1},
        {{2, 2}, HARBOUR_REFUSED_PAIR_SAME_BOAT, 1}, {{1, 0}, HARBOUR_REFUSED_PAIR_HIGHER_FIRST, 0},
        {{2, 1}, HARBOUR_REFUSED_PAIR_HIGHER_FIRST, 0},
    };
    given.pair_bytes = 2;
    for (size_t at = 0; at < LENGTH(wrong); at++) {
        given.pairs = wrong[at].pair;
        refused_by_all("the first pair wrong", &given, wrong[at].answer, wrong[at].place);
    }
}

/* The last of all pairs of 64 boats: the highest bytes that a place can be. */
static void last_pairs(void) {
    uint8_t pairs[2 * HARBOUR_PAIRS];
    harbour_tables given = crowd(64, sizeof pairs, HARBOUR_PAIRS);
    memcpy(pairs, given.pairs, sizeof pairs);
    uint8_t *const last = pairs + sizeof pairs - 2;
    given.pairs = pairs;
    last[1] = 64;
    refused_by_all("the last pair wrong", &given, HARBOUR_REFUSED_PAIR_NO_BOAT, 4031);
    last[1] = 62;
    refused_by_all("the last pair wrong", &given, HARBOUR_REFUSED_PAIR_SAME_BOAT, 4031);
    last[1] = 61;
    refused_by_all("the last pair wrong", &given, HARBOUR_REFUSED_PAIR_HIGHER_FIRST, 4030);
    last[0] = 61;
    last[1] = 63;
    refused_by_all("the last pair wrong", &given, HARBOUR_REFUSED_PAIR_NOT_RISING, 4030);
}

static void pairs(void) {
    static const uint64_t rows[] = {1, 1, 1};
    harbour_tables given = lone_boats(3, 1);
    given.rows = rows;
    given.row_words = 3;
    second_pairs(given);
    first_pairs(given);
    last_pairs();
}

static void row_words(void) {
    const uint64_t rows[] = {1, 1, 1, 1, 1, 1, 1, 1, 1, 1};
    harbour_tables given = five_boats;
    given.rows = rows;
    for (given.row_words = 0; given.row_words < LENGTH(rows); given.row_words++) {
        if (given.row_words == five_boats.row_words) continue;
        refused_by_all("row words", &given, HARBOUR_REFUSED_ROW_WORDS, 0);
    }
    harbour_tables no_pair = case_b;
    no_pair.rows = rows;
    no_pair.row_words = 1;
    refused_by_all("a row of no pair", &no_pair, HARBOUR_REFUSED_ROW_WORDS, 0);
}

/* A bit for the slot past the higher boat's last, then for the highest slot there is. */
static void row_bits(void) {
    uint64_t rows[8];
    harbour_tables given = five_boats;
    given.rows = rows;
    for (size_t word = 0; word < LENGTH(rows); word++) {
        for (size_t at = 0; at < LENGTH(rows); at++) rows[at] = at > word ? UINT64_MAX : five_boats.rows[at];
        rows[word] |= UINT64_C(1) << 2;
        refused_by_all("a bit too high", &given, HARBOUR_REFUSED_ROW_BIT, word);
        rows[word] = UINT64_C(1) << 63;
        refused_by_all("the highest bit", &given, HARBOUR_REFUSED_ROW_BIT, word);
    }
    const uint8_t two_sizes[] = {1, 64}, smaller[] = {1, 63}, pair[] = {0, 1};
    const uint64_t full[] = {UINT64_MAX};
    harbour_tables widest = {two_sizes, 2, pair, 2, full, 1};
    examine_is("a row of 64 bits", &widest, HARBOUR_FINE, 0);
    widest.sizes = smaller;
    refused_by_all("one bit of 64 too many", &widest, HARBOUR_REFUSED_ROW_BIT, 0);
}

static void lent_memory(void) {
    const size_t short_work[] = {0, 1, 4096, HARBOUR_WORK - 1};
    for (uint64_t method = HARBOUR_BT; method <= HARBOUR_FC_CBJ; method++) {
        terms under = ample(method, &five_boats);
        for (under.plan_bytes = 0; under.plan_bytes < five_boats.n; under.plan_bytes++) {
            run_is("plan memory", &five_boats, under, due_reply(HARBOUR_REFUSED_PLAN_MEMORY, 0, 0, 0), NULL);
        }
        for (size_t at = 0; at < LENGTH(short_work); at++) {
            under.work_words = short_work[at];
            run_is("working memory", &five_boats, under, due_reply(HARBOUR_REFUSED_WORK_MEMORY, 0, 0, 0), NULL);
        }
    }
}

static void given_plans(void) {
    uint8_t plan[8] = {0};
    for (size_t bytes = 0; bytes < LENGTH(plan); bytes++) {
        if (bytes == five_boats.n) continue;
        lawful_is("a plan's length", &five_boats, plan, bytes, HARBOUR_REFUSED_GIVEN_LENGTH, 0);
        broken_is("a plan's length", &five_boats, plan, bytes, HARBOUR_REFUSED_GIVEN_LENGTH, 0);
    }
    const uint8_t too_high[] = {3, 64, 128, 255};
    for (size_t boat = 0; boat < five_boats.n; boat++) {
        for (size_t at = 0; at < LENGTH(too_high); at++) {
            for (size_t other = 0; other < five_boats.n; other++) plan[other] = other > boat ? 255 : 0;
            plan[boat] = at == 0 ? five_boats.sizes[boat] : too_high[at];
            lawful_is("a plan's slot", &five_boats, plan, five_boats.n, HARBOUR_REFUSED_GIVEN_SLOT, boat);
            broken_is("a plan's slot", &five_boats, plan, five_boats.n, HARBOUR_REFUSED_GIVEN_SLOT, boat);
        }
    }
}

void refusals(void) {
    methods();
    boats();
    sizes();
    pair_bytes();
    pairs();
    row_words();
    row_bits();
    lent_memory();
    given_plans();
}
