#include "harbours.h"

#include <string.h>

/* Rows by which two boats of two slots each never take the same one, as often as a case needs. */
static const uint64_t apart[] = {2, 1, 2, 1, 2, 1};

static const uint8_t one[] = {1}, two[] = {2, 2, 2, 2}, two_two_one[] = {2, 2, 1};
static const uint8_t pair_01[] = {0, 1}, pair_02[] = {0, 2};
static const uint8_t pairs_of_three[] = {0, 1, 0, 2, 1, 2}, pairs_of_last_three[] = {1, 2, 1, 3, 2, 3};
static const uint64_t rows_e[] = {0, 1}, rows_f[] = {0, 0};

const harbour_tables case_a = {NULL, 0, NULL, 0, NULL, 0};
const harbour_tables case_b = {one, 1, NULL, 0, NULL, 0};
const harbour_tables case_c = {two, 2, pair_01, 2, apart, 2};
const harbour_tables case_d = {two, 3, pairs_of_three, 6, apart, 6};
const harbour_tables case_e = {two_two_one, 3, pair_02, 2, rows_e, 2};
const harbour_tables case_f = {two_two_one, 3, pair_02, 2, rows_f, 2};
const harbour_tables case_g = {two, 4, pairs_of_last_three, 6, apart, 6};

static const uint8_t five_sizes[] = {3, 2, 2, 1, 2}, five_pairs[] = {0, 2, 1, 2, 1, 4, 3, 4};
static const uint64_t five_rows[] = {2, 1, 2, 1, 2, 3, 2, 1};
const harbour_tables five_boats = {five_sizes, 5, five_pairs, 8, five_rows, 8};

enum { SOME_MORE = 512 };

static void list_all_pairs(uint8_t *pairs) {
    for (unsigned lower = 0; lower < HARBOUR_BOATS; lower++) {
        for (unsigned higher = lower + 1; higher < HARBOUR_BOATS; higher++) {
            *pairs++ = (uint8_t)lower;
            *pairs++ = (uint8_t)higher;
        }
    }
}

harbour_tables crowd(size_t boats, size_t pair_bytes, size_t row_words) {
    static uint8_t sizes[SOME_MORE], pairs[2 * HARBOUR_PAIRS + SOME_MORE];
    static uint64_t rows[HARBOUR_PAIRS + SOME_MORE];
    memset(sizes, 1, sizeof sizes);
    list_all_pairs(pairs);
    for (size_t pair = 0; pair < HARBOUR_PAIRS; pair++) rows[pair] = 1;
    harbour_tables made = {sizes, boats, pairs, pair_bytes, rows, row_words};
    return made;
}

harbour_tables fullest(void) {
    static uint8_t sizes[HARBOUR_BOATS], pairs[2 * HARBOUR_PAIRS];
    static uint64_t rows[HARBOUR_ROWS];
    memset(sizes, HARBOUR_SLOTS, sizeof sizes);
    list_all_pairs(pairs);
    for (size_t word = 0; word < HARBOUR_ROWS; word++) rows[word] = (word + 1) * UINT64_C(0x9e3779b97f4a7c15);
    harbour_tables made = {sizes, sizeof sizes, pairs, sizeof pairs, rows, HARBOUR_ROWS};
    return made;
}

harbour_tables lone_boats(size_t boats, uint8_t size) {
    static uint8_t sizes[SOME_MORE];
    memset(sizes, size, sizeof sizes);
    harbour_tables made = {sizes, boats, NULL, 0, NULL, 0};
    return made;
}
