#include "asked_files.h"
#include "calls.h"
#include "harbours.h"
#include "tally.h"

/* The file that the request has in full: two boats of size 1, their pair listed and allowed. */
static void by_hand(void) {
    static const uint8_t file[] = {0x53, 0x5A, 0x02, 0x01, 0x01, 0x50, 0x52, 0x00, 0x01, 0x01, 0x00, 0x00, 0x00, 0x00,
        0x00, 0x00, 0x00, 0x45, 0x44, 0x01, 0x00};
    static const uint8_t sizes[] = {1, 1}, pair[] = {0, 1}, plan[] = {0, 0};
    static const uint64_t row[] = {1};
    const harbour_tables given = {sizes, 2, pair, 2, row, 1};
    filed due = file_of(&given);
    same("the request's file", "length", due.length, sizeof file);
    for (size_t at = 0; at < sizeof file; at++) same("the request's file", "byte", due.bytes[at], file[at]);
    read_is("the request's file", file, sizeof file, plenty(), HARBOUR_FINE, 0, given);
    lawful_file_is("the request's file", file, sizeof file, plan, 2, plenty(), HARBOUR_LAWFUL, given);
    free_file(&due);
}

static const harbour_tables *const cases[] = {&case_a, &case_b, &case_c, &case_d, &case_e, &case_f, &case_g,
    &five_boats};

static void every_case(void) {
    for (size_t at = 0; at < LENGTH(cases); at++) filed_and_read("a case as a file", cases[at]);
}

/* No boats: the smallest file there is. */
static void smallest(void) {
    static const uint8_t file[] = {'S', 'Z', 0, 'E', 'D', 0, 0};
    read_is("no boats", file, sizeof file, plenty(), HARBOUR_FINE, 0, none_standing);
    lawful_file_is("no boats", file, sizeof file, NULL, 0, plenty(), HARBOUR_LAWFUL, none_standing);
}

/* By its rows, all boats in slot 0 are lawful, and boat 0 in slot 1 beside them is not. */
static void largest(void) {
    const harbour_tables given = fullest();
    uint8_t plan[HARBOUR_BOATS] = {0};
    room one_less = room_for(given);
    filed file = file_of(&given);
    same("the largest file", "bytes", file.length, HARBOUR_FILE);
    same("the largest file", "row words", given.row_words, HARBOUR_ROWS);
    filed_and_read("the largest file", &given);
    lawful_file_is("the largest file", file.bytes, file.length, plan, sizeof plan, room_for(given), HARBOUR_LAWFUL,
        given);
    plan[0] = 1;
    lawful_file_is("the largest file", file.bytes, file.length, plan, sizeof plan, room_for(given), HARBOUR_UNLAWFUL,
        given);
    one_less.rows -= 1;
    read_is("the largest file", file.bytes, file.length, one_less, HARBOUR_REFUSED_ROOM, 0, none_standing);
    free_file(&file);
}

/* As many pairs as need both bytes of the count. */
static void crowded(void) {
    const size_t pairs[] = {255, 256, 257, 511, 512, HARBOUR_PAIRS};
    for (size_t at = 0; at < LENGTH(pairs); at++) {
        const harbour_tables given = crowd(64, 2 * pairs[at], pairs[at]);
        filed_and_read("many pairs", &given);
    }
}

static void judged_by(const char *what, const harbour_tables *given, const uint8_t *plan, uint64_t answer) {
    filed file = file_of(given);
    lawful_file_is(what, file.bytes, file.length, plan, given->n, room_for(*given), answer, *given);
    lawful_file_is(what, file.bytes, file.length, plan, given->n, plenty(), answer, *given);
    free_file(&file);
}

/* Pair 0 broken, pair 1 and pair 2: the place of a broken pair is no part of the answer. */
static void judged(void) {
    static const uint8_t plans[][3] = {{0, 0, 0}, {0, 1, 0}, {0, 1, 1}, {1, 0, 0}, {1, 1, 0}};
    static const uint8_t of_two[][2] = {{0, 1}, {1, 0}, {0, 0}, {1, 1}};
    for (size_t at = 0; at < 3; at++) judged_by("D, broken", &case_d, plans[at], HARBOUR_UNLAWFUL);
    judged_by("E, a lawful plan", &case_e, plans[3], HARBOUR_LAWFUL);
    judged_by("E, another lawful plan", &case_e, plans[4], HARBOUR_LAWFUL);
    judged_by("E, broken", &case_e, plans[0], HARBOUR_UNLAWFUL);
    for (size_t at = 0; at < LENGTH(of_two); at++) {
        judged_by("C", &case_c, of_two[at], at < 2 ? HARBOUR_LAWFUL : HARBOUR_UNLAWFUL);
    }
}

void files(void) {
    by_hand();
    every_case();
    smallest();
    largest();
    crowded();
    judged();
}
