#include "asked_files.h"
#include "calls.h"
#include "harbours.h"

#include <stdlib.h>
#include <string.h>

#include "lent.h"

/* Where the marks of five_boats' file stand: SZ, four PRs, ED; its bytes end at END. */
enum { FIRST_PR = 8, LAST_PR = 76, ED = 88, COUNT = 90, END = 92 };
static const size_t marks_at[] = {0, FIRST_PR, 36, 56, LAST_PR, ED};

/* That file, with room for some bytes after it. */
typedef struct {
    uint8_t bytes[END + 64];
} changed;

static changed five(void) {
    filed file = file_of(&five_boats);
    changed made;
    memset(&made, 0, sizeof made);
    memcpy(made.bytes, file.bytes, END);
    free_file(&file);
    return made;
}

static void mark_is(const char *what, size_t at, const char *mark, uint64_t answer, uint64_t place) {
    changed file = five();
    memcpy(file.bytes + at, mark, 2);
    unread(what, file.bytes, END, answer, place);
}

/* A mark with one byte wrong, by every wrong byte. */
static void misspelt(size_t at) {
    for (size_t byte = at; byte < at + 2; byte++) {
        const changed right = five();
        for (unsigned value = 0; value < 256; value++) {
            changed file = right;
            file.bytes[byte] = (uint8_t)value;
            if (value != right.bytes[byte]) unread("a mark misspelt", file.bytes, END, HARBOUR_REFUSED_MARK, at);
        }
    }
}

/* WL and OP are marks of no record yet. */
static void marks(void) {
    const char *const unknown[] = {"ZS", "RP", "DE", "sz", "pr", "ed", "WL", "OP", "PD", "ER", "SD", "EZ"};
    for (size_t at = 0; at < LENGTH(marks_at); at++) {
        misspelt(marks_at[at]);
        for (size_t k = 0; k < LENGTH(unknown); k++) {
            mark_is("an unknown mark", marks_at[at], unknown[k], HARBOUR_REFUSED_MARK, marks_at[at]);
        }
        if (at > 0) mark_is("SZ again", marks_at[at], "SZ", HARBOUR_REFUSED_MARK, marks_at[at]);
    }
    mark_is("PR before SZ", 0, "PR", HARBOUR_REFUSED_MARK, 0);
    mark_is("ED before SZ", 0, "ED", HARBOUR_REFUSED_MARK, 0);
    mark_is("ED for a PR: boats are the count", FIRST_PR, "ED", HARBOUR_REFUSED_FILE_COUNT, FIRST_PR + 2);
    mark_is("PR for ED: the count is boats", ED, "PR", HARBOUR_REFUSED_FILE_END, END);
}

/* At every byte, and by any single byte. */
static void ends(void) {
    const changed file = five();
    uint8_t sizes[2 + 1 + 254] = {'S', 'Z', 255};
    for (size_t length = 0; length < END; length++) {
        unread("a file cut short", file.bytes, length, HARBOUR_REFUSED_FILE_END, length);
    }
    for (unsigned value = 0; value < 256; value++) {
        const uint8_t byte = (uint8_t)value;
        unread("one byte", &byte, 1, HARBOUR_REFUSED_FILE_END, 1);
    }
    unread("one size of 255 missing", sizes, sizeof sizes, HARBOUR_REFUSED_FILE_END, sizeof sizes);
}

static void lower_boats(void) {
    const uint8_t wrong[] = {5, 6, 64, 255};
    for (size_t pr = 1; marks_at[pr] < ED; pr++) {
        const size_t byte = marks_at[pr] + 2;
        for (size_t at = 0; at < LENGTH(wrong); at++) {
            changed file = five();
            file.bytes[byte] = wrong[at];
            unread("no lower boat", file.bytes, END, HARBOUR_REFUSED_FILE_BOAT, byte);
            unread("no lower boat, the last byte", file.bytes, byte + 1, HARBOUR_REFUSED_FILE_BOAT, byte);
            unread("a PR's mark, the last bytes", file.bytes, byte, HARBOUR_REFUSED_FILE_END, byte);
        }
    }
    const uint8_t no_boats[] = {'S', 'Z', 0, 'P', 'R', 0, 0};
    unread("a pair of no boats", no_boats, sizeof no_boats, HARBOUR_REFUSED_FILE_BOAT, 5);
}

/* 255 boats are the most that a file can have: the highest is read, and the one after it is none. */
static void highest_boat(void) {
    uint8_t sizes[255];
    static const uint8_t pair[] = {254, 255};
    static const uint64_t rows[] = {UINT64_MAX, 1};
    memset(sizes, 2, sizeof sizes);
    const harbour_tables given = {sizes, sizeof sizes, pair, 2, rows, 2};
    filed file = file_of(&given);
    read_as("boat 254 of 255", &file, HARBOUR_REFUSED_BOATS, 0);
    file.bytes[3 + 255 + 2] = 255;
    unread("boat 255 of 255", file.bytes, file.length, HARBOUR_REFUSED_FILE_BOAT, 3 + 255 + 2);
    free_file(&file);
}

/* Both bytes of the count, by every wrong value. */
static void counts(void) {
    for (size_t byte = COUNT; byte < END; byte++) {
        for (unsigned value = 0; value < 256; value++) {
            changed file = five();
            const int right = file.bytes[byte] == value;
            file.bytes[byte] = (uint8_t)value;
            if (!right) unread("a wrong count", file.bytes, END, HARBOUR_REFUSED_FILE_COUNT, COUNT);
        }
    }
}

/* So many pairs of boat 0 with itself; the rows are all 0. */
static filed pairs_of_one_boat(size_t pairs) {
    static const uint8_t one[] = {1};
    uint8_t *bytes = (uint8_t *)memory(2 * pairs);
    memset(bytes, 0, 2 * pairs);
    const harbour_tables given = {one, 1, bytes, 2 * pairs, NULL, 0};
    filed made = file_of(&given);
    free(bytes);
    return made;
}

static void uncounted(const char *what, size_t pairs, unsigned low, unsigned high) {
    filed file = pairs_of_one_boat(pairs);
    file.bytes[file.length - 2] = (uint8_t)low;
    file.bytes[file.length - 1] = (uint8_t)high;
    unread(what, file.bytes, file.length, HARBOUR_REFUSED_FILE_COUNT, file.length - 2);
    free_file(&file);
}

/* No count has room for 65,536 PRs; one fewer are read, and are too many for the examination alone. */
static void large_counts(void) {
    uncounted("256 PRs", 256, 0, 0);
    uncounted("512 PRs, high byte first", 512, 2, 0);
    uncounted("65,535 PRs", 65535, 255, 254);
    uncounted("65,536 PRs", 65536, 0, 0);
    uncounted("65,537 PRs", 65537, 1, 0);
    filed most = pairs_of_one_boat(65535);
    read_as("65,535 PRs", &most, HARBOUR_REFUSED_PAIR_BYTES, 0);
    free_file(&most);
}

/* Whatever the bytes after ED are, marks too, the first of them is the place. */
static void rests(void) {
    const changed right = five();
    for (size_t more = 1; more <= 64; more++) {
        unread("bytes after ED", right.bytes, END + more, HARBOUR_REFUSED_FILE_REST, END);
    }
    changed file = right;
    memcpy(file.bytes + END, right.bytes + LAST_PR, END - LAST_PR);
    unread("PR and ED after ED", file.bytes, END + END - LAST_PR, HARBOUR_REFUSED_FILE_REST, END);
    unread("PR after ED", file.bytes, END + ED - LAST_PR, HARBOUR_REFUSED_FILE_REST, END);
    memcpy(file.bytes + END, right.bytes, 64);
    unread("SZ after ED", file.bytes, END + 64, HARBOUR_REFUSED_FILE_REST, END);
    memcpy(file.bytes + END, right.bytes + ED, 4);
    unread("ED after ED", file.bytes, END + 4, HARBOUR_REFUSED_FILE_REST, END);
    file.bytes[COUNT] += 1;
    unread("a wrong count, and bytes after", file.bytes, END + 4, HARBOUR_REFUSED_FILE_COUNT, COUNT);
}

static room rooms(size_t sizes, size_t pairs, size_t rows) {
    room lent;
    lent.sizes = sizes;
    lent.pairs = pairs;
    lent.rows = rows;
    return lent;
}

/* Each part on its own may be too small, and none is ever too large. */
static void rooms_of_five(size_t sizes, size_t pairs) {
    static const uint8_t plan[] = {1, 0, 0, 0, 0};
    const changed file = five();
    for (size_t rows = 0; rows <= five_boats.row_words + 2; rows++) {
        const int fits = sizes >= five_boats.n && pairs >= five_boats.pair_bytes && rows >= five_boats.row_words;
        const harbour_tables standing = fits ? five_boats : none_standing;
        const uint64_t answer = fits ? HARBOUR_FINE : HARBOUR_REFUSED_ROOM;
        read_is("memory for tables", file.bytes, END, rooms(sizes, pairs, rows), answer, 0, standing);
        lawful_file_is("memory for tables", file.bytes, END, plan, sizeof plan, rooms(sizes, pairs, rows), answer,
            standing);
    }
}

/* Memory that is too small for what is read is refused before the examination looks at it. */
static void rooms_before_tables(void) {
    const harbour_tables many = lone_boats(70, 1), no_slots = lone_boats(3, 0);
    filed file = file_of(&many), empty = file_of(&no_slots);
    for (size_t sizes = 63; sizes < 70; sizes++) {
        read_is("70 boats", file.bytes, file.length, rooms(sizes, 0, 0), HARBOUR_REFUSED_ROOM, 0, none_standing);
    }
    read_is("70 boats", file.bytes, file.length, rooms(70, 0, 0), HARBOUR_REFUSED_BOATS, 0, many);
    read_is("sizes 0", empty.bytes, empty.length, rooms(2, 9, 9), HARBOUR_REFUSED_ROOM, 0, none_standing);
    read_is("sizes 0", empty.bytes, empty.length, rooms(3, 0, 0), HARBOUR_REFUSED_SIZE, 0, no_slots);
    free_file(&file);
    free_file(&empty);
}

static void rooms_for_tables(void) {
    for (size_t sizes = 0; sizes <= five_boats.n + 2; sizes++) {
        for (size_t pairs = 0; pairs <= five_boats.pair_bytes + 2; pairs++) rooms_of_five(sizes, pairs);
    }
    rooms_before_tables();
}

static void room_for_file(void) {
    filed file = file_of(&five_boats);
    for (size_t bytes = 0; bytes <= END + 5; bytes++) {
        const int fits = bytes >= END;
        write_is("memory for a file", &five_boats, bytes, fits ? HARBOUR_FINE : HARBOUR_REFUSED_ROOM, 0,
            fits ? &file : NULL);
    }
    free_file(&file);
}

/* Sizes of 0 and above 64 decide how many words their PRs have, as any other do. */
static void any_sizes(void) {
    static const uint8_t sizes[] = {0, 65, 255, 64}, pairs[] = {0, 1, 0, 2, 1, 2, 2, 3, 3, 3};
    uint64_t rows[65 + 255 + 64];
    for (size_t at = 0; at < LENGTH(rows); at++) rows[at] = UINT64_MAX / 3 + at;
    for (size_t n = 1; n <= LENGTH(sizes); n++) {
        const harbour_tables given = {sizes, n, pairs, 2 * (n + 1), rows, LENGTH(rows)};
        read_from_file("any sizes", &given, HARBOUR_REFUSED_SIZE, 0);
    }
    const harbour_tables above_64 = {sizes + 1, 2, pairs, 4, rows, LENGTH(rows)};
    read_from_file("sizes above 64", &above_64, HARBOUR_REFUSED_SIZE, 0);
}

static void given_plans(void) {
    const changed file = five();
    const uint8_t too_high[] = {3, 64, 128, 255};
    uint8_t plan[8] = {0};
    for (size_t bytes = 0; bytes < LENGTH(plan); bytes++) {
        if (bytes == five_boats.n) continue;
        lawful_file_is("a plan's length", file.bytes, END, plan, bytes, plenty(), HARBOUR_REFUSED_GIVEN_LENGTH,
            five_boats);
    }
    for (size_t boat = 0; boat < five_boats.n; boat++) {
        for (size_t at = 0; at < LENGTH(too_high); at++) {
            for (size_t other = 0; other < five_boats.n; other++) plan[other] = other > boat ? 255 : 0;
            plan[boat] = at == 0 ? five_boats.sizes[boat] : too_high[at];
            lawful_file_is("a plan's slot", file.bytes, END, plan, five_boats.n, plenty(), HARBOUR_REFUSED_GIVEN_SLOT,
                five_boats);
        }
    }
}

void file_refusals(void) {
    marks();
    ends();
    lower_boats();
    highest_boat();
    counts();
    large_counts();
    rests();
    rooms_for_tables();
    room_for_file();
    any_sizes();
    given_plans();
}
