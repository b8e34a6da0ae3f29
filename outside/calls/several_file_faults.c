#include "asked_files.h"
#include "calls.h"
#include "harbours.h"

#include <string.h>

/* The file of five_boats with any set of faults; those up to TOO_SMALL leave nothing standing. */
enum { BAD_BOAT, BAD_MARK, CUT, BAD_COUNT, REST, TOO_SMALL, BAD_PAIR, BAD_ROW, GIVEN_LENGTH, GIVEN_SLOT, FAULTS };

/* Where its PRs stand, its ED, and its end. */
enum { PRS = 4, ED = 88, COUNT = 90, END = 92 };
static const size_t pr_at[PRS] = {8, 36, 56, 76};

/* Which PR has the bad boat and which the bad mark, so that either comes first. */
typedef struct {
    size_t boat, mark;
} standing_at;

typedef struct {
    uint8_t bytes[END + 3];
    size_t length;
    harbour_tables tables;
    uint8_t pairs[8];
    uint64_t rows[8];
} spoiled;

typedef struct {
    uint64_t answer, place;
} fault;

static int has(unsigned faults, unsigned which) {
    return faults >> which & 1;
}

/* The second pair names a boat that is not there, as its higher one; the last row allows a slot too many. */
static void spoil_tables(spoiled *made, unsigned faults) {
    memcpy(made->pairs, five_boats.pairs, sizeof made->pairs);
    memcpy(made->rows, five_boats.rows, sizeof made->rows);
    if (has(faults, BAD_PAIR)) made->pairs[3] = 9;
    if (has(faults, BAD_ROW)) made->rows[7] |= UINT64_C(1) << 63;
    made->tables = five_boats;
    made->tables.pairs = made->pairs;
    made->tables.rows = made->rows;
}

static void spoil(spoiled *made, unsigned faults, standing_at where) {
    spoil_tables(made, faults);
    filed file = file_of(&made->tables);
    memset(made->bytes, 'E', sizeof made->bytes);
    memcpy(made->bytes, file.bytes, END);
    free_file(&file);
    if (has(faults, BAD_BOAT)) made->bytes[pr_at[where.boat] + 2] = 5;
    if (has(faults, BAD_MARK)) made->bytes[pr_at[where.mark]] = 'X';
    if (has(faults, BAD_COUNT)) made->bytes[COUNT] = 3;
    made->length = has(faults, CUT) ? END - 1 : has(faults, REST) ? END + 3 : END;
}

/* The first fault in the bytes: a PR's mark comes before its boat, and a file that is cut has no count. */
static fault first_in_bytes(unsigned faults, standing_at where) {
    const fault boat = {HARBOUR_REFUSED_FILE_BOAT, pr_at[where.boat] + 2};
    const fault mark = {HARBOUR_REFUSED_MARK, pr_at[where.mark]};
    const fault cut = {HARBOUR_REFUSED_FILE_END, END - 1}, count = {HARBOUR_REFUSED_FILE_COUNT, COUNT};
    const fault rest = {HARBOUR_REFUSED_FILE_REST, END}, none = {0, 0};
    if (has(faults, BAD_BOAT) && !(has(faults, BAD_MARK) && mark.place < boat.place)) return boat;
    if (has(faults, BAD_MARK)) return mark;
    if (has(faults, CUT)) return cut;
    if (has(faults, BAD_COUNT)) return count;
    return has(faults, REST) ? rest : none;
}

static fault first_of_all(unsigned faults, standing_at where) {
    const fault in_bytes = first_in_bytes(faults, where), room = {HARBOUR_REFUSED_ROOM, 0};
    const fault pair = {HARBOUR_REFUSED_PAIR_NO_BOAT, 3}, row = {HARBOUR_REFUSED_ROW_BIT, 7}, none = {0, 0};
    if (in_bytes.answer != 0) return in_bytes;
    if (has(faults, TOO_SMALL)) return room;
    if (has(faults, BAD_PAIR)) return pair;
    return has(faults, BAD_ROW) ? row : none;
}

static uint64_t due_of_plan(unsigned faults, uint64_t examined) {
    if (examined != 0) return examined;
    if (has(faults, GIVEN_LENGTH)) return HARBOUR_REFUSED_GIVEN_LENGTH;
    return has(faults, GIVEN_SLOT) ? HARBOUR_REFUSED_GIVEN_SLOT : HARBOUR_LAWFUL;
}

static void ask_with(unsigned faults, standing_at where) {
    uint8_t plan[] = {1, 0, 0, 0, 0};
    spoiled made;
    spoil(&made, faults, where);
    if (has(faults, GIVEN_SLOT)) plan[0] = 3;
    room lent = room_for(made.tables);
    if (has(faults, TOO_SMALL)) lent.pairs -= 1;
    const fault due = first_of_all(faults, where);
    const int nothing = first_in_bytes(faults, where).answer != 0 || has(faults, TOO_SMALL);
    const harbour_tables left = nothing ? none_standing : made.tables;
    read_is("a file with several faults", made.bytes, made.length, lent, due.answer, due.place, left);
    lawful_file_is("a file with several faults", made.bytes, made.length, plan, has(faults, GIVEN_LENGTH) ? 4 : 5, lent,
        due_of_plan(faults, due.answer), left);
}

/* A set without a fault is gone through with its first place alone. */
static int is_asked(unsigned faults, standing_at where) {
    return (where.boat == 0 || has(faults, BAD_BOAT)) && (where.mark == 0 || has(faults, BAD_MARK));
}

void several_file_faults(void) {
    standing_at where;
    for (unsigned faults = 0; faults < 1u << FAULTS; faults++) {
        for (where.boat = 0; where.boat < PRS; where.boat++) {
            for (where.mark = 0; where.mark < PRS; where.mark++) {
                if (is_asked(faults, where)) ask_with(faults, where);
            }
        }
    }
}
