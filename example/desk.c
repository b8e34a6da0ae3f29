#include "desk.h"

#include <inttypes.h>
#include <stdio.h>
#include <string.h>

#include "chart.h"

/* The memory that the desk lends, and what it held before. */
static draft lent, before;

static uint64_t ask(const file *kept, const uint8_t *plan, size_t boats) {
    return harbour_lawful_file_t(kept->bytes, kept->length, plan, boats, rooms_of(&lent));
}

static int told(uint64_t answer, uint64_t due) {
    printf("%" PRIu64 ", %s.\n", answer, harbour_say_lawful_file(answer).text);
    return answer == due;
}

/* Skua's first berth, which is another boat's in the plan. */
static int show_moved(const problem *of, const file *kept, const uint8_t *plan) {
    enum { SKUA = 5 };
    const berth first = of->slots[SKUA][0];
    uint8_t moved[HARBOUR_BOATS];
    memcpy(moved, plan, of->port->n);
    moved[SKUA] = 0;
    printf("  %s at %s, %02d:00, where %s lies: ", of->port->boats[SKUA].name, of->port->quays[first.quay], first.hour,
        boat_at(of, plan, first.hour, first.quay));
    return told(ask(kept, moved, of->port->n), HARBOUR_UNLAWFUL);
}

int show_plans(const problem *of, const file *kept, const uint8_t *plan) {
    printf("  Tonight's plan: ");
    const int as_promised = told(ask(kept, plan, of->port->n), HARBOUR_LAWFUL);
    return show_moved(of, kept, plan) && as_promised;
}

/* A file that is refused by 21 to 26 leaves the memory as it was; tables are read before they are refused. */
static int show_memory(harbour_read_reply reply) {
    const int untouched = memcmp(&lent, &before, sizeof lent) == 0;
    puts(untouched ? "  Nothing was written: the memory that the desk lends is as it was."
                   : "  The tables were read, and stand as they are in the memory that the desk lends.");
    return untouched == (reply.boats == 0);
}

/* The reader names the place; the desk is told the same number. */
static int refused(const file *bad, const uint8_t *plan, size_t boats, uint64_t due, uint64_t place) {
    memset(&lent, 0xA5, sizeof lent);
    before = lent;
    const uint64_t answer = ask(bad, plan, boats);
    const harbour_read_reply reply = harbour_read_t(bad->bytes, bad->length, rooms_of(&lent));
    printf("  %s.\n", harbour_say_read(reply).text);
    printf("  The desk is told %" PRIu64 ", which is neither yes nor no.\n", answer);
    return show_memory(reply) && answer == due && reply.answer == due && reply.place == place;
}

static int show_cut(file *bad, const uint8_t *plan, size_t boats) {
    bad->length /= 2;
    printf("\nTHE FILE, of which %zu bytes came through\n", bad->length);
    return refused(bad, plan, boats, HARBOUR_REFUSED_FILE_END, bad->length);
}

/* The count has the last two bytes, the low one first. */
static int show_miscounted(file *bad, const uint8_t *plan, size_t boats) {
    const size_t count = bad->length - 2;
    bad->bytes[count]--;
    puts("\nTHE FILE, with one pair too few counted at its end");
    return refused(bad, plan, boats, HARBOUR_REFUSED_FILE_COUNT, count);
}

/* The high byte of the first row: before it stand SZ, the number of boats, the sizes, PR, two boats and 7 bytes. */
static int show_wide_row(file *bad, const uint8_t *plan, size_t boats) {
    bad->bytes[2 + 1 + boats + 2 + 2 + 7] = 0x80;
    puts("\nTHE FILE, with a berth in its first row that the boat does not have");
    return refused(bad, plan, boats, HARBOUR_REFUSED_ROW_BIT, 0);
}

int show_bad_files(const problem *of, const file *kept, const uint8_t *plan) {
    static file bad;
    int (*const show[])(file *, const uint8_t *, size_t) = {show_cut, show_miscounted, show_wide_row};
    int as_promised = 1;
    for (size_t at = 0; at < sizeof show / sizeof show[0]; at++) {
        bad = *kept;
        as_promised &= show[at](&bad, plan, of->port->n);
    }
    return as_promised;
}
