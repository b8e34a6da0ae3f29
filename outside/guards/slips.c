#include <string.h>

#include "guarded.h"
#include "guards.h"

static const uintptr_t last_address = UINTPTR_MAX;

/* Parts of 64 bytes, 4,096 bytes apart. */
static void lay_apart(const guarded *g, part *parts) {
    for (size_t at = 0; at < PARTS; at++) {
        parts[at].start = 4096 * (at + 1);
        parts[at].length = at < parts_of(g) && is_words(g, at) ? 8 : 64;
    }
}

static size_t unit(const guarded *g, size_t at) {
    return is_words(g, at) ? sizeof(uint64_t) : 1;
}

static void is_owed_at(const guarded *g, const char *what, part *parts, size_t at, uintptr_t start, size_t length) {
    parts[at].start = start;
    parts[at].length = length;
    is_owed(g, what, parts, at);
}

static void is_called_at(const guarded *g, const char *what, part *parts, size_t at, uintptr_t start, size_t length) {
    parts[at].start = start;
    parts[at].length = length;
    is_called(g, what, parts);
}

static void null(const guarded *g, size_t at) {
    const size_t lengths[] = {1, 64, HARBOUR_WORK, SIZE_MAX};
    part parts[PARTS];
    lay_apart(g, parts);
    for (size_t k = 0; k < 4; k++) is_owed_at(g, "NULL with a length", parts, at, 0, lengths[k]);
    is_called_at(g, "NULL with length 0", parts, at, 0, 0);
}

static void aligned(const guarded *g, size_t at) {
    part parts[PARTS];
    lay_apart(g, parts);
    for (uintptr_t by = 1; by < sizeof(uint64_t); by++) {
        const uintptr_t start = 4096 * (at + 1) + by;
        is_called_at(g, "not aligned, length 0", parts, at, start, 0);
        if (is_words(g, at)) {
            is_owed_at(g, "words not aligned", parts, at, start, 1);
        } else {
            is_called_at(g, "bytes at any address", parts, at, start, 1);
        }
    }
    is_called_at(g, "aligned", parts, at, 4096 * (at + 1) + sizeof(uint64_t), 1);
}

/* The last unit that fits may be lent, whatever lies below; one more may not, nor lengths whose bytes wrap. */
static void past_the_end(const guarded *g, size_t at) {
    const size_t bytes = unit(g, at);
    const size_t wrapping[] = {SIZE_MAX, SIZE_MAX / 8, SIZE_MAX / 8 + 1, SIZE_MAX / 8 + 2};
    part parts[PARTS];
    lay_apart(g, parts);
    for (size_t units = 1; units <= 64; units++) {
        const uintptr_t start = last_address - units * bytes + 1;
        is_called_at(g, "up to the last byte", parts, at, start, units);
        is_called_at(g, "before the last byte", parts, at, start, units - 1);
        is_owed_at(g, "past the last byte", parts, at, start, units + 1);
    }
    for (size_t k = bytes == 1 ? 3 : 0; k < 4; k++) {
        is_owed_at(g, "bytes that wrap", parts, at, last_address - 63, wrapping[k]);
        is_owed_at(g, "bytes that wrap", parts, at, 4096 * (at + 1), bytes == 1 ? SIZE_MAX : wrapping[k]);
    }
}

/* Of two pointers that are amiss, the first is named; and so is the later where the other is none. */
static void first_amiss(const guarded *g, size_t at) {
    part parts[PARTS];
    for (size_t later = at + 1; later < parts_of(g); later++) {
        lay_apart(g, parts);
        parts[at].start = parts[later].start = 0;
        is_owed(g, "two NULL", parts, at);
        parts[later].start = 4096;
        parts[later].length = SIZE_MAX;
        is_owed(g, "NULL, then too long", parts, at);
        lay_apart(g, parts);
        parts[at].length = SIZE_MAX;
        parts[later].start = 0;
        is_owed(g, "too long, then NULL", parts, at);
    }
}

static void overlapping(const guarded *g, size_t earlier, size_t later, part one, part other) {
    part parts[PARTS];
    lay_apart(g, parts);
    parts[earlier] = one;
    parts[later] = other;
    if (is_written(g, earlier) || is_written(g, later)) {
        is_owed(g, "one overlaps the other", parts, later);
    } else {
        is_called(g, "both are only read", parts);
    }
}

static void beside(const guarded *g, size_t earlier, size_t later, part one, part other) {
    part parts[PARTS];
    lay_apart(g, parts);
    parts[earlier] = one;
    parts[later] = other;
    is_called(g, "one beside the other", parts);
}

static part lay(uintptr_t start, size_t length) {
    part laid;
    laid.start = start;
    laid.length = length;
    return laid;
}

/* Every way in which a part of 64 bytes can meet one of 64, and in which the larger holds the smaller. */
static void overlaps(const guarded *g, size_t earlier, size_t later) {
    const uintptr_t base = UINT64_C(1) << 32, step = is_words(g, later) ? 8 : 1;
    const size_t here = 64 / unit(g, earlier), there = 64 / unit(g, later);
    for (uintptr_t start = base - 64; start <= base + 64; start += step) {
        const int touch = start == base - 64 || start == base + 64;
        (touch ? beside : overlapping)(g, earlier, later, lay(base, here), lay(start, there));
        beside(g, earlier, later, lay(base, here), lay(start, 0));
        beside(g, earlier, later, lay(base, 0), lay(start, there));
    }
    overlapping(g, earlier, later, lay(base, here), lay(base + 32, 1));
    overlapping(g, earlier, later, lay(base + 32, 1), lay(base, there));
    overlapping(g, earlier, later, lay(base + 56, 1), lay(base, there));
    overlapping(g, earlier, later, lay(last_address - 63, here), lay(last_address - 63, there));
    overlapping(g, earlier, later, lay(last_address - 63, here), lay(last_address - 7, 1));
    overlapping(g, earlier, later, lay(base, (last_address - base + 1) / unit(g, earlier)), lay(last_address - 7, 1));
    overlapping(g, earlier, later, lay(last_address - 7, 1), lay(base, (last_address - base + 1) / unit(g, later)));
}

/* A pointer that is amiss comes before an overlap; of overlaps, that of the first pointer that has one. */
static void order_of_tests(void) {
    const guarded *run = &every_guarded[RUN];
    part parts[PARTS];
    lay_apart(run, parts);
    parts[3] = parts[0];
    parts[4].start = 0;
    is_owed(run, "sizes overlap plan, work is NULL", parts, 4);
    lay_apart(run, parts);
    parts[3] = parts[1];
    parts[4] = lay(parts[0].start, 8);
    is_owed(run, "sizes overlap work, pairs overlap plan", parts, 3);
    lay_apart(run, parts);
    parts[4] = lay(parts[3].start, 8);
    is_owed(run, "plan overlaps work", parts, 4);
    lay_apart(run, parts);
    parts[1] = parts[0];
    parts[2] = lay(parts[0].start, 8);
    is_called(run, "the tables overlap one another", parts);
}

/* The same, where the parts that are written come last and a file is read. */
static void order_of_tests_of_files(void) {
    const guarded *read = &every_guarded[READ], *desk = &every_guarded[LAWFUL_FILE];
    part parts[PARTS];
    lay_apart(read, parts);
    parts[1] = parts[0];
    parts[3].start = 0;
    is_owed(read, "sizes overlap the file, rows are NULL", parts, 3);
    lay_apart(read, parts);
    parts[2] = parts[1];
    parts[3] = lay(parts[0].start, 8);
    is_owed(read, "sizes overlap pairs, rows overlap the file", parts, 2);
    lay_apart(desk, parts);
    parts[1] = parts[0];
    is_called(desk, "the plan is in the file", parts);
    parts[2] = parts[1];
    is_owed(desk, "and the sizes are written over it", parts, 2);
}

void slips(void) {
    for (const guarded *g = every_guarded; g < every_guarded + GUARDED; g++) {
        part parts[PARTS];
        lay_apart(g, parts);
        is_called(g, "nothing owed", parts);
        for (size_t at = 0; at < parts_of(g); at++) {
            null(g, at);
            aligned(g, at);
            past_the_end(g, at);
            first_amiss(g, at);
            for (size_t later = at + 1; later < parts_of(g); later++) overlaps(g, at, later);
        }
    }
    order_of_tests();
    order_of_tests_of_files();
}
