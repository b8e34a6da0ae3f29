/* What stands in a file of tables, for somebody who has nothing but its bytes: each record in words behind the place
 * of its first byte, up to the end or to the first fault in the bytes, which has the reader's number and place.
 * Whether the tables that are read would be refused is not looked at.
 * `records FILE`, or `records` alone for what comes in. Ends with 0 where the file is whole, with 1 where it is at
 * fault, with 2 where it cannot be read or this cannot be said. */
#include <inttypes.h>
#include <stdarg.h>
#include <stdio.h>

enum { BAD_MARK = 21, ENDS_TOO_SOON = 22, NO_SUCH_BOAT = 23, WRONG_COUNT = 24, BYTES_AFTER_ED = 25 };
enum { MOST_BOATS = 255, WORD_BYTES = 8, WORD_BITS = 64 };

/* The marks as numbers, the first letter high. */
enum { SZ = 'S' << 8 | 'Z', PR = 'P' << 8 | 'R', ED = 'E' << 8 | 'D' };

typedef enum { GOES_ON, WHOLE, AT_FAULT } state;

typedef struct {
    FILE *from;
    uint64_t place;    /* of the next byte */
    int ended;         /* one more byte was asked for than there are */
    unsigned boats;
    uint8_t sizes[MOST_BOATS];
    uint64_t pairs;    /* the PR records that were whole */
} file;

/* 0 where there is none. */
static unsigned next_byte(file *in) {
    const int got = getc(in->from);
    if (got == EOF) {
        in->ended = 1;
        return 0;
    }
    in->place++;
    return (unsigned)got;
}

static unsigned next_mark(file *in) {
    const unsigned first = next_byte(in);
    return first << 8 | next_byte(in);
}

static unsigned next_count(file *in) {
    const unsigned low = next_byte(in);
    return next_byte(in) << 8 | low;
}

static uint64_t next_word(file *in) {
    uint64_t word = 0;
    for (unsigned at = 0; at < WORD_BYTES; at++) word |= (uint64_t)next_byte(in) << 8 * at;
    return word;
}

static void say_place(uint64_t place) {
    printf("%8" PRIu64 "  ", place);
}

static state fault(uint64_t place, int number, const char *said, ...) {
    va_list given;
    say_place(place);
    printf("number %d: ", number);
    va_start(given, said);
    vprintf(said, given);
    va_end(given);
    putchar('\n');
    return AT_FAULT;
}

/* The place is the file's length, which is not known where reading failed. */
static state ends(const file *in, const char *where) {
    if (ferror(in->from)) return AT_FAULT;
    return fault(in->place, ENDS_TOO_SOON, "the file ends here, %s", where);
}

static state bad_mark(uint64_t place, unsigned mark, const char *due) {
    return fault(place, BAD_MARK, "%02X %02X is unknown or misplaced as a mark: %s", mark >> 8, mark & 0xFF, due);
}

static const char *plural(uint64_t count) {
    return count == 1 ? "" : "s";
}

static state say_sizes(file *in, uint64_t place) {
    in->boats = next_byte(in);
    for (unsigned boat = 0; boat < in->boats; boat++) in->sizes[boat] = (uint8_t)next_byte(in);
    if (in->ended) return ends(in, "inside SZ");
    say_place(place);
    printf("SZ: %u boat%s", in->boats, plural(in->boats));
    for (unsigned boat = 0; boat < in->boats; boat++) printf("%s %u", boat == 0 ? ", of sizes" : "", in->sizes[boat]);
    putchar('\n');
    return GOES_ON;
}

/* A slot that the higher boat does not have is said like any other. */
static void say_row(uint64_t place, unsigned slot, uint64_t row) {
    const int one = row != 0 && (row & (row - 1)) == 0;
    say_place(place);
    printf("    slot %u: beside %s", slot, row == 0 ? "no slot" : one ? "slot" : "slots");
    for (unsigned bit = 0; bit < WORD_BITS; bit++) {
        if (row >> bit & 1) printf(" %u", bit);
    }
    putchar('\n');
}

static state say_rows(file *in, unsigned lower) {
    for (unsigned slot = 0; slot < in->sizes[lower]; slot++) {
        const uint64_t place = in->place, row = next_word(in);
        if (in->ended) return ends(in, "inside PR");
        say_row(place, slot, row);
    }
    in->pairs++;
    return GOES_ON;
}

/* The lower boat is judged before the higher is read. */
static state say_pair(file *in, uint64_t place) {
    const unsigned lower = next_byte(in);
    if (in->ended) return ends(in, "inside PR");
    if (lower >= in->boats) {
        return fault(in->place - 1, NO_SUCH_BOAT, "PR has %u as its lower boat, and SZ has %u boat%s", lower, in->boats,
            plural(in->boats));
    }
    const unsigned higher = next_byte(in);
    if (in->ended) return ends(in, "inside PR");
    say_place(place);
    printf("PR: boats %u and %u\n", lower, higher);
    return say_rows(in, lower);
}

static state say_rest(file *in) {
    next_byte(in);
    if (!in->ended) return fault(in->place - 1, BYTES_AFTER_ED, "more stands here, after ED");
    if (ferror(in->from)) return AT_FAULT;
    say_place(in->place);
    puts("the file ends here, whole");
    return WHOLE;
}

static state say_end(file *in, uint64_t place) {
    const uint64_t place_of_count = in->place;
    const unsigned count = next_count(in);
    if (in->ended) return ends(in, "inside ED");
    if (count != in->pairs) {
        return fault(place_of_count, WRONG_COUNT, "ED counts %u PR record%s, and there are %" PRIu64, count,
            plural(count), in->pairs);
    }
    say_place(place);
    printf("ED: %u PR record%s\n", count, plural(count));
    return say_rest(in);
}

static state say_record(file *in, int is_first) {
    const uint64_t place = in->place;
    const unsigned mark = next_mark(in);
    if (in->ended) return ends(in, in->place == place ? "before ED" : "inside a mark");
    if (is_first) return mark == SZ ? say_sizes(in, place) : bad_mark(place, mark, "SZ is due here");
    if (mark == PR) return say_pair(in, place);
    return mark == ED ? say_end(in, place) : bad_mark(place, mark, "PR or ED is due here");
}

static state say_records(file *in) {
    state now = say_record(in, 1);
    while (now == GOES_ON) now = say_record(in, 0);
    return now;
}

int main(int count, char **word) {
    static file in;
    const char *const name = count > 1 ? word[1] : "standard input";
    if (count > 2) {
        fputs("records FILE, or records alone for what comes in\n", stderr);
        return 2;
    }
    in.from = count > 1 ? fopen(name, "rb") : stdin;
    const state last = in.from == NULL ? AT_FAULT : say_records(&in);
    if (in.from == NULL || ferror(in.from)) {
        perror(name);
        return 2;
    }
    if (fflush(stdout) != 0) {
        perror("standard output");
        return 2;
    }
    return last == WHOLE ? 0 : 1;
}
