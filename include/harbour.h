/* Oonjaluvai, the harbour's planner, for C (C99 and later) and C++ (C++11 and later), on x86-64 Linux.
 *
 * A harbour is three tables:
 *   sizes   one byte for each boat: how many slots it has, 1 to 64; at most 64 boats
 *   pairs   two bytes for each listed pair of boats, the lower boat first; pairs rise strictly, by
 *           lower boat, then by higher
 *   rows    for each pair, in order, one word for each slot of the lower boat: bit b is set where
 *           the higher boat may take its slot b beside it
 * Boats, slots, pairs, bytes and words, and so all places, count from 0. A pair that is not listed
 * allows everything.
 *
 * A file holds the tables as bytes, in records that each stand after a mark of two letters:
 *   SZ      the number of boats in one byte, then the sizes
 *   PR      for each pair, in order: its two bytes, then its rows, each word as 8 bytes, the low one first
 *   ED      the number of PR records in two bytes, the low one first; nothing follows
 * One harbour has one file.
 *
 * What a caller owes, in every call: each part is valid for its length (for writing too, where it
 * is not const), words are aligned as uint64_t, no part that is written overlaps another, and nobody
 * else changes them meanwhile. NULL may be given where the length is 0. Nothing else is owed: whatever
 * the parts hold, a call ends, and what is wrong with them is refused by number and place.
 *
 * Call the functions whose names end in _t. They take the tables as one struct, and test of what is
 * owed all that can be seen in pointers and lengths. The plain ones test none of it, and nothing is
 * promised to those who break it: rows that overlap the working words are cleared with them, and the
 * answer is a false "no plan"; NULL with a length may end the program.
 *
 * The library keeps no state and takes no memory but what is lent and some stack: it is reentrant,
 * and calls may run at the same time, each on parts of its own (or on shared ones that are only read).
 */
#ifndef HARBOUR_H
#define HARBOUR_H

#include <stddef.h>
#include <stdint.h>
#if __STDC_HOSTED__
#include <inttypes.h>
#include <stdio.h>
#endif

#ifdef __cplusplus
extern "C" {
#endif

/* The version of this header, and of the library that it belongs to: a program is to be built anew
 * where the first number has changed. */
#define HARBOUR_VERSION "2.1.0"
#define HARBOUR_VERSION_NUMBER 20100    /* 10,000 times the first, 100 times the second, the third */

/* limits */
#define HARBOUR_BOATS 64      /* boats of a harbour */
#define HARBOUR_SLOTS 64      /* slots of a boat */
#define HARBOUR_PAIRS 2016    /* listed pairs */
#define HARBOUR_WORK 8192     /* working words that a run needs */
#define HARBOUR_ROWS 129024   /* row words of the largest harbour: 2,016 pairs of 64 */
#define HARBOUR_FILE 1040327  /* bytes of its file, the largest that is not refused */

/* methods */
#define HARBOUR_BT UINT64_C(1)        /* plain backtracking */
#define HARBOUR_CBJ UINT64_C(2)       /* conflict-directed backjumping */
#define HARBOUR_BM UINT64_C(3)        /* backmarking */
#define HARBOUR_FC UINT64_C(4)        /* forward checking */
#define HARBOUR_FC_CBJ UINT64_C(5)    /* forward checking with conflict-directed backjumping */

/* the largest allowance there is; an allowance of 0 allows none, and is not "without limit" */
#define HARBOUR_AMPLE UINT64_MAX

/* answers of harbour_run (4 is kept free) */
#define HARBOUR_SOLVED UINT64_C(0)                 /* the plan is written */
#define HARBOUR_NO_PLAN UINT64_C(1)                /* no plan exists */
#define HARBOUR_UNDECIDED_BY_CHECKS UINT64_C(2)    /* the next check would pass its allowance */
#define HARBOUR_UNDECIDED_BY_TRIALS UINT64_C(3)    /* the next trial would pass its allowance */

/* answers of the other functions; harbour_read and harbour_write answer HARBOUR_FINE where nothing is
 * refused, harbour_lawful_file answers as harbour_lawful does */
#define HARBOUR_FINE UINT64_C(0)
#define HARBOUR_LAWFUL UINT64_C(0)
#define HARBOUR_UNLAWFUL UINT64_C(1)
#define HARBOUR_UNBROKEN UINT64_C(0)
#define HARBOUR_BROKEN UINT64_C(1)                 /* place: the index of the lowest broken pair */

/* refusals, in the order in which they are tested: 100 and the number that the papers give. 151 to 154
 * are one test: at each pair in that order, the lowest pair first; place / 2 is the index of the pair */
#define HARBOUR_REFUSED UINT64_C(100)                    /* what is added to a refusal's number */
#define HARBOUR_REFUSED_METHOD UINT64_C(101)             /* no method has this number */
#define HARBOUR_REFUSED_BOATS UINT64_C(102)              /* more than 64 boats */
#define HARBOUR_REFUSED_SIZE UINT64_C(103)               /* a size is 0 or above 64; place: the boat */
#define HARBOUR_REFUSED_PAIR_BYTES UINT64_C(104)         /* the pairs' bytes are odd in number or above 4,032 */
#define HARBOUR_REFUSED_PAIR_NO_BOAT UINT64_C(151)       /* a pair names no boat; place: its first byte that does */
#define HARBOUR_REFUSED_PAIR_SAME_BOAT UINT64_C(152)     /* a pair names one boat twice; place: its second byte */
#define HARBOUR_REFUSED_PAIR_HIGHER_FIRST UINT64_C(153)  /* a pair has the higher boat first; place: its first byte */
#define HARBOUR_REFUSED_PAIR_NOT_RISING UINT64_C(154)    /* a pair is not above the one before; place: its first byte */
#define HARBOUR_REFUSED_ROW_WORDS UINT64_C(106)          /* not one word for each slot of each lower boat */
#define HARBOUR_REFUSED_ROW_BIT UINT64_C(107)            /* a bit past the higher boat's slots; place: the word */
#define HARBOUR_REFUSED_PLAN_MEMORY UINT64_C(108)        /* fewer plan bytes than boats */
#define HARBOUR_REFUSED_WORK_MEMORY UINT64_C(109)        /* fewer than 8,192 working words */
#define HARBOUR_REFUSED_GIVEN_LENGTH UINT64_C(110)       /* the given plan has not one byte for each boat */
#define HARBOUR_REFUSED_GIVEN_SLOT UINT64_C(111)         /* a given slot is past its boat's; place: the boat */

/* refusals of a file, before those of its tables: 121 to 125 are one test, the first fault in the bytes
 * is refused; 126 comes last of them, and in harbour_write after those of the tables */
#define HARBOUR_REFUSED_MARK UINT64_C(121)               /* an unknown or misplaced mark; place: its first byte */
#define HARBOUR_REFUSED_FILE_END UINT64_C(122)           /* ends in a mark or record or before ED; place: its length */
#define HARBOUR_REFUSED_FILE_BOAT UINT64_C(123)          /* a PR's lower boat is not in SZ; place: that byte */
#define HARBOUR_REFUSED_FILE_COUNT UINT64_C(124)         /* ED's count is wrong; place: the count's first byte */
#define HARBOUR_REFUSED_FILE_REST UINT64_C(125)          /* bytes after ED; place: the first of them */
#define HARBOUR_REFUSED_ROOM UINT64_C(126)               /* lent memory too small for what would be written there */

/* answer of the functions that end in _t alone: something is owed, and nothing was called; place: the
 * index of the pointer at fault, from 0, among the plain function's parameters */
#define HARBOUR_OWED UINT64_C(190)

/* Place is 0 where none is named. The counts are those of a run; they are 0 on a refusal and
 * outside harbour_run. */
typedef struct {
    uint64_t answer, place, checks, trials;
} harbour_reply;

/* Runs a method under allowances of checks and trials. Solved: the first lawful plan, boat by boat
 * and lowest slot first, is in the first n bytes of plan, and the bytes after them stay as they were.
 * Any other answer leaves all of plan as it was. A run that is not refused leaves the first 8,192
 * words of work 0 and those after them as they were; what they held before has no effect. A refused
 * run leaves all of work as it was. */
harbour_reply harbour_run(uint64_t method, const uint8_t *sizes, size_t n, const uint8_t *pairs, size_t pair_bytes,
    const uint64_t *rows, size_t row_words, uint8_t *plan, size_t plan_bytes, uint64_t *work, size_t work_words,
    uint64_t checks, uint64_t trials);

/* Are the tables fit for a run? */
harbour_reply harbour_examine(const uint8_t *sizes, size_t n, const uint8_t *pairs, size_t pair_bytes,
    const uint64_t *rows, size_t row_words);

/* Is the given plan lawful? */
harbour_reply harbour_lawful(const uint8_t *sizes, size_t n, const uint8_t *pairs, size_t pair_bytes,
    const uint64_t *rows, size_t row_words, const uint8_t *given, size_t given_bytes);

/* Which is the lowest pair that the given plan breaks? */
harbour_reply harbour_broken(const uint8_t *sizes, size_t n, const uint8_t *pairs, size_t pair_bytes,
    const uint64_t *rows, size_t row_words, const uint8_t *given, size_t given_bytes);

typedef struct {
    uint64_t start, length;
} harbour_part;

/* Where in the caller's rows do those of two boats' pair stand? Start 0 and length 0 where the
 * tables are refused or the pair is not listed. */
harbour_part harbour_rows(const uint8_t *sizes, size_t n, const uint8_t *pairs, size_t pair_bytes,
    const uint64_t *rows, size_t row_words, uint64_t lower, uint64_t higher);

/* The lengths are those of the tables that were written; they are 0 where none were. */
typedef struct {
    uint64_t answer, place, boats, pair_bytes, row_words;
} harbour_read_reply;

/* Reads a file into lent memory, and examines the tables as read. HARBOUR_BOATS bytes for the sizes,
 * 2 * HARBOUR_PAIRS bytes for the pairs and HARBOUR_ROWS words for the rows suffice for every file that is
 * not refused, and where so much is lent 126 means tables past the limits; less will do where the tables
 * need less. 121 to 126 leave all of the memory as it was. Then the tables are written, and the bytes and
 * words after them stay as they were; the examination refuses with harbour_examine's numbers and places. A
 * refusal by the examination, or of the plan after it in harbour_lawful_file, leaves the tables standing:
 * the one exception to memory that a refusal leaves as it was. */
harbour_read_reply harbour_read(const uint8_t *file, size_t file_bytes, uint8_t *sizes, size_t size_room,
    uint8_t *pairs, size_t pair_room, uint64_t *rows, size_t row_room);

/* Length is that of the file, or 0 where none is written. */
typedef struct {
    uint64_t answer, place, length;
} harbour_written;

/* Writes the tables as a file, which harbour_read makes the same tables of again. First they are
 * examined; then 126 refuses lent memory that is shorter than their file. HARBOUR_FILE bytes suffice for
 * all tables. The bytes after the file stay as they were; a refusal leaves all of the memory as it was. */
harbour_written harbour_write(const uint8_t *sizes, size_t n, const uint8_t *pairs, size_t pair_bytes,
    const uint64_t *rows, size_t row_words, uint8_t *file, size_t file_room);

/* Is the given plan lawful for the tables of a file? The answer is one number, with no place. Refusals are
 * tested as in harbour_read, then 110 and 111; the memory lent is left as harbour_read leaves it. */
uint64_t harbour_lawful_file(const uint8_t *file, size_t file_bytes, const uint8_t *given, size_t given_bytes,
    uint8_t *sizes, size_t size_room, uint8_t *pairs, size_t pair_room, uint64_t *rows, size_t row_room);

/* The same functions on tables in one struct, and on the memory lent for tables in another: these are the
 * ones for C programs to call. First each pointer is tested, in the order of the parameters: NULL with a
 * length, words that are not aligned, a length whose bytes pass the end of the address space; the first at
 * fault is named. Then overlaps: of the pointers to a part that overlaps an earlier one, where either is
 * written, the first is named. A part of length 0 is never at fault, and two that are only read may overlap.
 * A fault is answered with HARBOUR_OWED and that pointer's place, all other numbers 0; nothing is called,
 * and every part is as it was. (What no test can see: whether a part is valid for its length, and whether
 * somebody changes it.) */

/* The tables, by value. */
typedef struct {
    const uint8_t *sizes;
    size_t n;
    const uint8_t *pairs;
    size_t pair_bytes;
    const uint64_t *rows;
    size_t row_words;
} harbour_tables;

/* Memory lent for tables. */
typedef struct {
    uint8_t *sizes;
    size_t size_room;
    uint8_t *pairs;
    size_t pair_room;
    uint64_t *rows;
    size_t row_room;
} harbour_rooms;

/* The tables that stand in the memory after harbour_read; no boats and no pairs where none were written. */
static inline harbour_tables harbour_tables_read(harbour_rooms rooms, harbour_read_reply reply) {
    harbour_tables tables;
    tables.sizes = rooms.sizes;
    tables.n = reply.boats;
    tables.pairs = rooms.pairs;
    tables.pair_bytes = reply.pair_bytes;
    tables.rows = rooms.rows;
    tables.row_words = reply.row_words;
    return tables;
}

/* From here to harbour_owed_beside stands what the functions below are made of.
 * A part of memory that a call is lent: so many units of one size. */
typedef struct {
    uintptr_t start;
    size_t units, unit_bytes;
    int is_written;
} harbour_lent;

static inline harbour_lent harbour_lend(const void *start, size_t units, size_t unit_bytes, int is_written) {
#ifdef __cplusplus
    const harbour_lent lent = {reinterpret_cast<uintptr_t>(start), units, unit_bytes, is_written};
#else
    const harbour_lent lent = {(uintptr_t)start, units, unit_bytes, is_written};
#endif
    return lent;
}

static inline harbour_lent harbour_lend_bytes(const uint8_t *start, size_t bytes, int is_written) {
    return harbour_lend(start, bytes, sizeof *start, is_written);
}

static inline harbour_lent harbour_lend_words(const uint64_t *start, size_t words, int is_written) {
    return harbour_lend(start, words, sizeof *start, is_written);
}

/* NULL with a length, not aligned, or past the end of the address space. */
static inline int harbour_is_amiss(harbour_lent part) {
    if (part.units == 0) return 0;
    if (part.start == 0 || part.start % part.unit_bytes != 0) return 1;
    return part.units - 1 > (UINTPTR_MAX - part.start) / part.unit_bytes;
}

/* Of two parts that are not amiss. */
static inline int harbour_overlap(harbour_lent one, harbour_lent other) {
    if (one.units == 0 || other.units == 0) return 0;
    if (one.start <= other.start) return other.start - one.start < one.units * one.unit_bytes;
    return one.start - other.start < other.units * other.unit_bytes;
}

/* The index of the part at fault, or the number of parts where none is. */
static inline size_t harbour_first_fault(const harbour_lent *parts, size_t count) {
    for (size_t at = 0; at < count; at++) {
        if (harbour_is_amiss(parts[at])) return at;
    }
    for (size_t later = 1; later < count; later++) {
        for (size_t earlier = 0; earlier < later; earlier++) {
            const int written = parts[earlier].is_written || parts[later].is_written;
            if (written && harbour_overlap(parts[earlier], parts[later])) return later;
        }
    }
    return count;
}

/* A reply with no counts. */
static inline harbour_reply harbour_answered(uint64_t answer, uint64_t place) {
    const harbour_reply reply = {answer, place, 0, 0};
    return reply;
}

/* The parts of a call, as they follow in the plain function, where the first has this place and every
 * pointer has its length behind it. The answer is HARBOUR_OWED or 0. */
static inline harbour_reply harbour_owed(uint64_t place_of_first, const harbour_lent *parts, size_t count) {
    const size_t fault = harbour_first_fault(parts, count);
    if (fault == count) return harbour_answered(0, 0);
    return harbour_answered(HARBOUR_OWED, place_of_first + 2 * fault);
}

/* Three parts: tables are only read. */
static inline void harbour_lend_tables(harbour_lent *parts, harbour_tables tables) {
    parts[0] = harbour_lend_bytes(tables.sizes, tables.n, 0);
    parts[1] = harbour_lend_bytes(tables.pairs, tables.pair_bytes, 0);
    parts[2] = harbour_lend_words(tables.rows, tables.row_words, 0);
}

/* Three parts: the memory lent for tables is written. */
static inline void harbour_lend_rooms(harbour_lent *parts, harbour_rooms rooms) {
    parts[0] = harbour_lend_bytes(rooms.sizes, rooms.size_room, 1);
    parts[1] = harbour_lend_bytes(rooms.pairs, rooms.pair_room, 1);
    parts[2] = harbour_lend_words(rooms.rows, rooms.row_room, 1);
}

/* Of the tables alone. */
static inline harbour_reply harbour_owed_tables(harbour_tables tables) {
    harbour_lent parts[3];
    harbour_lend_tables(parts, tables);
    return harbour_owed(0, parts, 3);
}

/* Of the tables and one part behind them. */
static inline harbour_reply harbour_owed_beside(harbour_tables tables, harbour_lent other) {
    harbour_lent parts[4];
    harbour_lend_tables(parts, tables);
    parts[3] = other;
    return harbour_owed(0, parts, 4);
}

/* harbour_run. The place of a fault: 1 sizes, 3 pairs, 5 rows, 7 plan, 9 work. */
static inline harbour_reply harbour_run_t(uint64_t method, harbour_tables tables, uint8_t *plan, size_t plan_bytes,
    uint64_t *work, size_t work_words, uint64_t checks, uint64_t trials) {
    harbour_lent parts[5];
    harbour_lend_tables(parts, tables);
    parts[3] = harbour_lend_bytes(plan, plan_bytes, 1);
    parts[4] = harbour_lend_words(work, work_words, 1);
    const harbour_reply owed = harbour_owed(1, parts, 5);
    if (owed.answer == HARBOUR_OWED) return owed;
    return harbour_run(method, tables.sizes, tables.n, tables.pairs, tables.pair_bytes, tables.rows,
        tables.row_words, plan, plan_bytes, work, work_words, checks, trials);
}

/* harbour_examine. The place of a fault: 0 sizes, 2 pairs, 4 rows. */
static inline harbour_reply harbour_examine_t(harbour_tables tables) {
    const harbour_reply owed = harbour_owed_tables(tables);
    if (owed.answer == HARBOUR_OWED) return owed;
    return harbour_examine(tables.sizes, tables.n, tables.pairs, tables.pair_bytes, tables.rows, tables.row_words);
}

/* harbour_lawful. The place of a fault: 0 sizes, 2 pairs, 4 rows, 6 given. */
static inline harbour_reply harbour_lawful_t(harbour_tables tables, const uint8_t *given, size_t given_bytes) {
    const harbour_reply owed = harbour_owed_beside(tables, harbour_lend_bytes(given, given_bytes, 0));
    if (owed.answer == HARBOUR_OWED) return owed;
    return harbour_lawful(tables.sizes, tables.n, tables.pairs, tables.pair_bytes, tables.rows, tables.row_words,
        given, given_bytes);
}

/* harbour_broken. The place of a fault: as for harbour_lawful_t. */
static inline harbour_reply harbour_broken_t(harbour_tables tables, const uint8_t *given, size_t given_bytes) {
    const harbour_reply owed = harbour_owed_beside(tables, harbour_lend_bytes(given, given_bytes, 0));
    if (owed.answer == HARBOUR_OWED) return owed;
    return harbour_broken(tables.sizes, tables.n, tables.pairs, tables.pair_bytes, tables.rows, tables.row_words,
        given, given_bytes);
}

/* harbour_rows. Where something is owed: start 0 and length 0, as for tables that are refused. */
static inline harbour_part harbour_rows_t(harbour_tables tables, uint64_t lower, uint64_t higher) {
    const harbour_part none = {0, 0};
    if (harbour_owed_tables(tables).answer == HARBOUR_OWED) return none;
    return harbour_rows(tables.sizes, tables.n, tables.pairs, tables.pair_bytes, tables.rows, tables.row_words,
        lower, higher);
}

/* harbour_read. The place of a fault: 0 file, 2 sizes, 4 pairs, 6 rows. */
static inline harbour_read_reply harbour_read_t(const uint8_t *file, size_t file_bytes, harbour_rooms rooms) {
    harbour_lent parts[4];
    parts[0] = harbour_lend_bytes(file, file_bytes, 0);
    harbour_lend_rooms(parts + 1, rooms);
    const harbour_reply owed = harbour_owed(0, parts, 4);
    const harbour_read_reply not_read = {owed.answer, owed.place, 0, 0, 0};
    if (owed.answer == HARBOUR_OWED) return not_read;
    return harbour_read(file, file_bytes, rooms.sizes, rooms.size_room, rooms.pairs, rooms.pair_room, rooms.rows,
        rooms.row_room);
}

/* harbour_write. The place of a fault: 0 sizes, 2 pairs, 4 rows, 6 file. */
static inline harbour_written harbour_write_t(harbour_tables tables, uint8_t *file, size_t file_room) {
    const harbour_reply owed = harbour_owed_beside(tables, harbour_lend_bytes(file, file_room, 1));
    const harbour_written not_written = {owed.answer, owed.place, 0};
    if (owed.answer == HARBOUR_OWED) return not_written;
    return harbour_write(tables.sizes, tables.n, tables.pairs, tables.pair_bytes, tables.rows, tables.row_words,
        file, file_room);
}

/* harbour_lawful_file. Where something is owed: HARBOUR_OWED, and no part is named. */
static inline uint64_t harbour_lawful_file_t(const uint8_t *file, size_t file_bytes, const uint8_t *given,
    size_t given_bytes, harbour_rooms rooms) {
    harbour_lent parts[5];
    parts[0] = harbour_lend_bytes(file, file_bytes, 0);
    parts[1] = harbour_lend_bytes(given, given_bytes, 0);
    harbour_lend_rooms(parts + 2, rooms);
    if (harbour_owed(0, parts, 5).answer == HARBOUR_OWED) return HARBOUR_OWED;
    return harbour_lawful_file(file, file_bytes, given, given_bytes, rooms.sizes, rooms.size_room, rooms.pairs,
        rooms.pair_room, rooms.rows, rooms.row_room);
}

#if __STDC_HOSTED__

/* A reply in one English line, with no end of line: puts(harbour_say_run(reply).text). */
typedef struct {
    char text[192];
} harbour_line;

/* What a refusal means, or NULL where the answer is none. */
static inline const char *harbour_cause(uint64_t answer) {
    switch (answer) {
    case HARBOUR_REFUSED_METHOD: return "there is no such method";
    case HARBOUR_REFUSED_BOATS: return "there are more than 64 boats";
    case HARBOUR_REFUSED_SIZE: return "it has no slot, or more than 64";
    case HARBOUR_REFUSED_PAIR_BYTES: return "the pairs have an odd number of bytes, or more than 4032";
    case HARBOUR_REFUSED_PAIR_NO_BOAT: return "the byte names a boat that is not there";
    case HARBOUR_REFUSED_PAIR_SAME_BOAT: return "the byte names the same boat as the one before it";
    case HARBOUR_REFUSED_PAIR_HIGHER_FIRST: return "the pair has the higher boat first";
    case HARBOUR_REFUSED_PAIR_NOT_RISING: return "the pair is equal to or below the one before it";
    case HARBOUR_REFUSED_ROW_WORDS: return "the rows are too few or too many for the pairs";
    case HARBOUR_REFUSED_ROW_BIT: return "it allows a slot that the higher boat does not have";
    case HARBOUR_REFUSED_PLAN_MEMORY: return "the plan's memory has fewer bytes than there are boats";
    case HARBOUR_REFUSED_WORK_MEMORY: return "the working memory has fewer than 8192 words";
    case HARBOUR_REFUSED_GIVEN_LENGTH: return "the given plan has not one byte for each boat";
    case HARBOUR_REFUSED_GIVEN_SLOT: return "the given plan has a slot for it that it does not have";
    case HARBOUR_REFUSED_MARK: return "an unknown mark, or one out of its place";
    case HARBOUR_REFUSED_FILE_END: return "the file ends there, inside a mark or a record or before ED";
    case HARBOUR_REFUSED_FILE_BOAT: return "the byte names a lower boat that is not in SZ";
    case HARBOUR_REFUSED_FILE_COUNT: return "ED has not the number of PR records";
    case HARBOUR_REFUSED_FILE_REST: return "bytes stand after ED";
    case HARBOUR_REFUSED_ROOM: return "the memory lent is too small for what would be written there";
    default: return NULL;
    }
}

/* Is the place of a refusal a byte of the pairs? */
static inline int harbour_place_is_pair_byte(uint64_t answer) {
    return answer >= HARBOUR_REFUSED_PAIR_NO_BOAT && answer <= HARBOUR_REFUSED_PAIR_NOT_RISING;
}

/* What the place of a refusal names, or NULL where it names nothing. */
static inline const char *harbour_place_names(uint64_t answer) {
    if (harbour_place_is_pair_byte(answer)) return "pair byte";
    if (answer >= HARBOUR_REFUSED_MARK && answer <= HARBOUR_REFUSED_FILE_REST) return "file byte";
    switch (answer) {
    case HARBOUR_REFUSED_SIZE: return "boat";
    case HARBOUR_REFUSED_ROW_BIT: return "row word";
    case HARBOUR_REFUSED_GIVEN_SLOT: return "boat";
    default: return NULL;
    }
}

/* A refusal without its place, or a number that no answer has. */
static inline harbour_line harbour_say_number(uint64_t answer) {
    harbour_line line;
    const char *const cause = harbour_cause(answer), *const names = harbour_place_names(answer);
    const uint64_t number = answer - HARBOUR_REFUSED;
    if (cause == NULL) {
        snprintf(line.text, sizeof line.text, "%" PRIu64 " is no answer of this call", answer);
    } else if (names == NULL) {
        snprintf(line.text, sizeof line.text, "refused, number %" PRIu64 ": %s", number, cause);
    } else {
        snprintf(line.text, sizeof line.text, "refused, number %" PRIu64 " at a %s: %s", number, names, cause);
    }
    return line;
}

/* That, with the place where it names something. */
static inline harbour_line harbour_say_refused(harbour_reply reply) {
    harbour_line line;
    const char *const cause = harbour_cause(reply.answer), *const names = harbour_place_names(reply.answer);
    const uint64_t number = reply.answer - HARBOUR_REFUSED;
    if (names == NULL) return harbour_say_number(reply.answer);
    if (harbour_place_is_pair_byte(reply.answer)) {
        snprintf(line.text, sizeof line.text, "refused, number %" PRIu64 " at %s %" PRIu64 ", in pair %" PRIu64 ": %s",
            number, names, reply.place, reply.place / 2, cause);
    } else {
        snprintf(line.text, sizeof line.text, "refused, number %" PRIu64 " at %s %" PRIu64 ": %s", number, names,
            reply.place, cause);
    }
    return line;
}

static inline harbour_line harbour_say_owed(const char *part) {
    harbour_line line;
    snprintf(line.text, sizeof line.text, "not called: %s is NULL with a length, not aligned, too long, or overlaps "
        "another part", part);
    return line;
}

/* A refusal, or something owed, by the name of its part: these 5 are the plain function's, or NULL, and
 * the first has this place. */
static inline harbour_line harbour_say_not_done(harbour_reply reply, uint64_t place_of_first,
    const char *const *parts) {
    const uint64_t part = (reply.place - place_of_first) / 2;
    if (reply.answer != HARBOUR_OWED) return harbour_say_refused(reply);
    return harbour_say_owed(part < 5 && parts[part] != NULL ? parts[part] : "a part");
}

static inline harbour_line harbour_say_counted(const char *said, harbour_reply reply, const char *meant) {
    harbour_line line;
    snprintf(line.text, sizeof line.text, "%s after %" PRIu64 " checks and %" PRIu64 " trials: %s", said, reply.checks,
        reply.trials, meant);
    return line;
}

static inline harbour_line harbour_say_text(const char *said) {
    harbour_line line;
    snprintf(line.text, sizeof line.text, "%s", said);
    return line;
}

/* Of harbour_run and harbour_run_t. */
static inline harbour_line harbour_say_run(harbour_reply reply) {
    const char *const parts[5] = {"sizes", "pairs", "rows", "plan", "work"};
    switch (reply.answer) {
    case HARBOUR_SOLVED:
        return harbour_say_counted("solved", reply, "the plan is written");
    case HARBOUR_NO_PLAN:
        return harbour_say_counted("no plan", reply, "none exists, and larger allowances change nothing");
    case HARBOUR_UNDECIDED_BY_CHECKS:
        return harbour_say_counted("undecided", reply, "the checks allowed are used up, and a plan may exist or not");
    case HARBOUR_UNDECIDED_BY_TRIALS:
        return harbour_say_counted("undecided", reply, "the trials allowed are used up, and a plan may exist or not");
    default:
        return harbour_say_not_done(reply, 1, parts);
    }
}

/* Of harbour_examine and harbour_examine_t. */
static inline harbour_line harbour_say_examine(harbour_reply reply) {
    const char *const parts[5] = {"sizes", "pairs", "rows", NULL, NULL};
    if (reply.answer == HARBOUR_FINE) return harbour_say_text("the tables are fine");
    return harbour_say_not_done(reply, 0, parts);
}

/* Of harbour_lawful and harbour_lawful_t. */
static inline harbour_line harbour_say_lawful(harbour_reply reply) {
    const char *const parts[5] = {"sizes", "pairs", "rows", "given", NULL};
    if (reply.answer == HARBOUR_LAWFUL) return harbour_say_text("the plan is lawful");
    if (reply.answer == HARBOUR_UNLAWFUL) return harbour_say_text("the plan is not lawful: it breaks a pair");
    return harbour_say_not_done(reply, 0, parts);
}

/* Of harbour_broken and harbour_broken_t. */
static inline harbour_line harbour_say_broken(harbour_reply reply) {
    const char *const parts[5] = {"sizes", "pairs", "rows", "given", NULL};
    harbour_line line;
    if (reply.answer == HARBOUR_UNBROKEN) return harbour_say_text("the plan breaks no pair");
    if (reply.answer != HARBOUR_BROKEN) return harbour_say_not_done(reply, 0, parts);
    snprintf(line.text, sizeof line.text, "the plan breaks pair %" PRIu64 ", and no lower one", reply.place);
    return line;
}

/* Of harbour_read and harbour_read_t. */
static inline harbour_line harbour_say_read(harbour_read_reply reply) {
    const char *const parts[5] = {"file", "sizes", "pairs", "rows", NULL};
    harbour_line line;
    if (reply.answer != HARBOUR_FINE) {
        return harbour_say_not_done(harbour_answered(reply.answer, reply.place), 0, parts);
    }
    snprintf(line.text, sizeof line.text, "read: %" PRIu64 " boats, %" PRIu64 " pair bytes and %" PRIu64
        " row words, and the tables are fine", reply.boats, reply.pair_bytes, reply.row_words);
    return line;
}

/* Of harbour_write and harbour_write_t. */
static inline harbour_line harbour_say_write(harbour_written reply) {
    const char *const parts[5] = {"sizes", "pairs", "rows", "file", NULL};
    harbour_line line;
    if (reply.answer != HARBOUR_FINE) {
        return harbour_say_not_done(harbour_answered(reply.answer, reply.place), 0, parts);
    }
    snprintf(line.text, sizeof line.text, "written: the file has %" PRIu64 " bytes", reply.length);
    return line;
}

/* Of harbour_lawful_file and harbour_lawful_file_t. */
static inline harbour_line harbour_say_lawful_file(uint64_t answer) {
    if (answer == HARBOUR_OWED) return harbour_say_owed("a part");
    if (answer >= HARBOUR_REFUSED) return harbour_say_number(answer);
    return harbour_say_lawful(harbour_answered(answer, 0));
}

#endif

#ifdef __cplusplus
}
#endif

#endif
