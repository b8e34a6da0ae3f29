#include <assert.h>

#include "calls.h"
#include "harbour.h"
#include "tally.h"

static_assert(sizeof(harbour_reply) == 32 && sizeof(harbour_part) == 16, "sizes that the library returns");
static_assert(sizeof(harbour_read_reply) == 40 && sizeof(harbour_written) == 24, "and those about files");

typedef const uint8_t *bytes;
typedef const uint64_t *words;

/* A function whose type in the header changes no longer fits here: the file does not compile. */
static harbour_reply (*const run)(uint64_t, bytes, size_t, bytes, size_t, words, size_t, uint8_t *, size_t, uint64_t *,
    size_t, uint64_t, uint64_t) = harbour_run;
static harbour_reply (*const examine)(bytes, size_t, bytes, size_t, words, size_t) = harbour_examine;
static harbour_reply (*const lawful)(bytes, size_t, bytes, size_t, words, size_t, bytes, size_t) = harbour_lawful;
static harbour_reply (*const broken)(bytes, size_t, bytes, size_t, words, size_t, bytes, size_t) = harbour_broken;
static harbour_part (*const rows)(bytes, size_t, bytes, size_t, words, size_t, uint64_t, uint64_t) = harbour_rows;
static harbour_read_reply (*const read_file)(bytes, size_t, uint8_t *, size_t, uint8_t *, size_t, uint64_t *, size_t)
    = harbour_read;
static harbour_written (*const write_file)(bytes, size_t, bytes, size_t, words, size_t, uint8_t *, size_t)
    = harbour_write;
static uint64_t (*const lawful_file)(bytes, size_t, bytes, size_t, uint8_t *, size_t, uint8_t *, size_t, uint64_t *,
    size_t) = harbour_lawful_file;

static void structures(void) {
    same("harbour_reply", "size", sizeof(harbour_reply), 32);
    same("harbour_reply", "offset of answer", offsetof(harbour_reply, answer), 0);
    same("harbour_reply", "offset of place", offsetof(harbour_reply, place), 8);
    same("harbour_reply", "offset of checks", offsetof(harbour_reply, checks), 16);
    same("harbour_reply", "offset of trials", offsetof(harbour_reply, trials), 24);
    same("harbour_part", "size", sizeof(harbour_part), 16);
    same("harbour_part", "offset of start", offsetof(harbour_part, start), 0);
    same("harbour_part", "offset of length", offsetof(harbour_part, length), 8);
    same("harbour_read_reply", "size", sizeof(harbour_read_reply), 40);
    same("harbour_read_reply", "offset of answer", offsetof(harbour_read_reply, answer), 0);
    same("harbour_read_reply", "offset of place", offsetof(harbour_read_reply, place), 8);
    same("harbour_read_reply", "offset of boats", offsetof(harbour_read_reply, boats), 16);
    same("harbour_read_reply", "offset of pair_bytes", offsetof(harbour_read_reply, pair_bytes), 24);
    same("harbour_read_reply", "offset of row_words", offsetof(harbour_read_reply, row_words), 32);
    same("harbour_written", "size", sizeof(harbour_written), 24);
    same("harbour_written", "offset of answer", offsetof(harbour_written, answer), 0);
    same("harbour_written", "offset of place", offsetof(harbour_written, place), 8);
    same("harbour_written", "offset of length", offsetof(harbour_written, length), 16);
    same("size_t", "size", sizeof(size_t), 8);
}

static void functions(void) {
    static uint64_t work[HARBOUR_WORK];
    same("harbour_run", "answer", run(1, NULL, 0, NULL, 0, NULL, 0, NULL, 0, work, HARBOUR_WORK, 0, 0).answer, 0);
    same("harbour_examine", "answer", examine(NULL, 0, NULL, 0, NULL, 0).answer, 0);
    same("harbour_lawful", "answer", lawful(NULL, 0, NULL, 0, NULL, 0, NULL, 0).answer, 0);
    same("harbour_broken", "answer", broken(NULL, 0, NULL, 0, NULL, 0, NULL, 0).answer, 0);
    same("harbour_rows", "length", rows(NULL, 0, NULL, 0, NULL, 0, 0, 0).length, 0);
    same("harbour_read", "answer", read_file(NULL, 0, NULL, 0, NULL, 0, NULL, 0).answer, 122);
    same("harbour_write", "answer", write_file(NULL, 0, NULL, 0, NULL, 0, NULL, 0).answer, 126);
    same("harbour_lawful_file", "answer", lawful_file(NULL, 0, NULL, 0, NULL, 0, NULL, 0, NULL, 0), 122);
}

/* Each name with the number that the documents and the answers' list give it. */
static void constants(void) {
    static const struct {
        const char *name;
        uint64_t value, due;
    } list[] = {
        {"HARBOUR_BOATS", HARBOUR_BOATS, 64}, {"HARBOUR_SLOTS", HARBOUR_SLOTS, 64},
        {"HARBOUR_PAIRS", HARBOUR_PAIRS, 2016}, {"HARBOUR_WORK", HARBOUR_WORK, 8192},
        {"HARBOUR_ROWS", HARBOUR_ROWS, 129024}, {"HARBOUR_FILE", HARBOUR_FILE, 1040327},
        {"HARBOUR_BT", HARBOUR_BT, 1}, {"HARBOUR_CBJ", HARBOUR_CBJ, 2}, {"HARBOUR_BM", HARBOUR_BM, 3},
        {"HARBOUR_FC", HARBOUR_FC, 4}, {"HARBOUR_FC_CBJ", HARBOUR_FC_CBJ, 5},
        {"HARBOUR_AMPLE", HARBOUR_AMPLE, UINT64_C(18446744073709551615)},
        {"HARBOUR_SOLVED", HARBOUR_SOLVED, 0}, {"HARBOUR_NO_PLAN", HARBOUR_NO_PLAN, 1},
        {"HARBOUR_UNDECIDED_BY_CHECKS", HARBOUR_UNDECIDED_BY_CHECKS, 2},
        {"HARBOUR_UNDECIDED_BY_TRIALS", HARBOUR_UNDECIDED_BY_TRIALS, 3},
        {"HARBOUR_FINE", HARBOUR_FINE, 0}, {"HARBOUR_LAWFUL", HARBOUR_LAWFUL, 0},
        {"HARBOUR_UNLAWFUL", HARBOUR_UNLAWFUL, 1}, {"HARBOUR_UNBROKEN", HARBOUR_UNBROKEN, 0},
        {"HARBOUR_BROKEN", HARBOUR_BROKEN, 1}, {"HARBOUR_REFUSED", HARBOUR_REFUSED, 100},
        {"HARBOUR_REFUSED_METHOD", HARBOUR_REFUSED_METHOD, 101},
        {"HARBOUR_REFUSED_BOATS", HARBOUR_REFUSED_BOATS, 102}, {"HARBOUR_REFUSED_SIZE", HARBOUR_REFUSED_SIZE, 103},
        {"HARBOUR_REFUSED_PAIR_BYTES", HARBOUR_REFUSED_PAIR_BYTES, 104},
        {"HARBOUR_REFUSED_PAIR_NO_BOAT", HARBOUR_REFUSED_PAIR_NO_BOAT, 151},
        {"HARBOUR_REFUSED_PAIR_SAME_BOAT", HARBOUR_REFUSED_PAIR_SAME_BOAT, 152},
        {"HARBOUR_REFUSED_PAIR_HIGHER_FIRST", HARBOUR_REFUSED_PAIR_HIGHER_FIRST, 153},
        {"HARBOUR_REFUSED_PAIR_NOT_RISING", HARBOUR_REFUSED_PAIR_NOT_RISING, 154},
        {"HARBOUR_REFUSED_ROW_WORDS", HARBOUR_REFUSED_ROW_WORDS, 106},
        {"HARBOUR_REFUSED_ROW_BIT", HARBOUR_REFUSED_ROW_BIT, 107},
        {"HARBOUR_REFUSED_PLAN_MEMORY", HARBOUR_REFUSED_PLAN_MEMORY, 108},
        {"HARBOUR_REFUSED_WORK_MEMORY", HARBOUR_REFUSED_WORK_MEMORY, 109},
        {"HARBOUR_REFUSED_GIVEN_LENGTH", HARBOUR_REFUSED_GIVEN_LENGTH, 110},
        {"HARBOUR_REFUSED_GIVEN_SLOT", HARBOUR_REFUSED_GIVEN_SLOT, 111}, {"HARBOUR_OWED", HARBOUR_OWED, 190},
        {"HARBOUR_REFUSED_MARK", HARBOUR_REFUSED_MARK, 121},
        {"HARBOUR_REFUSED_FILE_END", HARBOUR_REFUSED_FILE_END, 122},
        {"HARBOUR_REFUSED_FILE_BOAT", HARBOUR_REFUSED_FILE_BOAT, 123},
        {"HARBOUR_REFUSED_FILE_COUNT", HARBOUR_REFUSED_FILE_COUNT, 124},
        {"HARBOUR_REFUSED_FILE_REST", HARBOUR_REFUSED_FILE_REST, 125},
        {"HARBOUR_REFUSED_ROOM", HARBOUR_REFUSED_ROOM, 126},
    };
    for (size_t at = 0; at < LENGTH(list); at++) {
        same(list[at].name, "value", list[at].value, list[at].due);
    }
}

void layout(void) {
    structures();
    functions();
    constants();
}
