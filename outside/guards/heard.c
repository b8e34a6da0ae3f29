#include "heard.h"

heard last_heard;

static void hear_part(size_t at, const void *start, size_t length) {
    last_heard.parts[at].start = (uintptr_t)start;
    last_heard.parts[at].length = length;
}

/* The tables, or the memory lent for them, from this part on. */
static void hear_three(size_t at, const uint8_t *sizes, size_t n, const uint8_t *pairs, size_t pair_bytes,
    const uint64_t *rows, size_t row_words) {
    hear_part(at, sizes, n);
    hear_part(at + 1, pairs, pair_bytes);
    hear_part(at + 2, rows, row_words);
}

static void hear_tables(const uint8_t *sizes, size_t n, const uint8_t *pairs, size_t pair_bytes,
    const uint64_t *rows, size_t row_words) {
    last_heard.calls += 1;
    hear_three(0, sizes, n, pairs, pair_bytes, rows, row_words);
}

static harbour_reply played(void) {
    harbour_reply reply = {PLAYED, PLAYED + 1, PLAYED + 2, PLAYED + 3};
    return reply;
}

harbour_reply harbour_run(uint64_t method, const uint8_t *sizes, size_t n, const uint8_t *pairs, size_t pair_bytes,
    const uint64_t *rows, size_t row_words, uint8_t *plan, size_t plan_bytes, uint64_t *work, size_t work_words,
    uint64_t checks, uint64_t trials) {
    hear_tables(sizes, n, pairs, pair_bytes, rows, row_words);
    hear_part(3, plan, plan_bytes);
    hear_part(4, work, work_words);
    last_heard.numbers[0] = method;
    last_heard.numbers[1] = checks;
    last_heard.numbers[2] = trials;
    return played();
}

harbour_reply harbour_examine(const uint8_t *sizes, size_t n, const uint8_t *pairs, size_t pair_bytes,
    const uint64_t *rows, size_t row_words) {
    hear_tables(sizes, n, pairs, pair_bytes, rows, row_words);
    return played();
}

harbour_reply harbour_lawful(const uint8_t *sizes, size_t n, const uint8_t *pairs, size_t pair_bytes,
    const uint64_t *rows, size_t row_words, const uint8_t *given, size_t given_bytes) {
    hear_tables(sizes, n, pairs, pair_bytes, rows, row_words);
    hear_part(3, given, given_bytes);
    return played();
}

/* Not the reply of the one above: a guarded function that calls the other is found out. */
harbour_reply harbour_broken(const uint8_t *sizes, size_t n, const uint8_t *pairs, size_t pair_bytes,
    const uint64_t *rows, size_t row_words, const uint8_t *given, size_t given_bytes) {
    harbour_reply reply = harbour_lawful(sizes, n, pairs, pair_bytes, rows, row_words, given, given_bytes);
    reply.answer += 1;
    return reply;
}

harbour_part harbour_rows(const uint8_t *sizes, size_t n, const uint8_t *pairs, size_t pair_bytes,
    const uint64_t *rows, size_t row_words, uint64_t lower, uint64_t higher) {
    harbour_part part = {PLAYED, PLAYED + 1};
    hear_tables(sizes, n, pairs, pair_bytes, rows, row_words);
    last_heard.numbers[0] = lower;
    last_heard.numbers[1] = higher;
    return part;
}

harbour_read_reply harbour_read(const uint8_t *file, size_t file_bytes, uint8_t *sizes, size_t size_room,
    uint8_t *pairs, size_t pair_room, uint64_t *rows, size_t row_room) {
    harbour_read_reply reply = {PLAYED, PLAYED + 1, PLAYED + 2, PLAYED + 3, PLAYED + 4};
    last_heard.calls += 1;
    hear_part(0, file, file_bytes);
    hear_three(1, sizes, size_room, pairs, pair_room, rows, row_room);
    return reply;
}

harbour_written harbour_write(const uint8_t *sizes, size_t n, const uint8_t *pairs, size_t pair_bytes,
    const uint64_t *rows, size_t row_words, uint8_t *file, size_t file_room) {
    harbour_written reply = {PLAYED, PLAYED + 1, PLAYED + 2};
    hear_tables(sizes, n, pairs, pair_bytes, rows, row_words);
    hear_part(3, file, file_room);
    return reply;
}

uint64_t harbour_lawful_file(const uint8_t *file, size_t file_bytes, const uint8_t *given, size_t given_bytes,
    uint8_t *sizes, size_t size_room, uint8_t *pairs, size_t pair_room, uint64_t *rows, size_t row_room) {
    last_heard.calls += 1;
    hear_part(0, file, file_bytes);
    hear_part(1, given, given_bytes);
    hear_three(2, sizes, size_room, pairs, pair_room, rows, row_room);
    return PLAYED;
}
