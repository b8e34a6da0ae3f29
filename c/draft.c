#include "draft.h"

#include <string.h>

void start_draft(draft *in) {
    in->made = (harbour_tables){in->sizes, 0, in->pairs, 0, in->rows, 0};
}

void add_boats(draft *in, size_t boats, size_t size) {
    memset(in->sizes + in->made.n, (int)size, boats);
    in->made.n += boats;
}

void add_pair(draft *in, size_t lower, size_t higher, const uint64_t *rows) {
    size_t words = in->sizes[lower];
    in->pairs[in->made.pair_bytes++] = (uint8_t)lower;
    in->pairs[in->made.pair_bytes++] = (uint8_t)higher;
    memcpy(in->rows + in->made.row_words, rows, words * sizeof *rows);
    in->made.row_words += words;
}

harbour_rooms rooms_of(draft *in) {
    return (harbour_rooms){in->sizes, sizeof in->sizes, in->pairs, sizeof in->pairs, in->rows, HARBOUR_ROWS};
}

outcome run(const draft *of, uint64_t method, uint64_t checks, uint64_t trials) {
    static uint64_t work[HARBOUR_WORK];
    outcome got = {0};
    got.reply = harbour_run_t(method, of->made, got.plan, HARBOUR_BOATS, work, HARBOUR_WORK, checks, trials);
    return got;
}
