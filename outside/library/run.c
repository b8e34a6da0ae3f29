#include "ask.h"

#include <inttypes.h>
#include <stdio.h>

#include "lent_run.h"
#include "text.h"

/* The place after the last byte that is not what it was. */
static size_t changed(const lent_part *lent) {
    size_t end = lent->length;
    while (end > 0 && lent->part[end - 1] == lent->before[end - 1]) end--;
    return end;
}

static size_t not_zero(const uint64_t *words, size_t length) {
    size_t count = 0;
    for (size_t at = 0; at < length; at++) count += words[at] != 0;
    return count;
}

static void write_run(const lent_run *run, size_t n) {
    harbour_reply reply = run->reply;
    printf("r %" PRIu64 " %" PRIu64, reply.answer, reply.place);
    printf(" %" PRIu64 " %" PRIu64 " ", reply.checks, reply.trials);
    write_bytes(bytes_of(&run->plan), reply.answer == HARBOUR_SOLVED && n <= run->plan.length ? n : 0);
    size_t words = (changed(&run->work) + sizeof(uint64_t) - 1) / sizeof(uint64_t);
    printf(" %zu %zu %zu\n", changed(&run->plan), words, not_zero(words_of(&run->work), words));
}

static terms read_terms(char *line) {
    terms read;
    read.method = decimal(field(&line));
    read.checks = decimal(field(&line));
    read.trials = decimal(field(&line));
    read.plan_bytes = decimal(field(&line));
    read.work_words = decimal(field(&line));
    return read;
}

void ask_run(const lent_tables *lent, char *line) {
    lent_run run = run_lent(lent, read_terms(line));
    write_run(&run, tables_of(lent).n);
    run_left_alone("run", &run, run.reply, lent);
    take_run_back(&run);
}
