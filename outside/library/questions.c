#include "ask.h"

#include <inttypes.h>
#include <stdio.h>
#include <stdlib.h>

#include "harbour.h"
#include "tally.h"
#include "text.h"

static void write_reply(const char *what, harbour_reply reply) {
    printf(" %" PRIu64 " %" PRIu64, reply.answer, reply.place);
    same(what, "checks", reply.checks, 0);
    same(what, "trials", reply.trials, 0);
}

void ask_examine(const lent_tables *lent) {
    putchar('t');
    write_reply("examine", harbour_examine_t(tables_of(lent)));
    putchar('\n');
    tables_left_alone("examine", lent);
}

void ask_plan(const lent_tables *lent, char *line) {
    size_t bytes;
    uint8_t *read = hex_bytes(field(&line), &bytes);
    lent_part given = lend_bytes(read, bytes);
    putchar('p');
    write_reply("lawful", harbour_lawful_t(tables_of(lent), bytes_of(&given), bytes));
    write_reply("broken", harbour_broken_t(tables_of(lent), bytes_of(&given), bytes));
    putchar('\n');
    holds("lawful and broken", "the given plan changed", left_alone_from(&given, 0));
    tables_left_alone("lawful and broken", lent);
    take_back(&given);
    free(read);
}

void ask_rows(const lent_tables *lent, char *line) {
    uint64_t lower = decimal(field(&line)), higher = decimal(field(&line));
    harbour_tables t = tables_of(lent);
    harbour_part part = harbour_rows_t(t, lower, higher);
    int inside = part.start <= t.row_words && part.length <= t.row_words - part.start;
    printf("s %" PRIu64 " %" PRIu64 " ", part.start, part.start + part.length);
    holds("rows", "the part is not inside the rows", inside);
    write_words(inside && part.length != 0 ? t.rows + part.start : NULL, inside ? part.length : 0);
    putchar('\n');
    tables_left_alone("rows", lent);
}
