/* library [--exact] < PROBLEMS > REPLIES
 *
 * Puts the library behind the lines of `second vectors`, `second files` and `second fresh`
 * (outside/second/src/stored/mod.rs describes them), so that its replies can be held to the second
 * program's. What is compared here, guards and unchanged memory, is tallied on standard error. */
#include <stdio.h>
#include <stdlib.h>
#include <string.h>

#include "ask.h"
#include "tally.h"
#include "text.h"

static lent_tables read_tables(char *line) {
    harbour_tables read;
    uint8_t *sizes = hex_bytes(field(&line), &read.n);
    uint8_t *pairs = hex_bytes(field(&line), &read.pair_bytes);
    uint64_t *rows = hex_words(field(&line), &read.row_words);
    read.sizes = sizes;
    read.pairs = pairs;
    read.rows = rows;
    lent_tables made = lend_tables(&read);
    free(sizes);
    free(pairs);
    free(rows);
    return made;
}

static void answer(char *line, lent_tables *lent) {
    char *kind = field(&line);
    if (strcmp(kind, "t") == 0) {
        take_tables_back(lent);
        *lent = read_tables(line);
        ask_examine(lent);
    } else if (strcmp(kind, "r") == 0) {
        ask_run(lent, line);
    } else if (strcmp(kind, "p") == 0) {
        ask_plan(lent, line);
    } else if (strcmp(kind, "s") == 0) {
        ask_rows(lent, line);
    } else if (strcmp(kind, "w") == 0) {
        ask_write(lent, line);
    } else if (strcmp(kind, "f") == 0) {
        ask_read(line);
    } else if (strcmp(kind, "d") == 0) {
        ask_desk(line);
    } else {
        no_line(kind);
    }
}

int main(int words, char **word) {
    lend_as_told(words, word);
    const harbour_tables nothing = {NULL, 0, NULL, 0, NULL, 0};
    lent_tables lent = lend_tables(&nothing);
    char *line = NULL;
    size_t room = 0;
    while (getline(&line, &room, stdin) > 0) answer(line, &lent);
    take_tables_back(&lent);
    free(line);
    return tally_told();
}
