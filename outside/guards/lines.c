#include <string.h>

#include "guards.h"
#include "harbour.h"
#include "tally.h"

#define LENGTH(list) (sizeof(list) / sizeof(list)[0])

typedef harbour_line say(harbour_reply reply);

static void says_of(say *says, harbour_reply reply, const char *due) {
    const harbour_line got = says(reply);
    holds(due, got.text, strcmp(got.text, due) == 0);
}

static void line_is(say *says, uint64_t answer, uint64_t place, const char *due) {
    const harbour_reply reply = {answer, place, 12, 345};
    says_of(says, reply, due);
}

/* Those of files, said of a reply with the same answer and place. */
static harbour_line say_read(harbour_reply reply) {
    const harbour_read_reply read = {reply.answer, reply.place, 64, 4032, 129024};
    return harbour_say_read(read);
}

static harbour_line say_write(harbour_reply reply) {
    const harbour_written written = {reply.answer, reply.place, 1040327};
    return harbour_say_write(written);
}

static harbour_line say_lawful_file(harbour_reply reply) {
    return harbour_say_lawful_file(reply.answer);
}

/* The longest lines there are: none is cut. */
static void largest_numbers(void) {
    const harbour_reply undecided = {3, 0, UINT64_MAX, UINT64_MAX}, pair = {154, UINT64_MAX, 0, 0};
    const harbour_read_reply most = {0, 0, UINT64_MAX, UINT64_MAX, UINT64_MAX};
    const char *const due = "read: 18446744073709551615 boats, 18446744073709551615 pair bytes and "
        "18446744073709551615 row words, and the tables are fine";
    holds(due, "is not said", strcmp(harbour_say_read(most).text, due) == 0);
    says_of(harbour_say_run, undecided, "undecided after 18446744073709551615 checks and 18446744073709551615 trials: the "
        "trials allowed are used up, and a plan may exist or not");
    says_of(harbour_say_examine, pair, "refused, number 54 at pair byte 18446744073709551615, in pair "
        "9223372036854775807: the pair is equal to or below the one before it");
}

static void answers(void) {
    line_is(harbour_say_run, 0, 0, "solved after 12 checks and 345 trials: the plan is written");
    line_is(harbour_say_run, 1, 0,
        "no plan after 12 checks and 345 trials: none exists, and larger allowances change nothing");
    line_is(harbour_say_run, 2, 0,
        "undecided after 12 checks and 345 trials: the checks allowed are used up, and a plan may exist or not");
    line_is(harbour_say_run, 3, 0,
        "undecided after 12 checks and 345 trials: the trials allowed are used up, and a plan may exist or not");
    line_is(harbour_say_examine, 0, 0, "the tables are fine");
    line_is(harbour_say_lawful, 0, 0, "the plan is lawful");
    line_is(harbour_say_lawful, 1, 0, "the plan is not lawful: it breaks a pair");
    line_is(harbour_say_broken, 0, 0, "the plan breaks no pair");
    line_is(harbour_say_broken, 1, 0, "the plan breaks pair 0, and no lower one");
    line_is(harbour_say_broken, 1, 2015, "the plan breaks pair 2015, and no lower one");
    line_is(say_read, 0, 0, "read: 64 boats, 4032 pair bytes and 129024 row words, and the tables are fine");
    line_is(say_write, 0, 0, "written: the file has 1040327 bytes");
    line_is(say_lawful_file, 0, 0, "the plan is lawful");
    line_is(say_lawful_file, 1, 0, "the plan is not lawful: it breaks a pair");
}

typedef struct {
    uint64_t answer, place;
    const char *due;
} refusal;

static const refusal refused[] = {
    {101, 0, "refused, number 1: there is no such method"},
    {102, 0, "refused, number 2: there are more than 64 boats"},
    {103, 7, "refused, number 3 at boat 7: it has no slot, or more than 64"},
    {104, 0, "refused, number 4: the pairs have an odd number of bytes, or more than 4032"},
    {151, 8, "refused, number 51 at pair byte 8, in pair 4: the byte names a boat that is not there"},
    {151, 9, "refused, number 51 at pair byte 9, in pair 4: the byte names a boat that is not there"},
    {152, 9, "refused, number 52 at pair byte 9, in pair 4: the byte names the same boat as the one before it"},
    {153, 8, "refused, number 53 at pair byte 8, in pair 4: the pair has the higher boat first"},
    {154, 8, "refused, number 54 at pair byte 8, in pair 4: the pair is equal to or below the one before it"},
    {106, 0, "refused, number 6: the rows are too few or too many for the pairs"},
    {107, 9, "refused, number 7 at row word 9: it allows a slot that the higher boat does not have"},
    {108, 0, "refused, number 8: the plan's memory has fewer bytes than there are boats"},
    {109, 0, "refused, number 9: the working memory has fewer than 8192 words"},
    {110, 0, "refused, number 10: the given plan has not one byte for each boat"},
    {111, 5, "refused, number 11 at boat 5: the given plan has a slot for it that it does not have"},
    {121, 8, "refused, number 21 at file byte 8: an unknown mark, or one out of its place"},
    {122, 9, "refused, number 22 at file byte 9: the file ends there, inside a mark or a record or before ED"},
    {123, 7, "refused, number 23 at file byte 7: the byte names a lower boat that is not in SZ"},
    {124, 6, "refused, number 24 at file byte 6: ED has not the number of PR records"},
    {125, 5, "refused, number 25 at file byte 5: bytes stand after ED"},
    {126, 0, "refused, number 26: the memory lent is too small for what would be written there"},
    {4, 0, "4 is no answer of this call"},
    {100, 0, "100 is no answer of this call"},
    {105, 0, "105 is no answer of this call"},
    {112, 0, "112 is no answer of this call"},
    {120, 0, "120 is no answer of this call"},
    {127, 0, "127 is no answer of this call"},
    {150, 0, "150 is no answer of this call"},
    {155, 0, "155 is no answer of this call"},
    {UINT64_MAX, 0, "18446744073709551615 is no answer of this call"},
};

/* Where no place is told, what it would have named is. */
static const refusal without_place[] = {
    {102, 0, "refused, number 2: there are more than 64 boats"},
    {103, 0, "refused, number 3 at a boat: it has no slot, or more than 64"},
    {104, 0, "refused, number 4: the pairs have an odd number of bytes, or more than 4032"},
    {151, 0, "refused, number 51 at a pair byte: the byte names a boat that is not there"},
    {152, 0, "refused, number 52 at a pair byte: the byte names the same boat as the one before it"},
    {153, 0, "refused, number 53 at a pair byte: the pair has the higher boat first"},
    {154, 0, "refused, number 54 at a pair byte: the pair is equal to or below the one before it"},
    {106, 0, "refused, number 6: the rows are too few or too many for the pairs"},
    {107, 0, "refused, number 7 at a row word: it allows a slot that the higher boat does not have"},
    {110, 0, "refused, number 10: the given plan has not one byte for each boat"},
    {111, 0, "refused, number 11 at a boat: the given plan has a slot for it that it does not have"},
    {121, 0, "refused, number 21 at a file byte: an unknown mark, or one out of its place"},
    {122, 0, "refused, number 22 at a file byte: the file ends there, inside a mark or a record or before ED"},
    {123, 0, "refused, number 23 at a file byte: the byte names a lower boat that is not in SZ"},
    {124, 0, "refused, number 24 at a file byte: ED has not the number of PR records"},
    {125, 0, "refused, number 25 at a file byte: bytes stand after ED"},
    {126, 0, "refused, number 26: the memory lent is too small for what would be written there"},
    {2, 0, "2 is no answer of this call"},
    {100, 0, "100 is no answer of this call"},
    {112, 0, "112 is no answer of this call"},
    {120, 0, "120 is no answer of this call"},
    {127, 0, "127 is no answer of this call"},
    {191, 0, "191 is no answer of this call"},
};

/* The part at fault, by its name; the places are those that outside/guards/guarded.c lists. */
static void owed(say *says, uint64_t place, const char *part) {
    char due[160];
    snprintf(due, sizeof due, "not called: %s is NULL with a length, not aligned, too long, or overlaps another part",
        part);
    line_is(says, 190, place, due);
}

static void every_owed(void) {
    const char *const of_run[] = {"sizes", "pairs", "rows", "plan", "work"};
    const char *const of_question[] = {"sizes", "pairs", "rows", "given"};
    for (uint64_t at = 0; at < 5; at++) owed(harbour_say_run, 2 * at + 1, of_run[at]);
    for (uint64_t at = 0; at < 3; at++) owed(harbour_say_examine, 2 * at, of_question[at]);
    for (uint64_t at = 0; at < 4; at++) owed(harbour_say_lawful, 2 * at, of_question[at]);
    for (uint64_t at = 0; at < 4; at++) owed(harbour_say_broken, 2 * at, of_question[at]);
    const char *const of_read[] = {"file", "sizes", "pairs", "rows"};
    const char *const of_write[] = {"sizes", "pairs", "rows", "file"};
    for (uint64_t at = 0; at < 4; at++) owed(say_read, 2 * at, of_read[at]);
    for (uint64_t at = 0; at < 4; at++) owed(say_write, 2 * at, of_write[at]);
    owed(say_lawful_file, 0, "a part");
    owed(harbour_say_examine, 6, "a part");
    owed(harbour_say_run, 11, "a part");
    owed(harbour_say_run, UINT64_MAX, "a part");
}

static void lines_are(say *says, const refusal *list, size_t length) {
    for (size_t at = 0; at < length; at++) line_is(says, list[at].answer, list[at].place, list[at].due);
}

void lines(void) {
    say *const all[] = {harbour_say_run, harbour_say_examine, harbour_say_lawful, harbour_say_broken, say_read,
        say_write};
    answers();
    every_owed();
    largest_numbers();
    for (size_t k = 0; k < LENGTH(all); k++) lines_are(all[k], refused, LENGTH(refused));
    lines_are(say_lawful_file, without_place, LENGTH(without_place));
    line_is(say_read, 1, 0, "1 is no answer of this call");
    line_is(say_write, 1, 0, "1 is no answer of this call");
    line_is(harbour_say_examine, 1, 0, "1 is no answer of this call");
    line_is(harbour_say_lawful, 2, 0, "2 is no answer of this call");
    line_is(harbour_say_broken, 3, 0, "3 is no answer of this call");
}
