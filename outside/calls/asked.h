/* A call with lent memory, held to its due reply and to what it may change. */
#ifndef ASKED_H
#define ASKED_H

#include "lent_run.h"

/* Just enough memory, and allowances that never run out. */
terms ample(uint64_t method, const harbour_tables *given);

harbour_reply due_reply(uint64_t answer, uint64_t place, uint64_t checks, uint64_t trials);

void reply_is(const char *what, harbour_reply got, harbour_reply due);

/* The due plan is NULL unless solved. */
void run_is(const char *what, const harbour_tables *given, terms under, harbour_reply due, const uint8_t *plan);

void examine_is(const char *what, const harbour_tables *given, uint64_t answer, uint64_t place);
void lawful_is(const char *what, const harbour_tables *given, const uint8_t *plan, size_t bytes,
    uint64_t answer, uint64_t place);
void broken_is(const char *what, const harbour_tables *given, const uint8_t *plan, size_t bytes,
    uint64_t answer, uint64_t place);
void rows_are(const char *what, const harbour_tables *given, uint64_t lower, uint64_t higher,
    uint64_t start, uint64_t length);

/* Tables that every function refuses, under every method; from a file too, where they stand in one. (The
 * rows in a file are always as many as its pairs need.) */
void refused_by_all(const char *what, const harbour_tables *given, uint64_t answer, uint64_t place);

#endif
