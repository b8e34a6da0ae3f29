/* Calls about files, with lent memory, held to their due replies and to what they may change. */
#ifndef ASKED_FILES_H
#define ASKED_FILES_H

#include "filed.h"
#include "lent_rooms.h"

/* No tables: what is left standing where nothing is written. */
extern const harbour_tables none_standing;

/* More memory than any of the small files needs. */
room plenty(void);

/* The due file is NULL where the tables, or the memory, are refused. */
void write_is(const char *what, const harbour_tables *given, size_t file_room, uint64_t answer, uint64_t place,
    const filed *due);

void read_is(const char *what, const uint8_t *file, size_t bytes, room lent, uint64_t answer, uint64_t place,
    harbour_tables standing);

void lawful_file_is(const char *what, const uint8_t *file, size_t bytes, const uint8_t *plan, size_t plan_bytes,
    room lent, uint64_t answer, harbour_tables standing);

/* Refused before anything is written, by both functions that read: with much memory lent, and with none. */
void unread(const char *what, const uint8_t *file, size_t bytes, uint64_t answer, uint64_t place);

/* Read with just enough memory and with more, and then answered so by the examination. */
void read_as(const char *what, const filed *file, uint64_t answer, uint64_t place);

/* The same of tables that stand in a file; of others, nothing. */
void read_from_file(const char *what, const harbour_tables *given, uint64_t answer, uint64_t place);

/* Tables that the examination refuses are not written, whatever the memory lent. */
void unwritten(const char *what, const harbour_tables *given, uint64_t answer, uint64_t place);

/* Tables that are fine: written as their file, and read from it. */
void filed_and_read(const char *what, const harbour_tables *given);

#endif
