/* Plain C beside the library, for speed: the steps and counts of the library's searches, its reader and writer, and no
   proof. Both compilers build it into one program; the Makefile ends each one's names in its own. */
#ifndef PLAIN_H
#define PLAIN_H

#include "draft.h"

/* As the library's run. The tables must be fit; nothing is examined. */
outcome plain_run(const draft *of, uint64_t method, uint64_t checks, uint64_t trials);

/* As plain_run, of BT and CBJ alone, by whole words. */
outcome whole_run(const draft *of, uint64_t method, uint64_t checks, uint64_t trials);

/* As the library's examination. */
harbour_reply plain_examine(const harbour_tables *t);

/* plain_run and what the library does before and after it: the tables are examined, the working words cleared twice. */
outcome plain_call(const draft *of, uint64_t method, uint64_t checks, uint64_t trials);

/* As the library's reader. */
harbour_read_reply plain_read(const uint8_t *file, size_t bytes, harbour_rooms in);

/* As the library's writer. */
harbour_written plain_write(harbour_tables t, uint8_t *file, size_t room);

/* Of the compiler. */
extern const char plain_version[];

#endif
