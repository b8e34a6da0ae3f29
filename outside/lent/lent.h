/* A part of memory that a call is lent: between guard bytes, and with a copy of what it held. */
#ifndef LENT_H
#define LENT_H

#include <stddef.h>
#include <stdint.h>

typedef struct {
    unsigned char *block, *part, *before;
    size_t front, length, back;
} lent_part;

/* Where the program was called with --exact, blocks are just as long as their parts, and a part of
 * length 0 is NULL: a memory checker then sees the first byte read or written outside a part. */
void lend_as_told(int words, char **word);

/* NULL for no bytes; ends the program where there is no memory. */
void *memory(size_t bytes);

/* The part holds what `from` holds, or, where that is NULL, bytes of 64 and above, which no slot is. */
lent_part lend_bytes(const uint8_t *from, size_t bytes);

/* The part holds what `from` holds, or, where that is NULL, words that are not 0. */
lent_part lend_words(const uint64_t *from, size_t words);

uint8_t *bytes_of(const lent_part *lent);
uint64_t *words_of(const lent_part *lent);

/* Do the guards stand, and is every byte from this one on what it was? */
int left_alone_from(const lent_part *lent, size_t byte);

void take_back(lent_part *lent);

#endif
