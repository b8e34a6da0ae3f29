#include "lent.h"

#include <stdio.h>
#include <stdlib.h>
#include <string.h>

/* Words stay aligned behind their guard; bytes begin at an odd address. */
enum { WORD_GUARD = 64, BYTE_GUARD = 61 };

static int exactly;
static uint64_t state = 1;

void lend_as_told(int words, char **word) {
    exactly = words == 2 && strcmp(word[1], "--exact") == 0;
}

/* Every part is filled differently, since what it held must have no effect. */
static uint64_t next_word(void) {
    state = state * UINT64_C(6364136223846793005) + UINT64_C(1442695040888963407);
    return state ^ state >> 29;
}

void *memory(size_t bytes) {
    void *block = bytes == 0 ? NULL : malloc(bytes);
    if (block == NULL && bytes != 0) {
        fputs("no memory\n", stderr);
        exit(2);
    }
    return block;
}

static unsigned char guard_byte(size_t at) {
    return (unsigned char)(at * 37 + 0x5b);
}

static lent_part lend(size_t guard, size_t bytes) {
    lent_part made;
    made.front = made.back = exactly ? 0 : guard;
    made.length = bytes;
    made.block = (unsigned char *)memory(made.front + bytes + made.back);
    made.part = made.block == NULL ? NULL : made.block + made.front;
    made.before = (unsigned char *)memory(bytes);
    for (size_t at = 0; at < made.front; at++) made.block[at] = guard_byte(at);
    for (size_t at = 0; at < made.back; at++) made.part[bytes + at] = guard_byte(at);
    return made;
}

/* What the part holds now is what it is compared with later. */
static lent_part kept(lent_part lent) {
    if (lent.length != 0) memcpy(lent.before, lent.part, lent.length);
    return lent;
}

lent_part lend_bytes(const uint8_t *from, size_t bytes) {
    lent_part made = lend(BYTE_GUARD, bytes);
    for (size_t at = 0; at < bytes; at++) made.part[at] = from != NULL ? from[at] : (uint8_t)(next_word() | 64);
    return kept(made);
}

lent_part lend_words(const uint64_t *from, size_t words) {
    lent_part made = lend(WORD_GUARD, words * sizeof(uint64_t));
    for (size_t at = 0; at < words; at++) words_of(&made)[at] = from != NULL ? from[at] : next_word() | 1;
    return kept(made);
}

uint8_t *bytes_of(const lent_part *lent) {
    return lent->part;
}

uint64_t *words_of(const lent_part *lent) {
    return (uint64_t *)(void *)lent->part;
}

int left_alone_from(const lent_part *lent, size_t byte) {
    for (size_t at = 0; at < lent->front; at++) {
        if (lent->block[at] != guard_byte(at)) return 0;
    }
    for (size_t at = 0; at < lent->back; at++) {
        if (lent->part[lent->length + at] != guard_byte(at)) return 0;
    }
    if (byte >= lent->length) return 1;
    return memcmp(lent->part + byte, lent->before + byte, lent->length - byte) == 0;
}

void take_back(lent_part *lent) {
    free(lent->block);
    free(lent->before);
}
