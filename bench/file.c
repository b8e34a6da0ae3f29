/* The tables' file in plain C, for machines that have the low byte first: numbers 21 to 26, and the examination. */
#include "plain.h"

#include <string.h>

/* Bytes: of a mark, of SZ before its sizes, of PR before its rows, of ED. */
enum { MARK = 2, SZ_HEAD = 3, PR_HEAD = 4, ED_WHOLE = 4, WORD = sizeof(uint64_t) };

/* The marks, as two bytes are read. */
enum { SZ = 'S' | 'Z' << 8, PR = 'P' | 'R' << 8, ED = 'E' | 'D' << 8 };

static size_t two_bytes(const uint8_t *at)
{
    uint16_t two;
    memcpy(&two, at, sizeof two);
    return two;
}

/* What stands in a file, or the first fault in its bytes. */
typedef struct {
    uint64_t answer;
    size_t place, boats, pairs, words;
} contents;

static contents fault(uint64_t answer, size_t place)
{
    return (contents){ .answer = answer, .place = place };
}

static contents ended(const uint8_t *file, size_t bytes, size_t at, contents seen)
{
    if (bytes - at < ED_WHOLE)
        return fault(HARBOUR_REFUSED_FILE_END, bytes);
    if (two_bytes(file + at + MARK) != seen.pairs)
        return fault(HARBOUR_REFUSED_FILE_COUNT, at + MARK);
    if (bytes - at > ED_WHOLE)
        return fault(HARBOUR_REFUSED_FILE_REST, at + ED_WHOLE);
    return seen;
}

/* After SZ, from mark to mark: no row is looked at. */
static contents look_at_pairs(const uint8_t *file, size_t bytes, size_t boats)
{
    const uint8_t *const sizes = file + SZ_HEAD;
    size_t at = SZ_HEAD + boats, pairs = 0, words = 0;
    for (; bytes - at >= MARK; pairs++) {
        const size_t mark = two_bytes(file + at);
        if (mark == ED)
            return ended(file, bytes, at, (contents){ HARBOUR_FINE, 0, boats, pairs, words });
        if (mark != PR)
            return fault(HARBOUR_REFUSED_MARK, at);
        if (bytes - at == MARK)
            break;
        const size_t lower = file[at + MARK];
        if (lower >= boats)
            return fault(HARBOUR_REFUSED_FILE_BOAT, at + MARK);
        const size_t length = PR_HEAD + (size_t)WORD * sizes[lower];
        if (bytes - at < length)
            break;
        words += sizes[lower];
        at += length;
    }
    return fault(HARBOUR_REFUSED_FILE_END, bytes);
}

static contents look_at(const uint8_t *file, size_t bytes)
{
    if (bytes < MARK)
        return fault(HARBOUR_REFUSED_FILE_END, bytes);
    if (two_bytes(file) != SZ)
        return fault(HARBOUR_REFUSED_MARK, 0);
    if (bytes < SZ_HEAD || bytes - SZ_HEAD < file[MARK])
        return fault(HARBOUR_REFUSED_FILE_END, bytes);
    return look_at_pairs(file, bytes, file[MARK]);
}

static int has_room(harbour_rooms in, const contents *c)
{
    return c->boats <= in.size_room && 2 * c->pairs <= in.pair_room && c->words <= in.row_room;
}

static void fill(harbour_rooms in, const uint8_t *file, const contents *c)
{
    const uint8_t *const sizes = file + SZ_HEAD, *at = sizes + c->boats;
    memcpy(in.sizes, sizes, c->boats);
    for (size_t k = 0; k < c->pairs; k++) {
        const size_t words = sizes[at[MARK]];
        memcpy(in.pairs + 2 * k, at + MARK, 2);
        memcpy(in.rows, at + PR_HEAD, WORD * words);
        in.rows += words;
        at += PR_HEAD + WORD * words;
    }
}

harbour_read_reply plain_read(const uint8_t *file, size_t bytes, harbour_rooms in)
{
    contents c = look_at(file, bytes);
    if (c.answer == HARBOUR_FINE && !has_room(in, &c))
        c = fault(HARBOUR_REFUSED_ROOM, 0);
    if (c.answer != HARBOUR_FINE)
        return (harbour_read_reply){ c.answer, c.place, 0, 0, 0 };
    fill(in, file, &c);
    const harbour_tables t = { in.sizes, c.boats, in.pairs, 2 * c.pairs, in.rows, c.words };
    const harbour_reply examined = plain_examine(&t);
    return (harbour_read_reply){ examined.answer, examined.place, c.boats, 2 * c.pairs, c.words };
}

/* The mark and two bytes after it; gives back where they end. */
static uint8_t *put_head(uint8_t *to, unsigned mark, unsigned after)
{
    const uint32_t four = mark | (uint32_t)after << 16;
    memcpy(to, &four, sizeof four);
    return to + sizeof four;
}

/* SZ has one byte after its mark: the first size goes over the second. */
static void put(uint8_t *to, const harbour_tables *t)
{
    const uint64_t *rows = t->rows;
    put_head(to, SZ, (unsigned)t->n);
    memcpy(to + SZ_HEAD, t->sizes, t->n);
    to += SZ_HEAD + t->n;
    for (size_t k = 0; k < t->pair_bytes; k += 2) {
        const size_t words = t->sizes[t->pairs[k]];
        to = put_head(to, PR, (unsigned)two_bytes(t->pairs + k));
        memcpy(to, rows, WORD * words);
        rows += words;
        to += WORD * words;
    }
    put_head(to, ED, (unsigned)(t->pair_bytes / 2));
}

harbour_written plain_write(harbour_tables t, uint8_t *file, size_t room)
{
    const harbour_reply examined = plain_examine(&t);
    const size_t length = SZ_HEAD + t.n + PR_HEAD * (t.pair_bytes / 2) + WORD * t.row_words + ED_WHOLE;
    if (examined.answer != HARBOUR_FINE)
        return (harbour_written){ examined.answer, examined.place, 0 };
    if (length > room)
        return (harbour_written){ HARBOUR_REFUSED_ROOM, 0, 0 };
    put(file, &t);
    return (harbour_written){ HARBOUR_FINE, 0, length };
}
