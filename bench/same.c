#include "same.h"

#include "sides.h"

#include <stdio.h>
#include <stdlib.h>
#include <string.h>

enum { UNTOUCHED = 0xa5, FIRST_PLACES = 24, LAST_PLACES = 8 };

/* Of the memory lent for tables. */
typedef struct {
    size_t sizes, pairs, rows;
} lengths;

static const lengths ample = { HARBOUR_BOATS, 2 * HARBOUR_PAIRS, HARBOUR_ROWS };

/* What a reading leaves: the reply, and all memory that was or might have been lent. */
typedef struct {
    harbour_read_reply reply;
    draft in;
} reading;

typedef struct {
    harbour_written reply;
    file out;
} writing;

static void differ(const char *what, int side, uint64_t library, uint64_t plain)
{
    printf("DIFFER: %s: answer %llu by the library and %llu by %s, or other memory\n", what,
           (unsigned long long)library, (unsigned long long)plain, side_name[side]);
    exit(1);
}

static void read_by(int side, const file *f, lengths lent, reading *left)
{
    draft *in = &left->in;
    memset(left, UNTOUCHED, sizeof *left);
    left->reply = readers[side](f->bytes, f->length, (harbour_rooms){ in->sizes, lent.sizes, in->pairs, lent.pairs,
                                                                      in->rows, lent.rows });
}

static harbour_read_reply try_reading(const file *f, lengths lent)
{
    static reading library, plain;
    read_by(LIBRARY, f, lent, &library);
    for (int side = GCC; side < SIDES; side++) {
        read_by(side, f, lent, &plain);
        if (memcmp(&library, &plain, sizeof plain) != 0)
            differ("a file read", side, library.reply.answer, plain.reply.answer);
    }
    return library.reply;
}

/* The exact fit, and each room short of it by one. */
static unsigned try_rooms(const file *f)
{
    const harbour_read_reply r = try_reading(f, ample);
    const lengths fit = { r.boats, r.pair_bytes, r.row_words };
    try_reading(f, fit);
    try_reading(f, (lengths){ fit.sizes - 1, fit.pairs, fit.rows });
    try_reading(f, (lengths){ fit.sizes, fit.pairs - 1, fit.rows });
    try_reading(f, (lengths){ fit.sizes, fit.pairs, fit.rows - 1 });
    return 5;
}

/* Cut before a place, and with one bit of its byte changed. */
static void try_place(file *f, size_t place)
{
    const size_t whole = f->length;
    const uint8_t bit = (uint8_t)(1 << place % 8);
    f->length = place;
    try_reading(f, ample);
    f->length = whole;
    f->bytes[place] ^= bit;
    try_reading(f, ample);
    f->bytes[place] ^= bit;
}

unsigned try_readings(file *f, size_t every)
{
    unsigned tried = try_rooms(f) + 1;
    f->bytes[f->length++] = 0;
    try_reading(f, ample);
    f->length--;
    for (size_t place = 0; place < f->length; place++) {
        if (place >= FIRST_PLACES && place + LAST_PLACES < f->length && place % every)
            continue;
        try_place(f, place);
        tried += 2;
    }
    return tried;
}

static void write_by(int side, harbour_tables t, size_t room, writing *left)
{
    memset(left, UNTOUCHED, sizeof *left);
    left->reply = writers[side](t, left->out.bytes, room);
}

static harbour_written try_writing(harbour_tables t, size_t room)
{
    static writing library, plain;
    write_by(LIBRARY, t, room, &library);
    for (int side = GCC; side < SIDES; side++) {
        write_by(side, t, room, &plain);
        if (memcmp(&library, &plain, sizeof plain) != 0)
            differ("a file written", side, library.reply.answer, plain.reply.answer);
    }
    return library.reply;
}

unsigned try_writings(draft *d)
{
    const size_t length = try_writing(d->made, HARBOUR_FILE).length;
    try_writing(d->made, length);
    try_writing(d->made, length - 1);
    d->pairs[0] ^= d->pairs[1];
    try_writing(d->made, length);
    d->pairs[0] ^= d->pairs[1];
    d->made.row_words--;
    try_writing(d->made, length);
    d->made.row_words++;
    return 5;
}
