#include "files.h"

#include "lines.h"
#include "problems.h"
#include "same.h"
#include "timing.h"

#include <stdio.h>

/* Half of the bits of its rows are set. */
static const struct shape {
    const char *name;
    size_t boats, size;
    unsigned listed; /* in thousandths of the pairs */
    size_t every;    /* how many bytes lie between the places that are tried */
} shapes[] = {
    { "10 boats of 6", 10, 6, 300, 1 },
    { "64 boats of 64", HARBOUR_BOATS, HARBOUR_SLOTS, 1000, 65521 },
};

enum { SHAPES = sizeof shapes / sizeof *shapes, NUMBER = 3000 };

static draft made, read_into;
static file written;

static void read_for_time(const void *f, int side)
{
    const file *from = f;
    readers[side](from->bytes, from->length, rooms_of(&read_into));
}

static void write_for_time(const void *d, int side)
{
    writers[side](((const draft *)d)->made, written.bytes, HARBOUR_FILE);
}

static void measure_file(const struct shape *of)
{
    sums reading = { .jobs = 1 }, writing = { .jobs = 1 };
    time_sides(read_for_time, &written, SIDES, reading.seconds);
    time_sides(write_for_time, &made, SIDES, writing.seconds);
    print_bytes(of->name, "read", written.length, &reading);
    print_bytes(of->name, "write", written.length, &writing);
}

void measure_files(void)
{
    unsigned read = 0, wrote = 0;
    print_bytes_head();
    for (unsigned k = 0; k < SHAPES; k++) {
        make_scattered(&made, shapes[k].boats, shapes[k].size, shapes[k].listed, 500, NUMBER + k);
        wrote += try_writings(&made);
        written.length = harbour_write_t(made.made, written.bytes, HARBOUR_FILE).length;
        read += try_readings(&written, shapes[k].every);
        measure_file(&shapes[k]);
    }
    printf("Replies and all lent memory agree in %u readings and %u writings, most of them refused.\n", read, wrote);
}
