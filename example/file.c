#include "file.h"

#include <stdio.h>
#include <string.h>

static int same_tables(harbour_tables one, harbour_tables other) {
    if (one.n != other.n || one.pair_bytes != other.pair_bytes || one.row_words != other.row_words) return 0;
    return memcmp(one.sizes, other.sizes, one.n) == 0 && memcmp(one.pairs, other.pairs, one.pair_bytes) == 0 &&
        memcmp(one.rows, other.rows, one.row_words * sizeof *one.rows) == 0;
}

static int keep(const file *made, const char *path) {
    FILE *const to = fopen(path, "wb");
    if (to == NULL) return 0;
    const size_t kept = fwrite(made->bytes, 1, made->length, to);
    return fclose(to) == 0 && kept == made->length;
}

static int show_kept(const file *made, const char *path) {
    if (path == NULL) return 1;
    const int kept = keep(made, path);
    printf(kept ? "  It is kept in %s.\n" : "  It could NOT be kept in %s.\n", path);
    return kept;
}

static int show_read(const problem *of, const file *made) {
    static draft again;
    const harbour_rooms rooms = rooms_of(&again);
    const harbour_read_reply reply = harbour_read_t(made->bytes, made->length, rooms);
    const int same = same_tables(of->draft.made, harbour_tables_read(rooms, reply));
    printf("  %s.\n", harbour_say_read(reply).text);
    puts(same ? "  They are the tables that were written." : "  They are OTHER tables than were written.");
    return same && reply.answer == HARBOUR_FINE;
}

int show_file(const problem *of, const char *path, file *made) {
    const harbour_written written = harbour_write_t(of->draft.made, made->bytes, sizeof made->bytes);
    made->length = written.length;
    printf("  %s.\n", harbour_say_write(written).text);
    const int kept = show_kept(made, path);
    return show_read(of, made) && kept && written.answer == HARBOUR_FINE;
}
