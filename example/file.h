/* Tables as a file: written, kept on disk, and read back. */
#ifndef FILE_H
#define FILE_H

#include "problem.h"

typedef struct {
    uint8_t bytes[HARBOUR_FILE];
    size_t length;
} file;

/* Fills the file, keeps it at the path unless that is NULL, and reads it back; gives back whether the tables are the
 * same again. */
int show_file(const problem *of, const char *path, file *made);

#endif
