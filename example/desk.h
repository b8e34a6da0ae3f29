/* The desk: it is handed a file and a plan, and wants one number. */
#ifndef DESK_H
#define DESK_H

#include "file.h"

/* The plan, and one with a boat in another's berth; gives back whether the first alone is lawful. */
int show_plans(const problem *of, const file *kept, const uint8_t *plan);

/* The file cut short, and with one byte changed; gives back whether each is refused as it should be. */
int show_bad_files(const problem *of, const file *kept, const uint8_t *plan);

#endif
