/* One line of problems asked of the library, its reply written as a line, and memory looked after. */
#ifndef ASK_H
#define ASK_H

#include "lent_tables.h"

/* t: examines the tables that all later lines are about. */
void ask_examine(const lent_tables *lent);

/* r METHOD CHECKS TRIALS PLAN_LEN WORK_LEN */
void ask_run(const lent_tables *lent, char *line);

/* p PLAN: the two questions about a given plan. */
void ask_plan(const lent_tables *lent, char *line);

/* s LOWER HIGHER */
void ask_rows(const lent_tables *lent, char *line);

/* w ROOM: the tables written as a file; one that is written is read again. */
void ask_write(const lent_tables *lent, char *line);

/* f FILE SIZES PAIRS ROWS: a file read; one that is not refused is written again. */
void ask_read(char *line);

/* d FILE PLAN SIZES PAIRS ROWS: the desk's question about a file and a plan. */
void ask_desk(char *line);

#endif
