/* What guards.c goes through. The C files here are C and C++ at once. */
#ifndef GUARDS_H
#define GUARDS_H

/* Each slip for each pointer of each guarded function. */
void slips(void);

/* Parts anywhere, held to what another way of reckoning finds at fault. */
void anywhere(void);

/* Each reply as an English line. */
void lines(void);

#endif
