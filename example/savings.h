/* Every method on one harbour, and what each saved against the plain method that it is held to. */
#ifndef SAVINGS_H
#define SAVINGS_H

#include "problem.h"

/* Writes the first method's plan; gives back whether every method found it and none spent more. */
int show_savings(const problem *of, uint8_t *plan);

#endif
