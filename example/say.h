/* A run's reply in words that a harbour master understands. */
#ifndef SAY_H
#define SAY_H

#include "problem.h"

void say(const problem *of, harbour_reply reply);

#endif
