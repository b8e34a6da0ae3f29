/* What the form that document 01 prescribes for BT and CBJ costs. */
#ifndef FORM_H
#define FORM_H

#include "measure.h"

/* In two lines: on boards of queens, and on all files together with the least on a family. */
void print_form(sums part[][METHODS], const sums *all);

#endif
