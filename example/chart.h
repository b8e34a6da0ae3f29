/* A port and its plan, drawn on the terminal. */
#ifndef CHART_H
#define CHART_H

#include "problem.h"

/* The boats, their hours and needs, and what each rule shuts out. */
void draw_port(const problem *of);

/* The name of the boat that the plan has there, or a dot. */
const char *boat_at(const problem *of, const uint8_t *plan, int hour, int quay);

/* Hours down, quays across, and the boats in their berths. */
void draw_plan(const problem *of, const uint8_t *plan);

#endif
