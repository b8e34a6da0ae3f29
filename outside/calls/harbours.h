/* The cases of docs/01-scope.md as tables. */
#ifndef HARBOURS_H
#define HARBOURS_H

#include "harbour.h"

extern const harbour_tables case_a, case_b, case_c, case_d, case_e, case_f, case_g;

/* Five boats of sizes 3, 2, 2, 1, 2 with pairs 0-2, 1-2, 1-4 and 3-4. */
extern const harbour_tables five_boats;

/* The first boats of a harbour of 64, each of one slot, with all 2,016 pairs listed and allowed. */
harbour_tables crowd(size_t boats, size_t pair_bytes, size_t row_words);

/* The largest harbour: 64 boats of 64 slots, all pairs listed, and rows of which no two are alike. */
harbour_tables fullest(void);

/* So many boats of one size, and no pair. */
harbour_tables lone_boats(size_t boats, uint8_t size);

#endif
