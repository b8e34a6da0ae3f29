#include "problems.h"

void make_queens(draft *d, size_t n)
{
    start_draft(d);
    add_boats(d, n, n);
    for (size_t i = 0; i < n; i++)
        for (size_t j = i + 1; j < n; j++) {
            uint64_t rows[HARBOUR_SLOTS] = { 0 };
            for (size_t a = 0; a < n; a++)
                for (size_t b = 0; b < n; b++)
                    if (a != b && a + j != b + i && a + i != b + j)
                        rows[a] |= 1ull << b;
            add_pair(d, i, j, rows);
        }
}
