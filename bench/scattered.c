/* Tables drawn at random, the same in every run. */
#include "problems.h"

uint64_t seed_of(uint64_t number)
{
    return (number + 1) * 0x9e3779b97f4a7c15ull;
}

uint64_t draw(uint64_t *seed, uint64_t below)
{
    *seed ^= *seed << 13;
    *seed ^= *seed >> 7;
    *seed ^= *seed << 17;
    return *seed % below;
}

void make_scattered(draft *d, size_t boats, size_t size, unsigned listed, unsigned forbidden, uint64_t number)
{
    uint64_t seed = seed_of(number);
    start_draft(d);
    add_boats(d, boats, size);
    for (size_t i = 0; i < boats; i++)
        for (size_t j = i + 1; j < boats; j++) {
            if (draw(&seed, 1000) >= listed)
                continue;
            uint64_t rows[HARBOUR_SLOTS] = { 0 };
            for (size_t a = 0; a < size; a++)
                for (size_t b = 0; b < size; b++)
                    if (draw(&seed, 1000) >= forbidden)
                        rows[a] |= 1ull << b;
            add_pair(d, i, j, rows);
        }
}
