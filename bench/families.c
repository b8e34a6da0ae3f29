#include "families.h"

enum { QUEENS_LEAST = 8, QUEENS_MOST = 20 };

static void queens(draft *d, unsigned file)
{
    make_queens(d, QUEENS_LEAST + file);
}

/* 20 boats of 10 slots with half of the pairs: 0.384 forbidden leaves one plan in the mean. */
static void crossover(draft *d, unsigned file)
{
    make_scattered(d, 20, 10, 500, 384, 1000 + file);
}

/* 30 boats of 8 slots with 0.4 of the pairs: 0.301 forbidden does. */
static void larger_crossover(draft *d, unsigned file)
{
    make_scattered(d, 30, 8, 400, 301, 1500 + file);
}

/* Sparse tables near their crossover, denser ones of more slots, and the board of 64. */
static void sixty_four(draft *d, unsigned file)
{
    static const struct shape { unsigned size, listed, forbidden; } shapes[] = {
        { 5, 80, 400 }, { 8, 60, 500 }, { 10, 150, 300 }, { 16, 400, 200 }, { 32, 800, 150 },
    };
    const struct shape *of = &shapes[file / 2];
    if (file < 2 * (sizeof shapes / sizeof *shapes))
        make_scattered(d, HARBOUR_BOATS, of->size, of->listed, of->forbidden, 2000 + file);
    else
        make_queens(d, HARBOUR_BOATS);
}

/* Document 01's cases A, B and C, whose searches are next to nothing. */
static void tiny(draft *d, unsigned file)
{
    static const uint64_t apart[] = { 2, 1 };
    start_draft(d);
    add_boats(d, file, file);
    if (file == 2)
        add_pair(d, 0, 1, apart);
}

const family tiny_tables = { "tiny tables", 3, HARBOUR_AMPLE, tiny };

const family families[FAMILIES] = {
    [QUEENS] = { "queens 8 to 20", QUEENS_MOST - QUEENS_LEAST + 1, 30000000, queens },
    { "zebra", 12, 5000000, make_zebra },
    { "crossover 20x10", 8, 5000000, crossover },
    { "crossover 30x8", 8, 5000000, larger_crossover },
    { "64 boats", 11, 5000000, sixty_four },
};

unsigned file_count(void)
{
    unsigned files = 0;
    for (unsigned f = 0; f < FAMILIES; f++)
        files += families[f].files;
    return files;
}
