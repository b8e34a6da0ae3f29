/* Source 000's zebra: 25 boats, 61 pairs, 11 plans. A slot is a house, from the first that the boat may take on. */
#include "problems.h"

enum { THINGS = 25, HOUSES = 5 };

enum {
    RED, BLUE, YELLOW, GREEN, IVORY,
    OLD_GOLD, PARLIAMENT, KOOLS, LUCKY, CHESTERFIELD,
    NORWEGIAN, UKRAINIAN, ENGLISHMAN, SPANIARD, JAPANESE,
    ZEBRA, DOG, HORSE, FOX, SNAILS,
    COFFEE, TEA, WATER, MILK, ORANGE_JUICE
};

typedef enum { FREE, SAME, NEXT, RIGHT_OF, LEFT_OF, DIFFERENT } relation;

static const struct { uint8_t one, other, relation; } clues[] = {
    { ENGLISHMAN, RED, SAME },     { SPANIARD, DOG, SAME },        { COFFEE, GREEN, SAME },
    { UKRAINIAN, TEA, SAME },      { GREEN, IVORY, RIGHT_OF },     { OLD_GOLD, SNAILS, SAME },
    { KOOLS, YELLOW, SAME },       { CHESTERFIELD, FOX, NEXT },    { KOOLS, HORSE, NEXT },
    { LUCKY, ORANGE_JUICE, SAME }, { JAPANESE, PARLIAMENT, SAME }, { NORWEGIAN, BLUE, NEXT },
};

/* A clue takes the place of the difference within a group. */
static relation between(size_t one, size_t other)
{
    for (size_t k = 0; k < sizeof clues / sizeof *clues; k++) {
        if (clues[k].one == one && clues[k].other == other)
            return clues[k].relation;
        if (clues[k].one == other && clues[k].other == one)
            return clues[k].relation == RIGHT_OF ? LEFT_OF : clues[k].relation;
    }
    return one / HOUSES == other / HOUSES ? DIFFERENT : FREE;
}

static int holds(relation r, int one, int other)
{
    switch (r) {
    case SAME: return one == other;
    case NEXT: return one == other + 1 || other == one + 1;
    case RIGHT_OF: return one > other;
    case LEFT_OF: return one < other;
    case DIFFERENT: return one != other;
    default: return 1;
    }
}

/* Milk is in the middle house and the Norwegian in the first (the source has 1 for his number, 11); others in any. */
static int first_house(size_t thing)
{
    return thing == MILK ? 2 : 0;
}

static size_t houses_of(size_t thing)
{
    return thing == MILK || thing == NORWEGIAN ? 1 : HOUSES;
}

static void shuffle(uint8_t *things, uint64_t seed)
{
    for (size_t k = THINGS - 1; k > 0; k--) {
        size_t with = draw(&seed, k + 1);
        uint8_t held = things[k];
        things[k] = things[with];
        things[with] = held;
    }
}

void make_zebra(draft *d, unsigned order)
{
    uint8_t thing[THINGS];
    start_draft(d);
    for (size_t i = 0; i < THINGS; i++)
        thing[i] = (uint8_t)i;
    if (order)
        shuffle(thing, seed_of(order));
    for (size_t i = 0; i < THINGS; i++)
        add_boats(d, 1, houses_of(thing[i]));
    for (size_t i = 0; i < THINGS; i++)
        for (size_t j = i + 1; j < THINGS; j++) {
            relation r = between(thing[i], thing[j]);
            if (r == FREE)
                continue;
            uint64_t rows[HOUSES] = { 0 };
            for (int a = 0; a < d->sizes[i]; a++)
                for (int b = 0; b < d->sizes[j]; b++)
                    if (holds(r, first_house(thing[i]) + a, first_house(thing[j]) + b))
                        rows[a] |= 1ull << b;
            add_pair(d, i, j, rows);
        }
}
