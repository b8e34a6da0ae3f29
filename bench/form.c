#include "form.h"

#include "families.h"

#include <stdio.h>

static void print_ratios(const sums *of)
{
    for (uint64_t m = HARBOUR_BT; m <= HARBOUR_CBJ; m++) {
        printf("%s %s", m == HARBOUR_BT ? "" : ";", method_name[m]);
        for (int side = GCC; side < SIDES; side++)
            printf("%s %.1f by %s", side == GCC ? "" : ",", form_ratio(&of[m], side), side_name[side]);
    }
}

/* Below 1 the form costs nothing: whole words take longer. */
static void print_least(sums part[][METHODS], uint64_t method)
{
    unsigned least = QUEENS;
    int by = GCC;
    for (unsigned f = QUEENS; f < FAMILIES; f++)
        for (int side = GCC; side < SIDES; side++)
            if (form_ratio(&part[f][method], side) < form_ratio(&part[least][method], by)) {
                least = f;
                by = side;
            }
    printf(" %s %.1f by %s on %s", method_name[method], form_ratio(&part[least][method], by), side_name[by],
           families[least].name);
}

void print_form(sums part[][METHODS], const sums *all)
{
    printf("What the prescribed form costs, on %s: plain C slot by slot over plain C by whole words,",
           families[QUEENS].name);
    print_ratios(part[QUEENS]);
    printf(".\nThe same on all files together:");
    print_ratios(all);
    printf("; least on a family:");
    print_least(part, HARBOUR_BT);
    printf(",");
    print_least(part, HARBOUR_CBJ);
    printf(".\n");
}
