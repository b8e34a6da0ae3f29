/* The proved library beside plain C, on the same problems in one run, and on the same files of tables. With the word
   "each", a line a problem too; with the word "files", the files alone. */
#include "families.h"
#include "files.h"
#include "form.h"
#include "lines.h"

#include <stdio.h>
#include <stdlib.h>
#include <string.h>

static draft problem;

/* Sums for each method; a line for each file where each is one. */
static void measure_family(const family *f, runner *const *by, line *each, sums *part)
{
    for (unsigned file = 0; file < f->files; file++) {
        char name[24];
        snprintf(name, sizeof name, "  file %u", file);
        f->make(&problem, file);
        for (uint64_t m = HARBOUR_BT; m < METHODS; m++) {
            sums s = measured(&(job){ f->name, file, &problem, m, f->allowance, by });
            if (each)
                each(name, method_name[m], &s);
            add(&part[m], &s);
        }
    }
}

/* Source 000 gives 61 pairs and 11 plans; a search must find the first of them. */
static void try_zebra(void)
{
    uint8_t first[HARBOUR_BOATS] = { 0 };
    make_zebra(&problem, 0);
    size_t pairs = problem.made.pair_bytes / 2;
    uint64_t plans = count_plans(&problem.made, first);
    outcome o = agreed(&(job){ "zebra", 0, &problem, HARBOUR_BT, HARBOUR_AMPLE, searches });
    if (pairs != 61 || plans != 11 || o.reply.answer != HARBOUR_SOLVED || memcmp(first, o.plan, sizeof first) != 0) {
        printf("DIFFER: the zebra has %zu pairs and %llu plans\n", pairs, (unsigned long long)plans);
        exit(1);
    }
    printf("The zebra has 61 pairs and 11 plans; the first of them is found.\n\n");
}

/* Sums over each family and over all, and the largest ratio on any, for each method. */
static void measure_families(int each, sums part[][METHODS], sums *all, double *largest)
{
    for (unsigned f = 0; f < FAMILIES; f++) {
        measure_family(&families[f], searches, each ? print_searches : NULL, part[f]);
        for (uint64_t m = HARBOUR_BT; m < METHODS; m++) {
            print_searches(families[f].name, method_name[m], &part[f][m]);
            add(&all[m], &part[f][m]);
            if (larger_ratio(&part[f][m]) > largest[m])
                largest[m] = larger_ratio(&part[f][m]);
        }
    }
}

/* What a call costs besides the search, whatever the method. */
static sums measure_tiny(int each)
{
    sums part[METHODS] = { 0 }, tiny = { 0 };
    measure_family(&tiny_tables, calls, each ? print_calls : NULL, part);
    for (uint64_t m = HARBOUR_BT; m < METHODS; m++)
        add(&tiny, &part[m]);
    return tiny;
}

static void measure_searches(int each)
{
    sums part[FAMILIES][METHODS] = { 0 }, all[METHODS] = { 0 };
    double largest[METHODS] = { 0 };
    try_zebra();
    print_head();
    measure_families(each, part, all, largest);
    printf("\n");
    for (uint64_t m = HARBOUR_BT; m < METHODS; m++)
        print_searches("all together", method_name[m], &all[m]);
    printf("\n");
    const sums tiny = measure_tiny(each);
    print_calls(tiny_tables.name, "all", &tiny);
    printf("\nAnswers, counts and plans agree in all %u files and %u tiny ones.\n", file_count(), tiny_tables.files);
    print_larger(all, largest, &tiny);
    print_form(part, all);
    printf("\n");
}

int main(int count, char **word)
{
    const char *const said = count > 1 ? word[1] : "";
    print_compilers();
    if (strcmp(said, "files") != 0)
        measure_searches(strcmp(said, "each") == 0);
    measure_files();
    return 0;
}
