#include "lines.h"

#include <stdio.h>

void print_head(void)
{
    printf("%-47s", "");
    for (int side = LIBRARY; side < SIDES; side++)
        printf(" %11s, ns a", side_name[side]);
    printf("  library over\n%-16s %-6s %11s %11s", "family", "method", "checks", "trials");
    for (int side = LIBRARY; side < SIDES; side++)
        printf(" %8s %8s", "check", "trial");
    for (int side = GCC; side < SIDES; side++)
        printf(" %6s", side_name[side]);
    printf(" %6s\n", "larger");
}

static void print_ratios(const sums *s)
{
    for (int side = GCC; side < SIDES; side++)
        printf(" %6.2f", ratio(s, side));
    printf(" %6.2f\n", larger_ratio(s));
    fflush(stdout);
}

void print_searches(const char *name, const char *method, const sums *s)
{
    printf("%-16s %-6s %11llu %11llu", name, method, (unsigned long long)s->checks, (unsigned long long)s->trials);
    for (int side = LIBRARY; side < SIDES; side++)
        printf(" %8.2f %8.2f", 1e9 * s->seconds[side] / (double)s->checks, 1e9 * s->seconds[side] / (double)s->trials);
    print_ratios(s);
}

void print_calls(const char *name, const char *method, const sums *s)
{
    printf("%-16s %-6s %11llu %11llu", name, method, (unsigned long long)s->checks, (unsigned long long)s->trials);
    for (int side = LIBRARY; side < SIDES; side++)
        printf(" %12.1f call", 1e9 * s->seconds[side] / s->jobs);
    print_ratios(s);
}

void print_bytes_head(void)
{
    printf("%-35s %*s  library over\n%-16s %-6s %11s", "", 9 * SIDES, "MB a second", "file", "way", "bytes");
    for (int side = LIBRARY; side < SIDES; side++)
        printf(" %8s", side_name[side]);
    for (int side = GCC; side < SIDES; side++)
        printf(" %6s", side_name[side]);
    printf(" %6s\n", "larger");
}

void print_bytes(const char *name, const char *way, size_t bytes, const sums *s)
{
    printf("%-16s %-6s %11zu", name, way, bytes);
    for (int side = LIBRARY; side < SIDES; side++)
        printf(" %8.1f", 1e-6 * (double)bytes / s->seconds[side]);
    print_ratios(s);
}

void print_larger(const sums *all, const double *largest, const sums *tiny)
{
    printf("Larger ratio, all files together / largest on a family:");
    for (uint64_t m = HARBOUR_BT; m < METHODS; m++)
        printf(" %s %.2f / %.2f,", method_name[m], larger_ratio(&all[m]), largest[m]);
    printf(" tiny tables %.2f\n", larger_ratio(tiny));
}
