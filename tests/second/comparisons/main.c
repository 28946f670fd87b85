/* The second program: compares the calls of probe.h with docs/RULES.md by means of its own, and says what it compared.
   The first difference ends it with status 1. */

#include "../kinds/kinds.h"
#include "comparisons.h"

#include <stdio.h>

/* 10 and 14 are reasons of an unreadable place alone: no call refuses with them. */
static void print_compared(void)
{
    const int refusals[] = {1, 2, 3, 4, 5, 6, 7, 8, 9, 11, 12, 13, 15, 16, 17, 20};
    printf("refused:");
    for (uint64_t i = 0; i < ENTRIES(refusals); i++)
        printf("%s %lu with %d", i > 0 ? "," : "", compared.refusals[refusals[i]], refusals[i]);
    printf("\nagreed: %lu counts, %lu indices, %lu points, ", compared.counts, compared.indices, compared.points);
    printf("%lu pairing tables, %lu quantized vectors, ", compared.tables, compared.vectors);
    printf("%lu taken records, %lu runs of records, ", compared.takes, compared.runs);
    printf("%lu places, %lu coefficients, ", compared.places, compared.coefficients);
    printf("%lu tallies, %lu calls of lines, ", compared.tallies, compared.lines);
    printf("%lu converted pages, %lu books apart, ", compared.conversions, compared.books_apart);
    printf("%lu sent pages and every refusal\n", compared.sends);
}

int main(void)
{
    count_points();
    count_for_ranking();
    compare_examples();
    compare_listing();
    compare_ends();
    compare_random();
    compare_refusals();
    compare_sums();
    require_refusals();
    compare_tables();
    compare_vectors();
    compare_nearest();
    compare_checks();
    require_kinds();
    compare_pages();
    compare_sends();
    print_compared();
    return 0;
}
