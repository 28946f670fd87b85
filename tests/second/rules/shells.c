/* The shells and N, by the recurrence of docs/RULES.md, "Points and counts", and which of them are usable; and the
   errors of a test itself. */

#include "rules.h"

#include <stdio.h>
#include <stdlib.h>

static uint64_t table[MOST_LENGTH + 1][MOST_RADIUS + 1];

/* Fills the table of N(l,k), from l = 0 on, where the recurrence ends. */
void count_points(void)
{
    for (int l = 0; l <= MOST_LENGTH; l++)
        table[l][0] = 1;
    for (int k = 1; k <= MOST_RADIUS; k++)
        table[0][k] = 0;
    for (int l = 1; l <= MOST_LENGTH; l++)
        for (int k = 1; k <= MOST_RADIUS; k++)
            table[l][k] = table[l][k - 1] + table[l - 1][k] + table[l - 1][k - 1];
}

uint64_t points_of(struct shell shell)
{
    return table[shell.length][shell.radius];
}

/* By the total of its own enumeration. */
int is_usable(struct shell shell)
{
    return total_of(shell) <= TWO_TO_32;
}

/* The largest radius with which a length is usable by that selector. */
uint64_t largest_radius(uint64_t length, uint64_t selector)
{
    uint64_t largest = MOST_RADIUS;
    while (!is_usable((struct shell){length, largest, selector}))
        largest--;
    return largest;
}

/* 2^b for a total: "the least number of bits with 2^b at least T. The widths of 0 and of 1 are 0." */
uint64_t least_power_from(uint64_t n)
{
    uint64_t power = 1;
    while (power < n)
        power *= 2;
    return power;
}

/* m, the smaller of l and k: the most coordinates that can be nonzero. */
uint64_t most_nonzero(struct shell shell)
{
    return shell.length < shell.radius ? shell.length : shell.radius;
}

/* Lengths 1 to 16, radii 0 to 32. */
void for_each_shell(visit_shell *visit)
{
    for (uint64_t length = 1; length <= MOST_LENGTH; length++)
        for (uint64_t radius = 0; radius <= MOST_RADIUS; radius++)
            visit((struct shell){length, radius, PRODUCT});
}

/* Each enumeration with each shell that is usable by it. */
void for_each_numbering(visit_shell *visit)
{
    for (uint64_t length = 1; length <= MOST_LENGTH; length++)
        for (uint64_t radius = 0; radius <= MOST_RADIUS; radius++)
            for (uint64_t selector = 0; selector < SELECTORS; selector++)
                if (is_usable((struct shell){length, radius, selector}))
                    visit((struct shell){length, radius, selector});
}

void own_error(const char *what, struct shell shell)
{
    printf("the test itself, length %lu, radius %lu, selector %lu: %s\n", shell.length, shell.radius, shell.selector, what);
    exit(1);
}

void own_figure(const char *what, uint64_t figure, uint64_t known)
{
    if (figure != known) {
        printf("the test itself, %s: expected %lu, got %lu\n", what, known, figure);
        exit(1);
    }
}
