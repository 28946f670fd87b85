/* The figures as Markdown, and which of them are slow. */

#include "bench.h"

#include <stdio.h>
#include <stdlib.h>
#include <string.h>
#include <unistd.h>

#define SLOW 1.25
enum { MOST_SLOW = 100 };

/* A line with a ratio above SLOW, and all such ratios of it. */
struct slow_line {
    char what[NAME];
    char ratios[2 * NAME];
};

static struct slow_line slow_lines[MOST_SLOW];
static int slow;

void fail(const char *what, const char *why)
{
    dprintf(STDERR_FILENO, "%s: %s\n", what, why);
    exit(1);
}

void print_head(void)
{
    printf("| what | ours, instructions | C, instructions | ratio | ours, ns | C, ns | ratio |\n");
    printf("|---|--:|--:|--:|--:|--:|--:|\n");
}

void print_count(double count)
{
    if (count < 0)
        printf(" - |");
    else
        printf(" %.0f |", count);
}

static void remember(const char *what, const char *of, double ratio)
{
    if (slow == 0 || strcmp(slow_lines[slow - 1].what, what) != 0) {
        if (slow == MOST_SLOW)
            fail(what, "too many lines");
        snprintf(slow_lines[slow++].what, NAME, "%s", what);
    }
    char *ratios = slow_lines[slow - 1].ratios;
    const size_t used = strlen(ratios);
    snprintf(ratios + used, sizeof slow_lines->ratios - used, "%s%s %.2f", used > 0 ? "; " : "", of, ratio);
}

/* With two decimals; one that cannot be made is a dash. */
void print_ratio(const char *what, const char *of, double ours, double other)
{
    if (ours < 0 || other <= 0) {
        printf(" - |");
        return;
    }
    printf(" %.2f |", ours / other);
    if (ours > SLOW * other)
        remember(what, of, ours / other);
}

void print_figures(const char *what, struct figures ours, struct figures plain)
{
    printf("| %s |", what);
    print_count(ours.instructions);
    print_count(plain.instructions);
    print_ratio(what, "instructions", ours.instructions, plain.instructions);
    printf(" %.1f | %.1f |", ours.nanoseconds, plain.nanoseconds);
    print_ratio(what, "time", ours.nanoseconds, plain.nanoseconds);
    printf("\n");
}

void print_slow_lines(void)
{
    if (slow == 0)
        printf("\nNo ratio to C is above %.2f.\n", SLOW);
    else
        printf("\nRatios to C above %.2f:\n\n", SLOW);
    for (int i = 0; i < slow; i++)
        printf("- %s: %s\n", slow_lines[i].what, slow_lines[i].ratios);
}
