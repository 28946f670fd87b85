/* The first and the last point of every range of every usable shell, and so of every shell, in each enumeration;
   docs/RULES.md, "The product index", "The magnitude index" and "The product-product index", in the orders that
   listing.c explains. These points are written down directly. In the magnitude enumeration a range has the points with
   one value of the first coordinate. */

#include "comparisons.h"

#include <stdio.h>

static uint64_t shells, range_ends[SELECTORS], empty_ends;

/* s nonzero coordinates as late as can be, the magnitudes 1 but for the last, all positive. */
static void first_of_range(struct shell shell, uint64_t s, int32_t *point)
{
    for (uint64_t i = 0; i < shell.length; i++)
        point[i] = i + s < shell.length ? 0 : 1;
    point[shell.length - 1] = (int32_t)(shell.radius - (s - 1));
}

/* s nonzero coordinates as early as can be, the magnitudes 1 but for the first, all negative. */
static void last_of_range(struct shell shell, uint64_t s, int32_t *point)
{
    for (uint64_t i = 0; i < shell.length; i++)
        point[i] = i < s ? -1 : 0;
    point[0] = -(int32_t)(shell.radius - (s - 1));
}

static void compare_both(struct shell shell, const int32_t *point, uint64_t index)
{
    expect_index(shell, point, shell.length, index);
    expect_point(shell, index, point);
}

/* A range of so many points from `start` on; where the next one begins. */
static uint64_t compare_range(struct shell shell, uint64_t start, uint64_t size, const int32_t *first, const int32_t *last)
{
    compare_both(shell, first, start);
    compare_both(shell, last, start + size - 1);
    range_ends[shell.selector] += 2;
    return start + size;
}

/* The first and the last index without a point, of the first pattern of a range and of the last one. */
static void compare_empty(struct shell shell, uint64_t s)
{
    const struct range range = range_of(shell, s);
    const uint64_t points = range.shapes << s, all = range.field << s, last = range.start + (range.patterns - 1) * all;
    const uint64_t empty[] = {range.start + points, range.start + all - 1, last + points, last + all - 1};
    for (uint64_t i = 0; i < ENTRIES(empty); i++)
        expect_point_refused(shell, empty[i], shell.length, 15);
    empty_ends += ENTRIES(empty);
}

/* The ranges from s = m down to 1: the first begins at 0, and the last ends at the total. The last point of a range has
   the empty shapes of its pattern behind it. */
static uint64_t compare_product(struct shell shell)
{
    uint64_t start = 0;
    for (uint64_t s = most_nonzero(shell); s > 0; s--) {
        int32_t first[MOST_LENGTH], last[MOST_LENGTH];
        const struct range range = range_of(shell, s);
        const uint64_t empty = (range.field - range.shapes) << s;
        first_of_range(shell, s, first);
        last_of_range(shell, s, last);
        start = compare_range(shell, start, range_size(shell, s) - empty, first, last) + empty;
        if (empty > 0)
            compare_empty(shell, s);
    }
    return start;
}

/* The points with one value of the first coordinate, which leaves a sum to the others: at first the last of these has
   all of it, and at last the second coordinate of all, negative. Where there is no other the sum must be 0. */
static uint64_t compare_value(struct shell shell, int32_t value, uint64_t start)
{
    const uint64_t left = shell.radius - magnitude(value), size = points_of((struct shell){shell.length - 1, left, MAGNITUDE});
    int32_t first[MOST_LENGTH] = {value}, last[MOST_LENGTH] = {value};
    if (shell.length > 1) {
        first[shell.length - 1] = (int32_t)left;
        last[1] = -(int32_t)left;
    }
    return size > 0 ? compare_range(shell, start, size, first, last) : start;
}

/* The ranges of 0, 1, -1 and so on up to k and -k. */
static uint64_t compare_magnitude(struct shell shell)
{
    uint64_t start = compare_value(shell, 0, 0);
    for (int32_t value = 1; value <= (int32_t)shell.radius; value++) {
        start = compare_value(shell, value, start);
        start = compare_value(shell, -value, start);
    }
    return start;
}

static void compare_ranges(struct shell shell)
{
    const int32_t zero[MOST_LENGTH] = {0};
    if (shell.radius == 0)
        compare_both(shell, zero, 0);
    else if ((shell.selector == MAGNITUDE ? compare_magnitude : compare_product)(shell) != total_of(shell))
        own_error("its ranges do not add up to the total", shell);
}

static void compare_count(struct shell shell)
{
    if (is_usable(shell)) {
        expect_count(shell, points_of(shell));
        shells++;
    }
}

void compare_ends(void)
{
    for_each_shell(compare_count);
    own_figure("usable shells", shells, 407);
    for_each_numbering(compare_ranges);
    printf("ends: %lu usable shells, %lu, %lu and %lu ends of ranges, ", shells, range_ends[PRODUCT], range_ends[MAGNITUDE],
           range_ends[PRODUCT_PRODUCT]);
    printf("%lu ends of what names no point\n", empty_ends);
}
