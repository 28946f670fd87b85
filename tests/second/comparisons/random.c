/* Indices and points by chance in every usable shell and in each enumeration: the point of an index lies on the shell
   and has that index, or the index has an empty shape; a point is the point of its index; and all agree with the
   ranking of rules/ranking.c. See docs/RULES.md, "The product index", "The magnitude index" and "The product-product
   index". */

#include "comparisons.h"

#include <stdio.h>

enum { INDICES = 10000, POINTS = 2000, EMPTY = 500 };

static uint64_t indices, points, empty;

static void compare_empty(struct shell shell, uint64_t index)
{
    expect_point_refused(shell, index, shell.length, 15);
    empty++;
}

static void compare_index(struct shell shell, uint64_t index)
{
    int32_t point[MOST_LENGTH];
    if (!names_point(shell, index)) {
        compare_empty(shell, index);
        return;
    }
    read_point(shell, index, point);
    if (!is_on_shell(shell, point))
        wrong_point(shell, index, point, "a point that is not on the shell");
    if (rank(shell, point) != index)
        wrong_point(shell, index, point, "a point of another index");
    expect_index(shell, point, shell.length, index);
    indices++;
}

static void compare_point(struct shell shell)
{
    int32_t point[MOST_LENGTH] = {0};
    if (shell.radius > 0)
        point_by_chance(shell, point);
    uint64_t index = rank(shell, point);
    expect_index(shell, point, shell.length, index);
    expect_point(shell, index, point);
    points++;
}

static void compare_shell(struct shell shell)
{
    for (int i = 0; i < INDICES; i++)
        compare_index(shell, chance_below(total_of(shell)));
    for (int i = 0; i < POINTS; i++)
        compare_point(shell);
    for (int i = 0; i < EMPTY && has_empty_shapes(shell); i++)
        compare_empty(shell, empty_by_chance(shell));
}

void compare_random(void)
{
    for_each_numbering(compare_shell);
    printf("random: %lu indices, %lu points, %lu empty shapes\n", indices, points, empty);
}
