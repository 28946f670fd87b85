/* Nearest on the shell, by looking at every point: docs/RULES.md, "Quantizing into a record". Vectors by chance are
   quantized in small shells, by each enumeration, and every point of the shell is held against the point of the
   record. */

#include "comparisons.h"

#include <stdio.h>

enum { MOST_POINTS = 2000, VECTORS_OF_SHELL = 100, LEAST_OF_SHELL = 10, SMALL_STEPS = 16, STEPS = 65535 };

static int32_t points[MOST_POINTS][MOST_LENGTH]; /* all that the shell has */
static uint64_t shells, vectors, held, shared;

static void list_points(struct shell shell)
{
    uint64_t listed = 0;
    for (uint64_t index = 0; index < total_of(shell); index++)
        if (names_point(shell, index))
            point_of(shell, index, points[listed++]);
    own_figure("points of a small shell", listed, points_of(shell));
}

/* The record of the call is that of the program's own point: compare_vector has held the one to the other. */
static void hold_points(const struct vector *vector, const struct quantizing *made)
{
    const uint64_t nearest_sum = sum_of_squares(vector, made, made->point);
    uint64_t as_near = 0;
    for (uint64_t i = 0; i < points_of(made->shell); i++) {
        const uint64_t sum = sum_of_squares(vector, made, points[i]);
        if (sum < nearest_sum)
            own_error("a point is nearer than the quantized one", made->shell);
        as_near += sum == nearest_sum;
    }
    if (!is_each_below(vector, made))
        own_error("a difference of the quantized point is A or more", made->shell);
    held += points_of(made->shell);
    shared += as_near > 1;
    vectors++;
}

/* A table of one row with the radius 0 beside that of the shell, one place, and a step by chance. A small step makes
   small sums, at which points are often equally near. */
static struct table table_of(struct shell shell)
{
    struct table table = {ROW_SIZE,
                          {(uint8_t)shell.length, 2, 0, (uint8_t)shell.radius, [AT_PLACES] = 0, 1, (uint8_t)shell.selector}};
    set_two_bytes(table.bytes + AT_STEP, 1 + chance_below(chance_below(2) ? SMALL_STEPS : STEPS));
    return table;
}

static void compare_nearest_in(struct shell shell)
{
    const uint64_t before = vectors;
    if (shell.radius == 0 || points_of(shell) > MOST_POINTS)
        return;
    list_points(shell);
    for (int i = 0; i < VECTORS_OF_SHELL; i++) {
        struct vector vector = {.table = table_of(shell), .books = 1};
        coefficients_by_chance(&vector);
        if (compare_vector(&vector) == 0) {
            const struct quantizing made = quantize(&vector);
            if (made.shell.radius > 0)
                hold_points(&vector, &made);
        }
    }
    require_shell(vectors - before, LEAST_OF_SHELL, "vectors that are quantized at a radius above 0", shell);
    shells++;
}

void compare_nearest(void)
{
    for_each_numbering(compare_nearest_in);
    require_number(shared, 1000, "vectors with another point as near, in shells of points up to", MOST_POINTS);
    printf("nearest: %lu vectors in the %lu shells of up to %d points, with each selector, ", vectors, shells, MOST_POINTS);
    printf("held against %lu points; for %lu vectors another point is as near\n", held, shared);
}
