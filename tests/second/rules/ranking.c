/* The total of a shell, the index of a point and the point of an index, by the enumeration that the selector selects;
   docs/RULES.md, "The product index", "The magnitude index" and "The product-product index". */

#include "rules.h"

/* N must be counted before. */
void count_for_ranking(void)
{
    count_patterns_and_shapes();
    count_by_first_values();
}

uint64_t magnitude(int32_t coordinate)
{
    const int64_t wide = coordinate;
    return (uint64_t)(wide < 0 ? -wide : wide);
}

/* How many indices the shell has: N, but by the product-product enumeration. */
uint64_t total_of(struct shell shell)
{
    return shell.selector == PRODUCT_PRODUCT ? product_total(shell) : points_of(shell);
}

/* The point must lie on the shell. */
uint64_t rank(struct shell shell, const int32_t *point)
{
    return (shell.selector == MAGNITUDE ? magnitude_rank : product_rank)(shell, point);
}

/* Whether the index of a point tells which enumeration it is of: in each other one the point has another index. */
int is_index_telling(struct shell shell, const int32_t *point)
{
    const uint64_t index = rank(shell, point);
    int is_telling = 1;
    for (uint64_t selector = 0; selector < SELECTORS; selector++)
        is_telling &= selector == shell.selector || rank((struct shell){shell.length, shell.radius, selector}, point) != index;
    return is_telling;
}

/* The first index from one below the total on that names a point: only an empty shape names none. */
uint64_t next_named(struct shell shell, uint64_t index)
{
    return shell.selector == PRODUCT_PRODUCT ? next_with_shape(shell, index) : index;
}

int names_point(struct shell shell, uint64_t index)
{
    return index < total_of(shell) && next_named(shell, index) == index;
}

/* The index must name a point; the ranking must lead back. */
void point_of(struct shell shell, uint64_t index, int32_t *point)
{
    (shell.selector == MAGNITUDE ? magnitude_point : product_point)(shell, index, point);
    if (rank(shell, point) != index)
        own_error("its point of an index has another index", shell);
}
