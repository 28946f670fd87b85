/* The magnitude enumeration, docs/RULES.md, "The magnitude index": the index of a point by counting the points that
   come before it, and the point of an index by counting them off. Points are counted by the values of their first
   coordinate, one value after the other: neither the recurrence of N nor a difference of two N is used. */

#include "rules.h"

static uint64_t points[MOST_LENGTH + 1][MOST_RADIUS + 1]; /* by length and sum of the magnitudes */

/* The value with that number, of 0, 1, -1, 2, -2 and so on. */
static int32_t value_at(uint64_t number)
{
    const int32_t size = (int32_t)((number + 1) / 2);
    return number % 2 ? size : -size;
}

/* The points of that length and sum whose first coordinate has that value. */
static uint64_t points_with(uint64_t length, uint64_t sum, int32_t first)
{
    return points[length - 1][sum - magnitude(first)];
}

static void count_length(uint64_t length)
{
    for (uint64_t sum = 0; sum <= MOST_RADIUS; sum++) {
        const struct shell shell = {length, sum, MAGNITUDE};
        for (uint64_t number = 0; number <= 2 * sum; number++)
            points[length][sum] += points_with(length, sum, value_at(number));
        if (points[length][sum] != points_of(shell))
            own_error("its points, counted by first coordinates, are not N", shell);
    }
}

/* Of no coordinates there is one point, and its sum is 0. */
void count_by_first_values(void)
{
    points[0][0] = 1;
    for (uint64_t length = 1; length <= MOST_LENGTH; length++)
        count_length(length);
}

/* At each coordinate those that agree so far and have an earlier value here. */
uint64_t magnitude_rank(struct shell shell, const int32_t *point)
{
    uint64_t before = 0, sum = shell.radius;
    for (uint64_t i = 0; i < shell.length; i++) {
        for (uint64_t number = 0; value_at(number) != point[i]; number++)
            before += points_with(shell.length - i, sum, value_at(number));
        sum -= magnitude(point[i]);
    }
    return before;
}

/* Each coordinate has the value that is left when the points with earlier ones are counted off. */
void magnitude_point(struct shell shell, uint64_t index, int32_t *point)
{
    uint64_t left = index, sum = shell.radius;
    for (uint64_t i = 0; i < shell.length; i++) {
        uint64_t number = 0;
        for (; left >= points_with(shell.length - i, sum, value_at(number)); number++)
            left -= points_with(shell.length - i, sum, value_at(number));
        point[i] = value_at(number);
        sum -= magnitude(point[i]);
    }
}
