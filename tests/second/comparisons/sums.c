/* Refusal 5, in every usable shell and in each enumeration: magnitudes that do not sum to k, among them those that
   would where a sum wraps; docs/RULES.md, "Refusal numbers", and "Points and counts": any coordinate may be the lowest
   value there is. */

#include "comparisons.h"

#define LOWEST_MAGNITUDE ((uint64_t)1 << 31)

static void refuse_point(struct shell shell, const int32_t *point)
{
    expect_index(shell, point, shell.length, REFUSED + 5);
}

/* A point of the shell with one coordinate further out by one, or nearer: each coordinate in turn. */
static void refuse_one_off(struct shell shell)
{
    int32_t point[MOST_LENGTH] = {0};
    if (shell.radius > 0)
        point_by_chance(shell, point);
    for (uint64_t i = 0; i < shell.length; i++) {
        const int32_t kept = point[i], out = kept < 0 || (kept == 0 && i % 2) ? -1 : 1;
        point[i] = kept + out;
        refuse_point(shell, point);
        point[i] = kept - out;
        if (kept != 0)
            refuse_point(shell, point);
        point[i] = kept;
    }
}

/* All zeros at a radius above 0; coordinates that sum to k though their magnitudes do not. */
static void refuse_other_readings(struct shell shell)
{
    int32_t point[MOST_LENGTH] = {0};
    if (shell.radius > 0)
        refuse_point(shell, point);
    if (shell.length > 1) {
        point[0] = (int32_t)shell.radius + 1;
        point[shell.length - 1] = -1;
        refuse_point(shell, point);
    }
}

/* One extreme value in `count` coordinates from the first on, or up to the last, and zeros, or ones, in the others. */
static void refuse_extremes(struct shell shell, int32_t extreme, int32_t other)
{
    for (uint64_t count = 1; count <= shell.length; count++) {
        int32_t front[MOST_LENGTH], back[MOST_LENGTH];
        for (uint64_t i = 0; i < shell.length; i++) {
            front[i] = i < count ? extreme : other;
            back[shell.length - 1 - i] = front[i];
        }
        refuse_point(shell, front);
        refuse_point(shell, back);
    }
}

/* Magnitudes with a given sum: as much as a coordinate can hold from the first on, from the last on, or about
   the same in each. */
static void refuse_sum(struct shell shell, uint64_t sum)
{
    uint64_t front[MOST_LENGTH], back[MOST_LENGTH], even[MOST_LENGTH], left = sum;
    int32_t point[MOST_LENGTH];
    for (uint64_t i = 0; i < shell.length; i++) {
        front[i] = left < LOWEST_MAGNITUDE ? left : LOWEST_MAGNITUDE;
        back[shell.length - 1 - i] = front[i];
        even[i] = sum / shell.length + (i < sum % shell.length);
        left -= front[i];
    }
    sign_by_chance(front, shell.length, point);
    refuse_point(shell, point);
    sign_by_chance(back, shell.length, point);
    refuse_point(shell, point);
    sign_by_chance(even, shell.length, point);
    refuse_point(shell, point);
}

/* Sums that are k where a number is cut or wraps: k and a power of two, then k and each multiple of 2^31 up to the
   largest that l coordinates can have. */
static void refuse_wrapping_sums(struct shell shell)
{
    for (uint64_t power = 1; power < LOWEST_MAGNITUDE; power *= 2)
        refuse_sum(shell, power + shell.radius);
    for (uint64_t sum = LOWEST_MAGNITUDE + shell.radius; sum <= shell.length * LOWEST_MAGNITUDE; sum += LOWEST_MAGNITUDE)
        refuse_sum(shell, sum);
}

static void refuse_sums(struct shell shell)
{
    refuse_one_off(shell);
    refuse_other_readings(shell);
    refuse_extremes(shell, INT32_MIN, 0);
    refuse_extremes(shell, INT32_MIN, 1);
    refuse_extremes(shell, INT32_MIN + 1, 0);
    refuse_extremes(shell, INT32_MAX, 0);
    refuse_extremes(shell, INT32_MAX, -1);
    refuse_wrapping_sums(shell);
}

void compare_sums(void)
{
    for_each_numbering(refuse_sums);
}
