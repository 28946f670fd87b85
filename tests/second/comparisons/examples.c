/* The points and counts that docs/RULES.md gives, under "Points and counts" and "Worked cases", and more of selector 2.
   They also hold the program's own ranking to that page. */

#include "comparisons.h"

#include <stdio.h>

static const struct {
    struct shell shell;
    int32_t point[4];
    uint64_t index;
} points[] = {
    {{3, 2, PRODUCT}, {0, 1, 1}, 0},
    {{3, 2, PRODUCT}, {1, 0, -1}, 5},
    {{3, 2, PRODUCT}, {-1, 0, -1}, 7},
    {{3, 2, PRODUCT}, {-1, -1, 0}, 11},
    {{3, 2, PRODUCT}, {0, 0, 2}, 12},
    {{3, 2, PRODUCT}, {-2, 0, 0}, 17},
    {{2, 3, PRODUCT}, {1, 2}, 0},
    {{2, 3, PRODUCT}, {2, -1}, 5},
    {{2, 3, PRODUCT}, {-3, 0}, 11},
    {{1, 5, PRODUCT}, {-5}, 1},
    {{4, 0, PRODUCT}, {0, 0, 0, 0}, 0},
    {{3, 2, MAGNITUDE}, {0, 0, 2}, 0},
    {{3, 2, MAGNITUDE}, {0, 0, -2}, 1},
    {{3, 2, MAGNITUDE}, {0, -2, 0}, 7},
    {{3, 2, MAGNITUDE}, {1, 0, 1}, 8},
    {{3, 2, MAGNITUDE}, {1, 0, -1}, 9},
    {{3, 2, MAGNITUDE}, {-2, 0, 0}, 17},
    {{4, 5, MAGNITUDE}, {1, 1, -2, 1}, 126},
    {{4, 5, MAGNITUDE}, {-1, 0, 3, -1}, 179},
    {{4, 5, MAGNITUDE}, {-3, 0, 1, -1}, 331},
    {{4, 0, MAGNITUDE}, {0, 0, 0, 0}, 0},
    {{3, 2, PRODUCT_PRODUCT}, {1, 0, -1}, 5},
    {{2, 4, PRODUCT_PRODUCT}, {1, 3}, 0},
    {{2, 4, PRODUCT_PRODUCT}, {-3, -1}, 11},
    {{2, 4, PRODUCT_PRODUCT}, {0, 4}, 16},
    {{2, 4, PRODUCT_PRODUCT}, {-4, 0}, 19},
    {{3, 4, PRODUCT_PRODUCT}, {2, -1, 1}, 18},
    {{3, 4, PRODUCT_PRODUCT}, {0, 1, -3}, 33},
    {{3, 4, PRODUCT_PRODUCT}, {1, -3, 0}, 65},
    {{3, 4, PRODUCT_PRODUCT}, {0, 0, -4}, 81},
    {{4, 0, PRODUCT_PRODUCT}, {0, 0, 0, 0}, 0},
};

static const struct {
    struct shell shell;
    uint64_t answer;
} counts[] = {
    {{2, 3, PRODUCT}, 12},
    {{3, 2, PRODUCT}, 18},
    {{4, 0, PRODUCT}, 1},
    {{16, 12, PRODUCT}, 3575055360},
    {{16, 13, PRODUCT}, REFUSED + 3},
    {{0, 2, PRODUCT}, REFUSED + 1},
    {{17, 2, PRODUCT}, REFUSED + 1},
    {{3, 33, PRODUCT}, REFUSED + 2},
};

/* Indices of length 3 and radius 2 that are past the end in each enumeration, and their distances. */
static const struct {
    uint64_t index;
    uint64_t distance;
} past_end[] = {{18, 0}, {20, 2}};

/* Totals of the product-product enumeration, up to the largest of each length from 8 on; the last four are above 2^32,
   though N is not. */
static const struct {
    uint64_t length;
    uint64_t radius;
    uint64_t total;
} totals[] = {
    {4, 0, 1},
    {1, 5, 2},
    {3, 2, 18},
    {2, 4, 20},
    {3, 4, 86},
    {8, 32, 2685373968},
    {9, 26, 3916648978},
    {10, 21, 3749500564},
    {11, 18, 3743662998},
    {12, 16, 3752419480},
    {13, 14, 2536205210},
    {14, 13, 2359858908},
    {15, 12, 2383620190},
    {16, 11, 1482612256},
    {9, 27, 5476930066},
    {10, 22, 4909225620},
    {13, 15, 4813581210},
    {16, 12, 4953210400},
};

static void compare_totals(void)
{
    for (uint64_t i = 0; i < ENTRIES(totals); i++) {
        const struct shell shell = {totals[i].length, totals[i].radius, PRODUCT_PRODUCT};
        own_figure("total of an example", total_of(shell), totals[i].total);
        expect_point_refused(shell, totals[i].total, shell.length, totals[i].total <= TWO_TO_32 ? 6 : 3);
    }
}

void compare_examples(void)
{
    for (uint64_t i = 0; i < ENTRIES(points); i++) {
        if (rank(points[i].shell, points[i].point) != points[i].index)
            own_error("its ranking and an example of the rules differ", points[i].shell);
        expect_index(points[i].shell, points[i].point, points[i].shell.length, points[i].index);
        expect_point(points[i].shell, points[i].index, points[i].point);
    }
    for (uint64_t i = 0; i < ENTRIES(counts); i++)
        expect_count(counts[i].shell, counts[i].answer);
    for (uint64_t i = 0; i < ENTRIES(past_end); i++)
        for (uint64_t selector = 0; selector < SELECTORS; selector++) {
            const struct shell shell = {3, 2, selector};
            own_figure("distance of an example", distance_of(shell, past_end[i].index), past_end[i].distance);
            expect_point_refused(shell, past_end[i].index, 3, 6);
        }
    compare_totals();
    printf("examples: %lu points, %lu counts, %lu distances, %lu totals\n", ENTRIES(points), ENTRIES(counts), ENTRIES(past_end),
           ENTRIES(totals));
}
