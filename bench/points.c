/* The index of a point, and the point of an index, by each enumeration: all points of a shell equally likely. */

#include "bench.h"

#include <stdio.h>

typedef uint64_t index_call(uint64_t selector, uint64_t length, uint64_t radius, const int32_t *point, uint64_t point_length);
typedef struct plain_pointing point_call(uint64_t selector, uint64_t length, uint64_t radius, uint64_t index, int32_t *out,
                                         uint64_t out_length);
typedef uint64_t point_item_call(uint64_t selector, uint64_t length, uint64_t radius, uint64_t index, int32_t *out,
                                 uint64_t out_length, uint64_t which);

static struct shell shell; /* the one that is measured */
static uint64_t indices[INPUTS];
static int32_t points[INPUTS][MOST_LENGTH];

static void run_index(any_call *call, uint64_t inputs)
{
    index_call *const index = (index_call *)call;
    for (uint64_t i = 0; i < inputs; i++)
        index(shell.selector, shell.length, shell.radius, points[i], shell.length);
}

static void run_point(any_call *call, uint64_t inputs)
{
    static int32_t out[MOST_LENGTH];
    point_call *const point = (point_call *)call;
    for (uint64_t i = 0; i < inputs; i++)
        point(shell.selector, shell.length, shell.radius, indices[i], out, shell.length);
}

static void run_point_item(any_call *call, uint64_t inputs)
{
    static int32_t out[MOST_LENGTH];
    point_item_call *const point = (point_item_call *)call;
    for (uint64_t i = 0; i < inputs; i++)
        point(shell.selector, shell.length, shell.radius, indices[i], out, shell.length, 0);
}

/* Any index that names a point, and its point, which must lead back. */
static void draw(uint64_t i)
{
    indices[i] = named_index(shell);
    if (agree_on_point(shell, indices[i], shell.length) != 0)
        fail("point", "refused");
    plain_point(shell.selector, shell.length, shell.radius, indices[i], points[i], shell.length);
    if (agree_on_index(shell, points[i], shell.length) != indices[i])
        fail("index", "another than that of the point");
}

static void bench_shell(void)
{
    static const char *const by[SELECTORS] = {[PRODUCT] = "", [MAGNITUDE] = "magnitude ", [PRODUCT_PRODUCT] = "product-product "};
    char what[NAME];
    for (uint64_t i = 0; i < INPUTS; i++)
        draw(i);
    snprintf(what, sizeof what, "%sindex, length %lu, radius %lu", by[shell.selector], shell.length, shell.radius);
    measure((struct rivals){what,
                            {run_index, (any_call *)probe_index, (any_call *)empty_index},
                            {run_index, (any_call *)plain_index, (any_call *)empty_index},
                            COUNTED});
    snprintf(what, sizeof what, "%spoint, length %lu, radius %lu", by[shell.selector], shell.length, shell.radius);
    measure((struct rivals){what,
                            {run_point_item, (any_call *)probe_point, (any_call *)empty_point_item},
                            {run_point, (any_call *)plain_point, (any_call *)empty_point},
                            COUNTED});
}

/* Length 16 with radius 12 is not usable by the product-product enumeration, which has radius 11 there. */
void bench_points(void)
{
    const struct shell shells[] = {
        {2, 32, PRODUCT}, {3, 20, PRODUCT}, {4, 16, PRODUCT}, {4, 32, PRODUCT}, {8, 8, PRODUCT}, {8, 12, PRODUCT},
        {16, 4, PRODUCT}, {16, 6, PRODUCT}, {16, 12, PRODUCT},
        {2, 32, MAGNITUDE}, {4, 16, MAGNITUDE}, {8, 8, MAGNITUDE}, {16, 6, MAGNITUDE}, {16, 12, MAGNITUDE},
        {2, 32, PRODUCT_PRODUCT}, {4, 16, PRODUCT_PRODUCT}, {8, 8, PRODUCT_PRODUCT}, {16, 6, PRODUCT_PRODUCT}, {16, 11, PRODUCT_PRODUCT},
    };
    for (uint64_t i = 0; i < ENTRIES(shells); i++) {
        shell = shells[i];
        bench_shell();
    }
}
