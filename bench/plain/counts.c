/* The counts of docs/RULES.md, "The product index" and "The product-product index", as tables. */

#include "plain.h"

struct plain_counts counts;

/* D by Pascal's triangle. */
static void fill_patterns(void)
{
    for (int l = 0; l <= MOST_LENGTH; l++) {
        counts.patterns[l][0] = 1;
        for (int s = 1; s <= l; s++)
            counts.patterns[l][s] = counts.patterns[l - 1][s - 1] + counts.patterns[l - 1][s];
    }
}

/* S(s,k) is S(s-1,k-1) + S(s,k-1). */
static void fill_shapes(void)
{
    counts.shapes[0][0] = 1;
    for (int s = 1; s <= MOST_LENGTH; s++)
        for (int k = 1; k <= MOST_RADIUS; k++)
            counts.shapes[s][k] = counts.shapes[s - 1][k - 1] + counts.shapes[s][k - 1];
}

/* The fewest bits e with 2^e at least S. */
static void fill_bits(struct plain_order *order)
{
    for (int s = 1; s <= MOST_LENGTH; s++)
        for (int k = 1; k <= MOST_RADIUS; k++)
            while ((uint32_t)1 << order->bits[s][k] < counts.shapes[s][k])
                order->bits[s][k]++;
}

/* The ranges from the top down; where they end is the total. At radius 0 all starts are 0, and the total is 1. */
static void fill_starts(struct plain_order *order, int is_by_fields, int length, int radius)
{
    uint64_t start = 0;
    for (int s = length < radius ? length : radius; s > 0; s--) {
        const uint32_t field = is_by_fields ? (uint32_t)1 << order->bits[s][radius] : counts.shapes[s][radius];
        order->starts[length][radius][s] = start;
        start += (uint64_t)counts.patterns[length][s] * field << s;
    }
    order->starts[length][radius][0] = start;
    order->totals[length][radius] = radius == 0 ? 1 : start;
}

static void fill_usable(struct plain_order *order, int length)
{
    for (int k = 0; k <= MOST_RADIUS && order->totals[length][k] <= TWO_TO_32; k++) {
        order->largest[length] = (uint32_t)k;
        order->powers[length][k] = 1;
        while (order->powers[length][k] < order->totals[length][k])
            order->powers[length][k] *= 2;
    }
}

static void fill_order(struct plain_order *order, int is_by_fields)
{
    fill_bits(order);
    for (int length = 1; length <= MOST_LENGTH; length++) {
        for (int radius = 0; radius <= MOST_RADIUS; radius++)
            fill_starts(order, is_by_fields, length, radius);
        fill_usable(order, length);
    }
}

void plain_begin(void)
{
    fill_patterns();
    fill_shapes();
    fill_order(&counts.orders[BY_SHAPES], 0);
    fill_order(&counts.orders[BY_FIELDS], 1);
}
