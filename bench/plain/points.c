/* The calls index and point, and which enumeration a selector selects; docs/RULES.md, "Order of checks". */

#include "plain.h"

uint64_t plain_rank(uint64_t selector, uint64_t length, uint64_t radius, const int32_t *point)
{
    if (selector == PRODUCT)
        return plain_product_rank(length, radius, point);
    return selector == MAGNITUDE ? plain_magnitude_rank(length, radius, point) : plain_fields_rank(length, radius, point);
}

/* Whether the index, which is below the total, names a point. */
int plain_unrank(uint64_t selector, uint64_t length, uint64_t radius, uint64_t index, int32_t *out)
{
    if (selector == PRODUCT_PRODUCT)
        return plain_fields_unrank(length, radius, index, out);
    if (selector == PRODUCT)
        plain_product_unrank(length, radius, index, out);
    else
        plain_magnitude_unrank(length, radius, index, out);
    return 1;
}

/* "20, 1, 2, 3". */
static uint32_t refusal_of_shell(uint64_t selector, uint64_t length, uint64_t radius)
{
    if (selector >= SELECTORS)
        return 20;
    if (length - 1 >= MOST_LENGTH)
        return 1;
    if (radius > MOST_RADIUS)
        return 2;
    return radius > order_of(selector)->largest[length] ? 3 : 0;
}

uint64_t plain_index(uint64_t selector, uint64_t length, uint64_t radius, const int32_t *point, uint64_t point_length)
{
    const uint32_t refusal = refusal_of_shell(selector, length, radius);
    if (refusal)
        return REFUSED + refusal;
    return point_length == length ? plain_rank(selector, length, radius, point) : REFUSED + 4;
}

struct plain_pointing plain_point(uint64_t selector, uint64_t length, uint64_t radius, uint64_t index, int32_t *out,
                                  uint64_t out_length)
{
    const uint32_t refusal = refusal_of_shell(selector, length, radius);
    if (refusal)
        return (struct plain_pointing){.refusal = refusal};
    if (out_length != length)
        return (struct plain_pointing){.refusal = 4};
    const uint64_t total = order_of(selector)->totals[length][radius];
    if (index >= total)
        return (struct plain_pointing){6, index - total};
    return (struct plain_pointing){.refusal = plain_unrank(selector, length, radius, index, out) ? 0 : 15};
}
