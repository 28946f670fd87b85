/* The product enumeration and the product-product enumeration; docs/RULES.md, "The product index" and "The
   product-product index". Each function is compiled for both: what it makes of a field is known then. */

#include "plain.h"

/* In one pass from the last coordinate, where s and the sum of what stands behind are at hand; refused 5 if the sum is
   not the radius. */
static inline uint64_t rank_by(int by, uint64_t length, uint64_t radius, const int32_t *point)
{
    const struct plain_order *order = &counts.orders[by];
    const uint32_t(*patterns)[MOST_LENGTH + 1] = counts.patterns;
    const uint32_t(*shapes)[MOST_RADIUS + 1] = counts.shapes;
    uint64_t s = 0, sum = 0, sign = 0;
    uint32_t pattern = 0, shape = 0;
    for (const int32_t *at = point + length; at > point; patterns++) {
        const int64_t c = *--at;
        if (c != 0) {
            const uint64_t magnitude = (uint64_t)(c < 0 ? -c : c);
            if (magnitude > radius - sum)
                return REFUSED + 5;
            sign |= (uint64_t)(c < 0) << s;
            s++;
            shapes++;
            pattern += (*patterns)[s];
            shape -= (*shapes)[sum + 1];
            sum += magnitude;
            shape += (*shapes)[sum];
        }
    }
    if (sum != radius)
        return REFUSED + 5;
    const uint64_t patterns_before = by == BY_FIELDS ? (uint64_t)pattern << order->bits[s][radius] : (uint64_t)pattern * (*shapes)[radius];
    return order->starts[length][radius][s] + ((patterns_before + shape) << s) + sign;
}

/* The index must be below the total; an empty shape writes nothing, and is told by 0. A magnitude i is the largest with
   S(s,k) - S(s,k-i+1) up to the shape; the last one is what is left. */
static inline int unrank_by(int by, uint64_t length, uint64_t radius, uint64_t index, int32_t *out)
{
    const uint32_t(*patterns)[MOST_LENGTH + 1] = counts.patterns + length;
    const uint64_t *starts = counts.orders[by].starts[length][radius];
    uint64_t s = length < radius ? length : radius, sum = radius;
    uint32_t pattern = 0, shape = 0;
    while (s > 0 && index >= starts[s - 1])
        s--;
    const uint64_t sign = index - starts[s];
    if (s > 0) {
        const uint32_t block = (uint32_t)(sign >> s), all = counts.shapes[s][radius], bits = counts.orders[by].bits[s][radius];
        pattern = by == BY_FIELDS ? block >> bits : block / all;
        shape = by == BY_FIELDS ? block - (pattern << bits) : block % all;
        if (by == BY_FIELDS && shape >= all)
            return 0;
    }
    for (const int32_t *end = out + length; out < end; out++) {
        const uint32_t zeros = (*--patterns)[s];
        *out = 0;
        if (pattern >= zeros) {
            const uint32_t *shapes = counts.shapes[s], least = shapes[sum] - shape;
            uint64_t k = s > 1 ? sum : 1;
            while (s > 1 && shapes[k - 1] >= least)
                k--;
            pattern -= zeros;
            shape = shapes[k] - least;
            s--;
            const int32_t magnitude = (int32_t)(sum - k + 1);
            *out = sign >> s & 1 ? -magnitude : magnitude;
            sum = k - 1;
        }
    }
    return 1;
}

uint64_t plain_product_rank(uint64_t length, uint64_t radius, const int32_t *point)
{
    return rank_by(BY_SHAPES, length, radius, point);
}

void plain_product_unrank(uint64_t length, uint64_t radius, uint64_t index, int32_t *out)
{
    unrank_by(BY_SHAPES, length, radius, index, out);
}

uint64_t plain_fields_rank(uint64_t length, uint64_t radius, const int32_t *point)
{
    return rank_by(BY_FIELDS, length, radius, point);
}

int plain_fields_unrank(uint64_t length, uint64_t radius, uint64_t index, int32_t *out)
{
    return unrank_by(BY_FIELDS, length, radius, index, out);
}
