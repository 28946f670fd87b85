/* The magnitude enumeration; docs/RULES.md, "The magnitude index". No count is stored: the row of a length, N(l,0) to
   N(l,k), is made from that of the length below, or of the length above, by equation 10 of the paper. */

#include "plain.h"

/* The row of the length above, in the place of this one. */
static inline void raise_row(uint64_t *row, uint64_t radius)
{
    uint64_t before = row[0];
    for (uint64_t k = 1; k <= radius; k++) {
        const uint64_t here = row[k];
        row[k] = row[k - 1] + here + before;
        before = here;
    }
}

/* In one pass from the last coordinate, by equation 6; refused 5 if the magnitudes do not sum to the radius. For a zero
   the same count is subtracted and added. */
uint64_t plain_magnitude_rank(uint64_t length, uint64_t radius, const int32_t *point)
{
    uint64_t row[MOST_RADIUS + 1] = {1}, sum = 0, index = 0;
    for (const int32_t *at = point + length; at > point;) {
        const int64_t c = *--at;
        const uint64_t magnitude = (uint64_t)(c < 0 ? -c : c);
        if (magnitude > radius - sum)
            return REFUSED + 5;
        index -= c > 0 ? row[sum] : 0;
        raise_row(row, radius);
        index -= row[sum];
        sum += magnitude;
        index += row[sum];
    }
    return sum == radius ? index : REFUSED + 5;
}

/* The index must be below N. By equation 6 the last N(l,j) + N(l-1,j) points leave j or less to the coordinates behind
   the first one, and the last N(l,j) of these come after the positive value. So the row of the length below is made
   just up to what the coordinate leaves. */
void plain_magnitude_unrank(uint64_t length, uint64_t radius, uint64_t index, int32_t *out)
{
    uint64_t row[MOST_RADIUS + 1] = {1}, sum = radius;
    for (uint64_t l = 0; l < length; l++)
        raise_row(row, radius);
    uint64_t left = row[radius] - index; /* how many points there are from the one of the index on */
    for (const int32_t *end = out + length; out < end; out++) {
        uint64_t k = 0, above = 1, below = 1;
        while (above + below < left) {
            const uint64_t here = row[++k];
            below = here - above - below;
            above = here;
            row[k] = below;
        }
        const int32_t magnitude = (int32_t)(sum - k);
        *out = left > above ? magnitude : -magnitude;
        left -= left > above ? above : above - below;
        sum = k;
    }
}
