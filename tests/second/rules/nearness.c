/* How near a point is to the whole numbers of a vector: docs/RULES.md, "Quantizing into a record". */

#include "rules.h"

/* "k x a_i - A x q_i": below 2^33 in magnitude. */
static int64_t difference(const struct vector *vector, const struct quantizing *made, const int32_t *point, uint64_t i)
{
    const int64_t a = (int64_t)made->magnitudes[i], whole = is_negative(vector->coefficients[i]) ? -a : a;
    return (int64_t)made->shell.radius * whole - (int64_t)made->sum * point[i];
}

/* "sum of the squares of its differences": the magnitudes of the differences sum to 2 x k x A at the most, so the
   squares have 64 bits if l x k is below 256. */
uint64_t sum_of_squares(const struct vector *vector, const struct quantizing *made, const int32_t *point)
{
    uint64_t sum = 0;
    if (made->shell.length * made->shell.radius >= 256)
        own_error("the squares might wrap", made->shell);
    for (uint64_t i = 0; i < made->shell.length; i++) {
        const int64_t apart = difference(vector, made, point, i);
        sum += (uint64_t)(apart * apart);
    }
    return sum;
}

/* "Each difference of the quantized point is smaller in magnitude than A". */
int is_each_below(const struct vector *vector, const struct quantizing *made)
{
    int is_so = 1;
    for (uint64_t i = 0; i < made->shell.length; i++) {
        const int64_t apart = difference(vector, made, made->point, i);
        is_so &= (uint64_t)(apart < 0 ? -apart : apart) < made->sum;
    }
    return is_so;
}
