/* The product enumeration, docs/RULES.md, "The product index": the index of a point by counting the points that come
   before it in the order that comparisons/listing.c explains, and the point of an index by counting them off. Patterns
   are counted by going through all of them, and shapes by their first magnitude: no binomial is used. The
   product-product enumeration, "The product-product index", has the same order, but a pattern has as many numbers for
   its shapes as a field of bits can tell, and those from S on are empty. */

#include "rules.h"

/* A pattern as a number: the first coordinate has the highest bit, 1 for nonzero. Zero comes before nonzero, the
   first coordinate slowest, so patterns with as many ones stand in the order of these numbers, and zeros in front
   change nothing. */
enum { PATTERNS = 1 << MOST_LENGTH, MOST_ALIKE = 12870 /* patterns of one length and one s: length 16, s = 8 */ };

static uint32_t pattern_index[PATTERNS];
static uint32_t pattern_with[MOST_LENGTH + 1][MOST_ALIKE]; /* by s and index */
static uint64_t patterns[MOST_LENGTH + 1][MOST_LENGTH + 1]; /* D, by s and length */
static uint64_t shapes[MOST_LENGTH + 1][MOST_RADIUS + 1];   /* S, by s and sum */
static uint64_t fields[MOST_LENGTH + 1][MOST_RADIUS + 1];   /* what the field of these shapes can tell */
static uint64_t totals[MOST_LENGTH + 1][MOST_RADIUS + 1];   /* of the product-product enumeration, by length and radius */

/* Goes through the patterns of all lengths: once all numbers of l bits are seen, those with s ones are counted. */
static void count_patterns(void)
{
    uint32_t seen[MOST_LENGTH + 1] = {0};
    int length = 0;
    for (uint32_t pattern = 0; pattern < PATTERNS; pattern++) {
        int ones = 0;
        for (uint32_t rest = pattern; rest; rest /= 2)
            ones += rest % 2;
        pattern_with[ones][seen[ones]] = pattern;
        pattern_index[pattern] = seen[ones]++;
        if (pattern + 1 == (uint32_t)1 << length) {
            for (int s = 0; s <= length; s++)
                patterns[s][length] = seen[s];
            length++;
        }
    }
}

/* Shapes of s magnitudes with a sum: the first may be anything from 1 to the sum. */
static void count_shapes(void)
{
    shapes[0][0] = 1;
    for (int s = 1; s <= MOST_LENGTH; s++)
        for (int sum = 1; sum <= MOST_RADIUS; sum++)
            for (int first = 1; first <= sum; first++)
                shapes[s][sum] += shapes[s - 1][sum - first];
}

/* The fewest bits e with 2^e at least S. */
static void size_fields(void)
{
    for (int s = 0; s <= MOST_LENGTH; s++)
        for (int sum = 0; sum <= MOST_RADIUS; sum++)
            fields[s][sum] = least_power_from(shapes[s][sum]);
}

/* The numbers that the shapes of one pattern have. */
static uint64_t field_of(struct shell shell, uint64_t s)
{
    return (shell.selector == PRODUCT_PRODUCT ? fields : shapes)[s][shell.radius];
}

/* The indices of the points with s nonzero coordinates: R, but by the product-product enumeration. */
uint64_t range_size(struct shell shell, uint64_t s)
{
    return (patterns[s][shell.length] * field_of(shell, s)) << s;
}

/* "the points with the most nonzero coordinates come first". */
static uint64_t range_start(struct shell shell, uint64_t s)
{
    uint64_t start = 0;
    for (uint64_t more = s + 1; more <= most_nonzero(shell); more++)
        start += range_size(shell, more);
    return start;
}

struct range range_of(struct shell shell, uint64_t s)
{
    return (struct range){range_start(shell, s), patterns[s][shell.length], shapes[s][shell.radius], field_of(shell, s)};
}

/* Radius 0 has the index 0 alone. */
static void sum_ranges(struct shell shell)
{
    shell.selector = PRODUCT_PRODUCT;
    totals[shell.length][shell.radius] = shell.radius == 0 ? 1 : range_start(shell, 0);
}

uint64_t product_total(struct shell shell)
{
    return totals[shell.length][shell.radius];
}

void count_patterns_and_shapes(void)
{
    count_patterns();
    count_shapes();
    size_fields();
    for_each_shell(sum_ranges);
}

/* The shapes before this one: at each magnitude those that agree so far and have a smaller one here. */
static uint64_t shape_index(const uint64_t *magnitudes, uint64_t s, uint64_t sum)
{
    uint64_t before = 0;
    for (uint64_t i = 0; i < s; i++) {
        for (uint64_t smaller = 1; smaller < magnitudes[i]; smaller++)
            before += shapes[s - i - 1][sum - smaller];
        sum -= magnitudes[i];
    }
    return before;
}

/* The point must lie on the shell. At radius 0 nothing comes before it. */
uint64_t product_rank(struct shell shell, const int32_t *point)
{
    uint64_t magnitudes[MOST_LENGTH], s = 0, sign = 0;
    uint32_t pattern = 0;
    for (uint64_t i = 0; i < shell.length; i++) {
        pattern = 2 * pattern + (point[i] != 0);
        if (point[i] != 0) {
            magnitudes[s++] = magnitude(point[i]);
            sign = 2 * sign + (point[i] < 0);
        }
    }
    uint64_t shape = shape_index(magnitudes, s, shell.radius);
    return range_start(shell, s) + ((pattern_index[pattern] * field_of(shell, s) + shape) << s) + sign;
}

/* The magnitudes of the shape that has so many before it: each is as large as there are shapes with a smaller
   one to count off. */
static void magnitudes_of(uint64_t before, uint64_t *magnitudes, uint64_t s, uint64_t sum)
{
    for (uint64_t i = 0; i < s; i++) {
        magnitudes[i] = 1;
        for (; before >= shapes[s - i - 1][sum - magnitudes[i]]; magnitudes[i]++)
            before -= shapes[s - i - 1][sum - magnitudes[i]];
        sum -= magnitudes[i];
    }
}

/* An index taken apart. */
struct parts {
    uint64_t s;
    uint64_t pattern;
    uint64_t shape; /* an empty one from S on */
    uint64_t sign;
};

/* The index must be below the total. Ranges are counted off, then patterns, shapes and signs. */
static struct parts parts_of(struct shell shell, uint64_t index)
{
    uint64_t s = most_nonzero(shell), left = index;
    for (; s > 0 && left >= range_size(shell, s); s--)
        left -= range_size(shell, s);
    const uint64_t sign = left % ((uint64_t)1 << s), pattern_and_shape = left >> s, field = field_of(shell, s);
    return (struct parts){s, pattern_and_shape / field, pattern_and_shape % field, sign};
}

/* The first index from this one on whose shape is not empty: behind empty shapes the next pattern begins. */
uint64_t next_with_shape(struct shell shell, uint64_t index)
{
    const struct parts parts = parts_of(shell, index);
    if (parts.shape < shapes[parts.s][shell.radius])
        return index;
    return index - parts.sign + ((field_of(shell, parts.s) - parts.shape) << parts.s);
}

/* Whether an index of the shell has an empty shape. */
int has_empty_shapes(struct shell shell)
{
    int is_there = 0;
    for (uint64_t s = 1; s <= most_nonzero(shell); s++)
        is_there |= shapes[s][shell.radius] < field_of(shell, s);
    return is_there;
}

/* The index must name a point. */
void product_point(struct shell shell, uint64_t index, int32_t *point)
{
    const struct parts parts = parts_of(shell, index);
    const uint32_t pattern = pattern_with[parts.s][parts.pattern];
    uint64_t magnitudes[MOST_LENGTH], next = 0;
    magnitudes_of(parts.shape, magnitudes, parts.s, shell.radius);
    for (uint64_t i = 0; i < shell.length; i++) {
        const int is_nonzero = (pattern >> (shell.length - 1 - i)) % 2 != 0;
        const int is_minus = is_nonzero && (parts.sign >> (parts.s - 1 - next)) % 2 != 0;
        const int64_t wide = is_nonzero ? (int64_t)magnitudes[next] : 0;
        point[i] = (int32_t)(is_minus ? -wide : wide);
        next += (uint64_t)is_nonzero;
    }
}
