/* Vectors by chance. Most are made backwards: a sum A at or beside a tie of two radii of the row, or nearest to one of
   them; parts of it as magnitudes, often with equal or nearly equal remainders; and for each a coefficient that is
   rounded to it, often from a half or from beside one. See docs/RULES.md, "Quantizing into a record". */

#include "draws.h"

enum { BELOW_2_23 = 0x007fffff };

/* Magnitudes under way. */
struct parts {
    struct shell shell; /* of the radius that is aimed at */
    uint64_t sum;
    uint64_t order[MOST_LENGTH]; /* the coordinates, shuffled */
    uint64_t magnitudes[MOST_LENGTH];
};

/* A sum near the radius with that number: on the middle to the next radius, one beside it, on k x step, or anywhere
   where k is nearest. Past the last radius, sums of all sizes. */
static uint64_t sum_by_chance(const uint8_t *row, uint64_t number)
{
    const uint8_t *radius = row + AT_RADII + number;
    const uint64_t step = two_bytes(row + AT_STEP), product = *radius * step, choice = chance_below(8);
    const uint64_t least = number == 0 ? 0 : (uint64_t)(radius[-1] + radius[0]) * step / 2 + 1;
    const uint64_t past = product + chance_below((uint64_t)row[AT_LENGTH] << (chance_below(2) ? 23 : chance_below(23)));
    const int is_last = number + 1 == row[AT_NUMBER_OF_RADII];
    const uint64_t most = is_last ? past : (uint64_t)(radius[0] + radius[1]) * step / 2;
    if (choice == 0)
        return most > 0 ? most - 1 : 0;
    if (choice < 3)
        return most;
    if (choice == 3)
        return most + 1;
    return choice == 4 ? product : least + chance_below(most - least + 1);
}

/* Any parts, of few or many coordinates. */
static void part_in_lumps(struct parts *parts)
{
    const uint64_t nonzero = 1 + chance_below(parts->shell.length);
    for (uint64_t left = parts->sum; left > 0;) {
        const uint64_t lump = 1 + chance_below(left);
        parts->magnitudes[parts->order[chance_below(nonzero)]] += lump;
        left -= lump;
    }
}

/* Equal parts of some coordinates; what is left goes to one coordinate, of these or another, or singly to the
   first of these. */
static void part_evenly(struct parts *parts)
{
    const uint64_t equal = 1 + chance_below(parts->shell.length), left = parts->sum % equal;
    for (uint64_t i = 0; i < equal; i++)
        parts->magnitudes[parts->order[i]] = parts->sum / equal;
    if (chance_below(2))
        parts->magnitudes[parts->order[equal % parts->shell.length]] += left;
    else
        for (uint64_t i = 0; i < left; i++)
            parts->magnitudes[parts->order[i]]++;
}

/* In the ratio of the coordinates of a point of the shell, as far as whole numbers allow: remainders
   near 0 or near A. */
static void part_like_a_point(struct parts *parts)
{
    int32_t point[MOST_LENGTH];
    uint64_t left = parts->sum;
    point_by_chance(parts->shell, point);
    for (uint64_t i = 0; i < parts->shell.length; i++) {
        parts->magnitudes[i] = magnitude(point[i]) * parts->sum / parts->shell.radius;
        left -= parts->magnitudes[i];
    }
    for (; left > 0; left--)
        parts->magnitudes[chance_below(parts->shell.length)]++;
}

/* With A = k x t, a magnitude leaves the remainder k x (a modulo t). Here a is modulo t the same in some coordinates,
   and one more brings the sum to a multiple of t; multiples of t make the magnitudes differ. */
static void part_with_equal_remainders(struct parts *parts)
{
    const uint64_t k = parts->shell.radius, t = parts->sum / k, equal = 2 + chance_below(parts->shell.length - 1);
    const uint64_t most = k * t / equal < t ? k * t / equal : t, same = chance_below(most + 1), rest = (t - equal * same % t) % t;
    for (uint64_t i = 0; i < equal; i++)
        parts->magnitudes[parts->order[i]] = same;
    parts->magnitudes[parts->order[equal % parts->shell.length]] += rest;
    for (uint64_t left = k - (equal * same + rest) / t; left > 0; left--)
        parts->magnitudes[parts->order[chance_below(equal)]] += t;
}

static void part_by_chance(struct parts *parts)
{
    const uint64_t choice = chance_below(8), length = parts->shell.length, radius = parts->shell.radius;
    for (uint64_t i = 0; i < length; i++) {
        const uint64_t other = chance_below(i + 1);
        parts->order[i] = parts->order[other];
        parts->order[other] = i;
        parts->magnitudes[i] = 0;
    }
    if (choice < 3 && length > 1 && radius > 0 && parts->sum >= radius)
        part_with_equal_remainders(parts);
    else if (choice < 5 && radius > 0)
        part_like_a_point(parts);
    else if (choice < 7)
        part_evenly(parts);
    else
        part_in_lumps(parts);
}

/* Whether a magnitude is 2^23 or more. */
static int is_too_large(const struct parts *parts)
{
    int is_there = 0;
    for (uint64_t i = 0; i < parts->shell.length; i++)
        is_there |= parts->magnitudes[i] > BELOW_2_23;
    return is_there;
}

/* Bits that are rounded to a magnitude below 2^23: it itself, the half above or below or the number beside it,
   or any between. */
static uint32_t bits_rounded_to(uint64_t a)
{
    const uint32_t above = bits_of(2 * a + 1, 9), below = a > 0 ? bits_of(2 * a - 1, 9) : 0, is_odd = a % 2;
    const uint64_t choice = chance_below(8);
    if (choice < 3)
        return bits_of(a, 8);
    if (choice == 3)
        return above - is_odd;
    if (choice == 4)
        return above - 1;
    if (a == 0)
        return (uint32_t)chance_below(choice == 5 ? 4 : choice == 6 ? 1 << 23 : BITS_OF_1_512);
    if (choice == 5)
        return below + is_odd;
    return choice == 6 ? below + 1 : below + 1 + (uint32_t)chance_below(above - below - 1);
}

/* Bits on or beside a half, wherever they are rounded to. */
static uint32_t bits_at_a_half(uint64_t a)
{
    const uint32_t half = bits_of(a > 0 && chance_below(2) ? 2 * a - 1 : 2 * a + 1, 9);
    return half - 1 + (uint32_t)chance_below(3);
}

static uint32_t sign_bit_by_chance(void)
{
    return chance_below(2) ? NEGATIVE : 0;
}

/* Coefficients made backwards for a radius of the row; in one of eight vectors some are rounded to something else. */
static void aim(const uint8_t *row, uint32_t *coefficients)
{
    const uint64_t number = chance_below(row[AT_NUMBER_OF_RADII]), strays = chance_below(8) == 0;
    struct parts parts = {.shell = shell_of(row, number), .sum = sum_by_chance(row, number)};
    for (part_by_chance(&parts); is_too_large(&parts); part_by_chance(&parts))
        parts.sum /= 2;
    for (uint64_t i = 0; i < parts.shell.length; i++) {
        const uint64_t a = parts.magnitudes[i];
        const uint32_t bits = bits_rounded_to(a);
        own_figure("magnitude of a coefficient that is made for it", nearest(bits).whole, a);
        coefficients[i] = strays && chance_below(4) == 0 ? bits_at_a_half(a) : bits;
    }
}

/* Below 32,768: the largest ones there are, near it, or not so near, all alike or mixed. */
static void draw_large(const uint8_t *row, uint32_t *coefficients)
{
    const uint32_t bounds[] = {1, 4, 1 << 24, 1 << 30};
    const uint64_t bound = chance_below(ENTRIES(bounds)), is_mixed = chance_below(2);
    for (uint64_t i = 0; i < row[AT_LENGTH]; i++)
        coefficients[i] = BITS_BELOW_32768 - (uint32_t)chance_below(bounds[is_mixed ? chance_below(ENTRIES(bounds)) : bound]);
}

/* Zeros, the smallest ones there are, and others that are rounded to 0. */
static void draw_tiny(const uint8_t *row, uint32_t *coefficients)
{
    const uint32_t bounds[] = {1, 4, 1 << 23, BITS_OF_1_512 + 1};
    const uint32_t bound = bounds[chance_below(ENTRIES(bounds))];
    for (uint64_t i = 0; i < row[AT_LENGTH]; i++)
        coefficients[i] = (uint32_t)chance_below(bound);
}

/* Much the same exponent in all of them. */
static void draw_alike(const uint8_t *row, uint32_t *coefficients)
{
    const uint32_t start = (uint32_t)chance_below(BITS_OF_32768 - BITS_OF_1_512) + BITS_OF_1_512, spread = 3 << 23;
    for (uint64_t i = 0; i < row[AT_LENGTH]; i++)
        coefficients[i] = start - (uint32_t)chance_below(spread);
}

/* Any at all, usable or not. */
static void draw_bits(const uint8_t *row, uint32_t *coefficients)
{
    for (uint64_t i = 0; i < row[AT_LENGTH]; i++)
        coefficients[i] = (uint32_t)chance_below(NEGATIVE);
}

static uint32_t unusable_by_chance(void)
{
    const uint32_t any = (uint32_t)chance_below(NEGATIVE - BITS_OF_32768), sign = sign_bit_by_chance();
    const uint32_t payload = 1 + (uint32_t)chance_below(BITS_OF_QUIET_NAN - BITS_OF_INFINITY - 1);
    const uint32_t choices[] = {BITS_OF_32768,    BITS_OF_32768 + 1,          BITS_OF_32768 + any, BITS_OF_INFINITY - 1,
                                BITS_OF_INFINITY, BITS_OF_INFINITY + payload, BITS_OF_QUIET_NAN,   BITS_OF_QUIET_NAN + payload};
    return choices[chance_below(ENTRIES(choices))] | sign;
}

/* Makes one coefficient unusable, often the last one, and of those behind it some. The length must be right. */
void spoil(struct vector *vector)
{
    const uint64_t first = chance_below(2) ? vector->length - 1 : chance_below(vector->length);
    vector->coefficients[first] = unusable_by_chance();
    for (uint64_t i = first + 1; i < vector->length; i++)
        if (chance_below(2))
            vector->coefficients[i] = unusable_by_chance();
}

/* A place of a good table, often of its last row, and often the first or the last place of the row. */
uint64_t some_place(const struct table *table)
{
    const uint64_t rows = table->size / ROW_SIZE, number = chance_below(2) ? rows - 1 : chance_below(rows);
    const uint8_t *row = table->bytes;
    uint64_t first = 0;
    for (; row < table->bytes + number * ROW_SIZE; row += ROW_SIZE)
        first += two_bytes(row + AT_PLACES);
    const uint64_t places = two_bytes(row + AT_PLACES), within[] = {0, places - 1, chance_below(places), chance_below(places)};
    return first + within[chance_below(ENTRIES(within))];
}

void place_by_chance(struct vector *vector)
{
    vector->place = some_place(&vector->table);
}

/* Coefficients for a place of a good table, in one of eight vectors with unusable ones, and the right lengths. */
void coefficients_by_chance(struct vector *vector)
{
    typedef void draw(const uint8_t *row, uint32_t *coefficients);
    draw *const draws[] = {draw_large, draw_tiny, draw_alike, draw_bits};
    const uint8_t *row = row_at(&vector->table, vector->place);
    vector->length = row[AT_LENGTH];
    vector->record_length = RECORD_SIZE;
    (chance_below(4) ? aim : draws[chance_below(ENTRIES(draws))])(row, vector->coefficients);
    for (uint64_t i = 0; i < vector->length; i++)
        vector->coefficients[i] |= sign_bit_by_chance();
    if (chance_below(8) == 0)
        spoil(vector);
}
