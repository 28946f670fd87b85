/* The kinds of vectors that are told from the steps of quantizing: rounding, the sum, the remainders and the
   coefficients themselves. See docs/RULES.md, "Quantizing into a record". */

#include "kinds.h"

#include <string.h>

static uint32_t without_sign(uint32_t bits)
{
    return bits << 1 >> 1;
}

static int is_half(uint32_t bits)
{
    return nearest(bits).way == HALF_DOWN || nearest(bits).way == HALF_UP;
}

/* Whether a usable coefficient is a half, or the number next to one but no whole number. */
static enum kind turn_of(uint32_t bits)
{
    const uint32_t positive = without_sign(bits);
    const enum way way = nearest(positive).way;
    if (way == HALF_DOWN)
        return TURNED_HALF_DOWN;
    if (way == HALF_UP)
        return TURNED_HALF_UP;
    if (way == DOWN && is_half(positive + 1))
        return TURNED_BELOW_HALF;
    return way == UP && is_half(positive - 1) ? TURNED_ABOVE_HALF : NO_TURN;
}

/* Rounds all coefficients of one turn the other way, and looks whether the record is another one. */
static void note_turn(const struct vector *vector, const struct quantizing *made, const enum kind *turns, enum kind turn)
{
    struct quantizing other = *made;
    int is_there = 0;
    for (uint64_t i = 0; i < vector->length; i++)
        if (turns[i] == turn) {
            other.magnitudes[i] += turn == TURNED_HALF_DOWN || turn == TURNED_BELOW_HALF ? 1 : UINT64_MAX;
            is_there = 1;
        }
    if (!is_there)
        return;
    quantize_magnitudes(vector, &other);
    note_if(memcmp(other.answer.record, made->answer.record, RECORD_SIZE) != 0, turn);
}

void note_turns(const struct vector *vector, const struct quantizing *made)
{
    enum kind turns[MOST_LENGTH];
    for (uint64_t i = 0; i < vector->length; i++)
        turns[i] = turn_of(vector->coefficients[i]);
    for (enum kind turn = 0; turn < NO_TURN; turn++)
        note_turn(vector, made, turns, turn);
}

/* A against the middles to the next radius and to the one before, all doubled. */
void note_sum(const struct vector *vector, const struct quantizing *made)
{
    const uint8_t *row = vector->table.bytes + made->row * ROW_SIZE;
    const uint8_t *radius = row + AT_RADII + made->number;
    const uint64_t step = two_bytes(row + AT_STEP), sum = 2 * made->sum;
    if (made->number + 1 < row[AT_NUMBER_OF_RADII]) {
        const uint64_t middle = (uint64_t)(radius[0] + radius[1]) * step;
        note_if(sum == middle, TIE_OF_RADII);
        note_if(sum + 2 == middle, ONE_BELOW_TIE);
        note_if(sum + 1 == middle, BELOW_MIDDLE);
    }
    if (made->number > 0) {
        const uint64_t middle = (uint64_t)(radius[-1] + radius[0]) * step;
        note_if(sum == middle + 2, ONE_ABOVE_TIE);
        note_if(sum == middle + 1, ABOVE_MIDDLE);
    }
    note_if(made->sum > 1 << 24, SUM_PAST_2_24);
}

/* One coordinate that gets one more and another that does not. */
static int decides(const struct quantizing *made, uint64_t one, uint64_t other)
{
    return magnitude(made->point[one]) > made->shares[one] && magnitude(made->point[other]) == made->shares[other];
}

/* How the remainders of a radius above 0 were served. */
void note_units(const struct quantizing *made)
{
    int of_equal = 0, of_different = 0, of_smaller = 0;
    uint64_t singly = 0;
    for (uint64_t i = 0; i < made->shell.length; i++) {
        singly += made->shares[i] + (2 * made->remainders[i] >= made->sum);
        for (uint64_t j = 0; j < made->shell.length; j++)
            if (made->units > 0 && decides(made, i, j)) {
                const int is_tie = made->remainders[i] == made->remainders[j];
                of_equal |= is_tie && made->magnitudes[i] == made->magnitudes[j];
                of_different |= is_tie && made->magnitudes[i] != made->magnitudes[j];
                of_smaller |= made->magnitudes[i] < made->magnitudes[j];
            }
    }
    note_if(made->units == 0, NO_UNITS);
    note_if(made->units == 1, ONE_UNIT);
    note_if(made->units > 1, MORE_UNITS);
    note_if(of_equal, TIE_OF_EQUAL);
    note_if(of_different, TIE_OF_DIFFERENT);
    note_if(of_different && made->sum > 1 << 24, TIE_PAST_2_24);
    note_if(of_smaller, SMALLER_MAGNITUDE);
    note_if(singly != made->shell.radius, SINGLY_OFF);
}

/* Coefficients that are zero, rounded to 0, very small or very large. */
void note_coefficients(const struct vector *vector, const struct quantizing *made)
{
    int zero = 0, negative_zero = 0, rounded = 0, subnormal = 0, smallest = 0, largest = 0, lowest = 0;
    for (uint64_t i = 0; i < vector->length; i++) {
        const uint32_t bits = vector->coefficients[i], positive = without_sign(bits);
        zero |= bits == 0;
        negative_zero |= bits != 0 && positive == 0;
        rounded |= positive != 0 && made->magnitudes[i] == 0;
        subnormal |= positive != 0 && positive < 1 << 23;
        smallest |= positive == 1;
        largest |= bits == BITS_BELOW_32768;
        lowest |= positive == BITS_BELOW_32768 && bits != positive;
    }
    note_if(made->sum == 0 && !rounded, ALL_ZERO);
    note_if(made->sum == 0 && rounded, ALL_ROUNDED_TO_0);
    note_if(made->shell.radius > 0 && zero, ZERO_AMONG);
    note_if(made->shell.radius > 0 && negative_zero, NEGATIVE_ZERO_AMONG);
    note_if(made->shell.radius > 0 && rounded, ROUNDED_TO_0_AMONG);
    note_if(subnormal, SUBNORMAL);
    note_if(smallest, SMALLEST);
    note_if(largest, LARGEST);
    note_if(lowest, LARGEST_NEGATIVE);
    note_if(made->sum == vector->length << 23, ALL_LARGEST);
}
