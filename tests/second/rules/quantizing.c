/* A vector into a record, docs/RULES.md, "Quantizing into a record", in whole numbers alone: a coefficient is its bits.
   The largest remainder is never looked for: a coordinate gets one more if fewer coordinates come before it than there
   are to hand out. */

#include "rules.h"

enum { FRACTION_BITS = 23, EXPONENTS = 256 };

/* "a finite f32 is X / 2^149 for a whole number X, which its bits give": the magnitude of X is digits x 2^twos. The
   digits are below 2^24, and 2^23 or more if twos is above 0. */
struct whole_number {
    uint64_t digits;
    uint64_t twos;
};

static struct whole_number whole_number(uint32_t bits)
{
    const uint64_t one = (uint64_t)1 << FRACTION_BITS, fraction = bits % one, exponent = (bits >> FRACTION_BITS) % EXPONENTS;
    if (exponent == 0)
        return (struct whole_number){fraction, 0};
    return (struct whole_number){one + fraction, exponent - 1};
}

/* The bits of m / 2^p, m below 2^24, for a p up to 100. */
uint32_t bits_of(uint64_t m, uint32_t p)
{
    const uint64_t one = (uint64_t)1 << FRACTION_BITS;
    uint32_t exponent = 127 + FRACTION_BITS - p;
    if (m == 0)
        return 0;
    for (; m < one; m *= 2)
        exponent--;
    return (exponent << FRACTION_BITS) + (uint32_t)(m % one);
}

int is_negative(uint32_t bits)
{
    return bits >> 31 != 0;
}

/* "a NaN, an infinity, or of magnitude 32,768 or more": X is 2^164 or more, which is 2^23 x 2^141. NaN and
   infinities have the largest exponent. */
int is_unusable(uint32_t bits)
{
    return whole_number(bits).twos >= 141;
}

/* "the whole number nearest to 256 x, and of two that are equally near the even one": digits x 2^(twos + 8) against
   the multiples of 2^149, so digits against those of 2^(141 - twos). The digits are below half of 2^40, and so below
   half of every larger one. */
struct rounding nearest(uint32_t bits)
{
    const struct whole_number x = whole_number(bits);
    const uint64_t power = 141 - x.twos, unit = (uint64_t)1 << (power < 40 ? power : 40);
    const uint64_t whole = x.digits / unit, from_below = x.digits % unit, to_above = unit - from_below;
    if (from_below == 0)
        return (struct rounding){whole, EXACT};
    if (from_below < to_above)
        return (struct rounding){whole, DOWN};
    if (from_below > to_above)
        return (struct rounding){whole + 1, UP};
    return whole % 2 == 0 ? (struct rounding){whole, HALF_DOWN} : (struct rounding){whole + 1, HALF_UP};
}

/* |A - k x step| for the radius with that number. */
static uint64_t off(const uint8_t *row, uint64_t sum, uint64_t number)
{
    const uint64_t product = row[AT_RADII + number] * two_bytes(row + AT_STEP);
    return sum < product ? product - sum : sum - product;
}

/* "the one with the least |A - k x step| is chosen, and of two that are equally near the smaller one", which has the
   smaller number. */
static uint64_t choose_radius(const uint8_t *row, uint64_t sum)
{
    uint64_t chosen = 0, middles = 0;
    for (uint64_t number = 1; number < row[AT_NUMBER_OF_RADII]; number++)
        chosen = off(row, sum, number) < off(row, sum, chosen) ? number : chosen;
    for (uint64_t number = 1; number < row[AT_NUMBER_OF_RADII]; number++)
        middles += 2 * sum > (uint64_t)(row[AT_RADII + number - 1] + row[AT_RADII + number]) * two_bytes(row + AT_STEP);
    own_figure("middles between two radii that a sum is past", middles, chosen);
    return chosen;
}

/* "the largest remainders", "among equal remainders to the lower coordinate". */
static int comes_before(const uint64_t *remainders, uint64_t one, uint64_t other)
{
    return remainders[one] > remainders[other] || (remainders[one] == remainders[other] && one < other);
}

static uint64_t how_many_before(const struct quantizing *to, uint64_t coordinate)
{
    uint64_t before = 0;
    for (uint64_t i = 0; i < to->shell.length; i++)
        before += (uint64_t)comes_before(to->remainders, i, coordinate);
    return before;
}

/* The whole parts and the remainders of k x a / A, and how many of these get one more. */
static void share(struct quantizing *to)
{
    uint64_t remainders = 0;
    to->units = to->shell.radius;
    for (uint64_t i = 0; i < to->shell.length; i++) {
        const uint64_t product = to->shell.radius * to->magnitudes[i];
        to->shares[i] = product / to->sum;
        to->remainders[i] = product % to->sum;
        to->units -= to->shares[i];
        remainders += to->remainders[i];
    }
    own_figure("sum of the remainders", remainders, to->units * to->sum);
}

/* The point of a radius above 0, with the signs of the coefficients. */
static void make_point(const uint32_t *coefficients, struct quantizing *to)
{
    uint64_t radius = 0;
    share(to);
    for (uint64_t i = 0; i < to->shell.length; i++) {
        const uint64_t share_and_more = to->shares[i] + (how_many_before(to, i) < to->units);
        to->point[i] = (int32_t)(is_negative(coefficients[i]) ? -(int64_t)share_and_more : (int64_t)share_and_more);
        radius += share_and_more;
        if (to->magnitudes[i] == 0 && to->point[i] != 0)
            own_error("a coefficient of 0 gets a coordinate that is not 0", to->shell);
    }
    own_figure("sum of the magnitudes of a quantized point", radius, to->shell.radius);
}

/* The fields of a record: "A number of several bytes has its high byte first". */
void write_record(uint8_t *record, uint64_t field, uint64_t row, uint64_t number, uint64_t codeword)
{
    set_two_bytes(record + AT_PLACE, field);
    record[AT_ROW] = (uint8_t)row;
    record[AT_RADIUS_NUMBER] = (uint8_t)number;
    set_two_bytes(record + AT_CODEWORD, codeword / 65536);
    set_two_bytes(record + AT_CODEWORD + 2, codeword % 65536);
}

/* All that follows from the magnitudes of the coefficients. */
void quantize_magnitudes(const struct vector *vector, struct quantizing *to)
{
    const uint8_t *row = vector->table.bytes + to->row * ROW_SIZE;
    to->sum = 0;
    for (uint64_t i = 0; i < row[AT_LENGTH]; i++)
        to->sum += to->magnitudes[i];
    to->number = choose_radius(row, to->sum);
    to->shell = shell_of(row, to->number);
    to->units = 0;
    for (uint64_t i = 0; i < to->shell.length; i++)
        to->point[i] = 0;
    if (to->shell.radius > 0)
        make_point(vector->coefficients, to);
    const uint64_t field = place_field(vector->book, vector->place);
    write_record(to->answer.record, field, to->row, to->number, rank(to->shell, to->point));
}

static struct quantizing refused(uint32_t refusal, uint64_t value)
{
    return (struct quantizing){.answer = {.refusal = refusal, .value = value}};
}

/* "quantize | 17, 7, 8, 4, 11". */
struct quantizing quantize(const struct vector *vector)
{
    struct quantizing to = {0};
    const struct judgment judgment = judge(vector->table.bytes, vector->table.size);
    if (is_no_number_of_books(vector->books))
        return refused(17, 0);
    if (judgment.faults)
        return refused(7, judgment.row);
    if (vector->book >= vector->books || vector->place >= judgment.places)
        return refused(8, 0);
    to.row = row_of(&vector->table, vector->place);
    if (vector->length != vector->table.bytes[to.row * ROW_SIZE + AT_LENGTH] || vector->record_length != RECORD_SIZE)
        return refused(4, 0);
    for (uint64_t i = 0; i < vector->length; i++)
        if (is_unusable(vector->coefficients[i]))
            return refused(11, i);
    for (uint64_t i = 0; i < vector->length; i++)
        to.magnitudes[i] = nearest(vector->coefficients[i]).whole;
    quantize_magnitudes(vector, &to);
    return to;
}
