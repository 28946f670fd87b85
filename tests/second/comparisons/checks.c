/* The refusals 17, 7, 8, 4 and 11 of quantize, each alone and together with others of them, so that the order of checks
   is compared too; docs/RULES.md, "Books", "Refusal numbers" and "Order of checks". */

#include "comparisons.h"

#include <stdio.h>

enum { VECTORS_OF_SET = 700, BAD_TABLES = 60000, PLACE_TABLES = 500, PLACES_OF_TABLE = 20 };
enum { MOST_SIZE = 600, MOST_COEFFICIENTS = 20, MOST_RECORD = 12 };

/* What is wrong with a vector, as the bits of a set; those of the table, the books and the place are those of the
   page. */
enum { WRONG_COEFFICIENTS = 16, WRONG_RECORD = 32, WRONG_COEFFICIENT = 64, SETS_OF_VECTOR = 128 };

/* From 32,768 to the largest f32, infinity, and NaN of both kinds; the signs are given later. */
static const uint32_t unusable[] = {0x47000000, 0x47000001, 0x47000100, 0x477fffff, 0x47800000, 0x4b000000,
                                    0x4f000000, 0x5f000000, 0x7f000000, 0x7f7fffff, 0x7f800000, 0x7f800001,
                                    0x7fbfffff, 0x7fc00000, 0x7fc00001, 0x7fe00000, 0x7fffffff};

/* A vector that is not refused. */
static struct vector right_vector(void)
{
    struct vector vector = {.table = good_table_by_chance()};
    place_by_chance(&vector);
    give_books(&vector.books, &vector.book);
    do
        coefficients_by_chance(&vector);
    while (quantize(&vector).answer.refusal);
    return vector;
}

static struct vector right_vector_of(uint64_t length)
{
    struct vector vector;
    do
        vector = right_vector();
    while (vector.length != length);
    return vector;
}

static uint64_t places_of(const struct vector *vector)
{
    return judge(vector->table.bytes, vector->table.size).places;
}

/* A right vector with what the set says made wrong. */
static struct vector with_faults(const struct vector *right, int set)
{
    struct vector wrong = *right;
    if (set & WRONG_COEFFICIENT)
        spoil(&wrong);
    if (set & WRONG_COEFFICIENTS)
        wrong.length = other_than(right->length, MOST_COEFFICIENTS);
    if (set & WRONG_RECORD)
        wrong.record_length = other_than(RECORD_SIZE, MOST_RECORD);
    if (set & WRONG_PLACE)
        wrong.place = wrong_place(places_of(right));
    if (set & WRONG_BOOK)
        wrong.book = wrong_book(right->books);
    if (set & WRONG_BOOKS)
        wrong.books = no_books_by_chance(right->books);
    if (set & WRONG_TABLE)
        spoil_table(&wrong.table);
    return wrong;
}

static void compare_refused(const struct vector *vector, uint32_t refusal)
{
    own_figure("refusal of a vector with a fault", compare_vector(vector), refusal);
}

/* Every set of faults: "quantize | 17, 7, 8, 4, 11". */
static void compare_sets(void)
{
    for (int i = 0; i < VECTORS_OF_SET; i++) {
        const struct vector right = right_vector();
        for (int set = 0; set < SETS_OF_VECTOR; set++) {
            const struct vector wrong = with_faults(&right, set);
            const uint32_t length = set & (WRONG_COEFFICIENTS | WRONG_RECORD) ? 4 : set & WRONG_COEFFICIENT ? 11 : 0;
            const uint32_t place = set & (WRONG_BOOK | WRONG_PLACE) ? 8 : length, table = set & WRONG_TABLE ? 7 : place;
            compare_refused(&wrong, set & WRONG_BOOKS ? 17 : table);
        }
    }
}

/* Tables by chance that are good or nearly so, with any place, and in every other vector all the rest wrong. Where the
   table is good the own quantizer says what follows. */
static void compare_bad_tables(void)
{
    for (int i = 0; i < BAD_TABLES; i++) {
        struct vector vector = {.table = table_by_chance(), .record_length = RECORD_SIZE};
        vector.place = chance_below(MOST_PLACES);
        give_books(&vector.books, &vector.book);
        const uint64_t row = row_of(&vector.table, vector.place);
        vector.length = vector.table.bytes[row * ROW_SIZE + AT_LENGTH] % (MOST_LENGTH + 1);
        for (uint64_t j = 0; j < vector.length; j++)
            vector.coefficients[j] = (uint32_t)chance_below(BITS_OF_32768);
        compare_vector(&vector);
        if (vector.length > 0)
            spoil(&vector);
        vector.length = chance_below(MOST_COEFFICIENTS + 1);
        vector.record_length = other_than(RECORD_SIZE, MOST_RECORD);
        vector.place = wrong_place(MOST_PLACES);
        compare_vector(&vector);
    }
}

/* Every size of a table of good rows, and sizes that are good only where a number is cut, with the rest right and
   with it wrong. */
static void compare_sizes(void)
{
    const uint64_t cut[] = {65536 + 16, 65536 + 512, TWO_TO_32 + 16, TWO_TO_32 + 512};
    struct vector right = {.table = rows_by_chance(MOST_LENT_ROWS, MOST_PLACES / MOST_LENT_ROWS), .books = 1};
    coefficients_by_chance(&right);
    struct vector wrong = right;
    spoil(&wrong);
    wrong.length = other_than(right.length, MOST_COEFFICIENTS);
    wrong.record_length = 0;
    wrong.place = UINT64_MAX;
    for (uint64_t i = 0; i <= MOST_SIZE + ENTRIES(cut); i++) {
        right.table.size = i <= MOST_SIZE ? i : cut[i - MOST_SIZE - 1];
        wrong.table.size = right.table.size;
        compare_vector(&right);
        compare_vector(&wrong);
    }
}

/* The place past the last one and others that are not in the table, and books that are not there, with the rest right
   and with it wrong. */
static void compare_wrong_places(void)
{
    for (int i = 0; i < PLACE_TABLES; i++) {
        const struct vector right = right_vector();
        const uint64_t places = places_of(&right);
        for (int j = 0; j < PLACES_OF_TABLE; j++) {
            const int rest = WRONG_COEFFICIENTS | WRONG_RECORD | WRONG_COEFFICIENT;
            struct vector vector = with_faults(&right, j % 2 ? rest : 0);
            if (j % 4 < 2)
                vector.place = j < 4 ? places : wrong_place(places);
            else
                vector.book = j < 8 ? right.books : wrong_book(right.books);
            compare_refused(&vector, 8);
        }
    }
}

/* Every wrong pair of lengths, and lengths that are right only where a number is cut: the call may look at nothing,
   since the lengths alone are wrong. */
static void compare_lengths(const struct vector *vector)
{
    const uint64_t cut[] = {256, 65536, TWO_TO_32};
    struct vector wrong = *vector;
    for (wrong.length = 0; wrong.length <= MOST_COEFFICIENTS; wrong.length++)
        for (wrong.record_length = 0; wrong.record_length <= MOST_RECORD; wrong.record_length++)
            if (wrong.length != vector->length || wrong.record_length != RECORD_SIZE)
                compare_refused(&wrong, 4);
    for (uint64_t i = 0; i < ENTRIES(cut); i++) {
        wrong.length = vector->length + cut[i];
        wrong.record_length = RECORD_SIZE;
        compare_refused(&wrong, 4);
        wrong.length = vector->length;
        wrong.record_length = RECORD_SIZE + cut[i];
        compare_refused(&wrong, 4);
    }
}

/* One unusable coefficient with both signs, and then others behind it. */
static void compare_unusable(const struct vector *right, uint64_t coordinate, uint32_t bits)
{
    for (uint32_t sign = 0; sign < 2; sign++) {
        struct vector wrong = *right;
        wrong.coefficients[coordinate] = sign << 31 | bits;
        compare_refused(&wrong, 11);
        for (uint64_t i = coordinate + 1; i < wrong.length; i++)
            wrong.coefficients[i] = unusable[chance_below(ENTRIES(unusable))];
        compare_refused(&wrong, 11);
    }
}

/* At every coordinate of every length; NaN also with each bit of its payload alone. */
static void compare_unusable_of(uint64_t length)
{
    for (uint64_t coordinate = 0; coordinate < length; coordinate++) {
        const struct vector right = right_vector_of(length);
        for (uint64_t i = 0; i < ENTRIES(unusable); i++)
            compare_unusable(&right, coordinate, unusable[i]);
        for (uint32_t payload = 1; payload < 1 << 23; payload *= 2)
            compare_unusable(&right, coordinate, 0x7f800000 + payload);
    }
}

/* Every exponent with both signs and the ends of its fractions, in a vector that is else right. */
static void compare_exponents(const struct vector *right)
{
    const uint32_t fractions[] = {0, 1, 0x3fffff, 0x400000, 0x7fffff};
    for (uint32_t exponent = 0; exponent < 512; exponent++)
        for (uint64_t i = 0; i < ENTRIES(fractions); i++) {
            struct vector vector = *right;
            vector.coefficients[chance_below(vector.length)] = exponent << 23 | fractions[i];
            compare_vector(&vector);
        }
}

void compare_checks(void)
{
    const uint64_t answered = compared.vectors;
    compare_sets();
    compare_bad_tables();
    compare_sizes();
    compare_wrong_places();
    for (uint64_t length = 1; length <= MOST_LENGTH; length++) {
        const struct vector right = right_vector_of(length), wrong = with_faults(&right, WRONG_COEFFICIENT);
        compare_lengths(&right);
        compare_lengths(&wrong);
        compare_unusable_of(length);
        compare_exponents(&right);
    }
    printf("checks: %d sets of faults together, each %d times; ", SETS_OF_VECTOR, VECTORS_OF_SET);
    printf("%lu more vectors quantized\n", compared.vectors - answered);
}
