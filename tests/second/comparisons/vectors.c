/* Quantizing vectors into records: the cases of the rules, every place of some tables, and vectors by chance on good
   tables, near every tie or anywhere, in one book or one of several; docs/RULES.md, "Quantizing into a record", "Books"
   and "Worked cases". */

#include "../kinds/kinds.h"
#include "comparisons.h"

#include <stdio.h>

enum { CHANCE_TABLES = 25000, VECTORS_OF_TABLE = 50, TABLES_IN_FULL = 8 };

/* More f32 numbers as bits. */
enum {
    BITS_OF_3_512 = 0x3bc00000,
    BITS_OF_5_512 = 0x3c200000,
    BITS_OF_1_4 = 0x3e800000,
    BITS_OF_1_2 = 0x3f000000,
    BITS_OF_3_4 = 0x3f400000,
    BITS_OF_257_256 = 0x3f808000,
    BITS_OF_3_2 = 0x3fc00000,
    BITS_OF_2796203_256 = 0x462aaaac,
    BITS_OF_8388607_256 = 0x46fffffe
};

/* Each row has one place. */
static const uint8_t telling[ROW_SIZE] = {1, 8, 0, 1, 2, 3, 4, 5, 6, 7, 0, 1, 0, 1}; /* step 1: the radius number is a, up to 7 */
static const uint8_t whole_case[ROW_SIZE] = {3, 2, 0, 2, [AT_STEP] = 1, 0, 0, 1};
static const uint8_t by_magnitude[ROW_SIZE] = {3, 2, 0, 2, [AT_STEP] = 1, 0, 0, 1, MAGNITUDE};
static const uint8_t with_fields[ROW_SIZE] = {2, 2, 0, 4, [AT_STEP] = 1, 0, 0, 1, PRODUCT_PRODUCT};
static const uint8_t radius_1[ROW_SIZE] = {2, 2, 0, 1, [AT_STEP] = 1, 0, 0, 1};
static const uint8_t radius_2[ROW_SIZE] = {2, 2, 0, 2, [AT_STEP] = 1, 0, 0, 1};

/* The radius number and the codeword are the last five bytes of the record; all before them is 0. */
static const struct {
    const uint8_t *row;
    uint32_t coefficients[3];
    struct answer answer;
} cases[] = {
    {telling, {BITS_OF_1_512}, {.record = {0}}},
    {telling, {BITS_OF_3_512}, {.record = {[3] = 2}}},
    {telling, {BITS_OF_5_512}, {.record = {[3] = 2}}},
    {telling, {MINUS(BITS_OF_1_512)}, {.record = {0}}},
    {telling, {MINUS(BITS_OF_3_512)}, {.record = {[3] = 2, [7] = 1}}},
    {telling, {MINUS(BITS_OF_5_512)}, {.record = {[3] = 2, [7] = 1}}},
    {telling, {BITS_BELOW_32768}, {.record = {[3] = 7}}},
    {telling, {BITS_OF_32768}, {.refusal = 11, .value = 0}},
    {radius_1, {BITS_OF_8388607_256, BITS_BELOW_32768}, {.record = {[3] = 1, [7] = 0}}},     /* more than 8,388,607: (0,1) */
    {radius_2, {BITS_BELOW_32768, BITS_OF_2796203_256}, {.record = {[3] = 1, [7] = 0}}},     /* less than 3 x 2,796,203: (1,1) */
    {radius_1, {BITS_BELOW_32768, MINUS(BITS_BELOW_32768)}, {.record = {[3] = 1, [7] = 2}}}, /* (1,0) */
    {radius_1, {BITS_OF_1, BITS_OF_32768}, {.refusal = 11, .value = 1}},
    {radius_1, {BITS_OF_1, MINUS(BITS_OF_32768)}, {.refusal = 11, .value = 1}},
    {whole_case, {BITS_OF_3_2, 0, MINUS(BITS_OF_3_4)}, {.record = {[3] = 1, [7] = 5}}}, /* (1,0,-1) */
    {whole_case, {BITS_OF_1, 0, 0}, {.record = {0}}},
    {whole_case, {BITS_OF_1_4, MINUS(BITS_OF_1_2), MINUS(BITS_OF_1_4)}, {.record = {0}}},
    {whole_case, {MINUS(BITS_OF_257_256), 0, 0}, {.record = {[3] = 1, [7] = 17}}}, /* sum 257: (-2,0,0) */
    {by_magnitude, {BITS_OF_3_2, 0, MINUS(BITS_OF_3_4)}, {.record = {[3] = 1, [7] = 9}}}, /* (1,0,-1) */
    {by_magnitude, {0, BITS_OF_257_256, 0}, {.record = {[3] = 1, [7] = 6}}},              /* (0,2,0) */
    {by_magnitude, {0, BITS_OF_1, 0}, {.record = {0}}},
    {with_fields, {BITS_OF_3_2, MINUS(BITS_OF_3_2)}, {.record = {[3] = 1, [7] = 5}}},    /* sum 768: (2,-2) */
    {with_fields, {MINUS(BITS_BELOW_32768), 0}, {.record = {[3] = 1, [7] = 19}}},        /* (-4,0) */
    {with_fields, {0, BITS_OF_8388607_256}, {.record = {[3] = 1, [7] = 16}}},            /* (0,4) */
    {with_fields, {BITS_OF_1, BITS_OF_1}, {.record = {0}}},                              /* sum 512, in the middle */
    {radius_1, {BITS_OF_1, BITS_OF_1}, {.record = {[3] = 1, [7] = 2}}}, /* (1,0) */
};

uint32_t compare_vector(const struct vector *vector)
{
    const struct quantizing made = quantize(vector);
    expect_quantize(vector, &made.answer);
    note_kinds(vector, &made);
    return made.answer.refusal;
}

/* The cases hold the program's own quantizer to docs/RULES.md too. */
static void compare_cases(void)
{
    for (uint64_t i = 0; i < ENTRIES(cases); i++) {
        struct vector vector = {.table = {.size = ROW_SIZE}, .books = 1, .record_length = RECORD_SIZE};
        vector.length = cases[i].row[AT_LENGTH];
        for (int j = 0; j < ROW_SIZE; j++)
            vector.table.bytes[j] = cases[i].row[j];
        for (uint64_t j = 0; j < vector.length; j++)
            vector.coefficients[j] = cases[i].coefficients[j];
        const struct quantizing made = quantize(&vector);
        own_figure("refusal of a case of the rules", made.answer.refusal, cases[i].answer.refusal);
        own_figure("value of a case of the rules", made.answer.value, cases[i].answer.value);
        for (int j = 0; j < RECORD_SIZE; j++)
            own_figure("byte of a record of the rules", made.answer.record[j], cases[i].answer.record[j]);
        expect_quantize(&vector, &cases[i].answer);
    }
}

/* All places of a table, one after the other, each in a book by chance. */
static void compare_all_places(void)
{
    struct vector vector = {.table = good_table_by_chance()};
    const uint64_t places = judge(vector.table.bytes, vector.table.size).places;
    for (vector.place = 0; vector.place < places; vector.place++) {
        give_books(&vector.books, &vector.book);
        coefficients_by_chance(&vector);
        compare_vector(&vector);
    }
}

void compare_vectors(void)
{
    compare_cases();
    for (int i = 0; i < TABLES_IN_FULL; i++)
        compare_all_places();
    for (int i = 0; i < CHANCE_TABLES; i++) {
        struct vector vector = {.table = good_table_by_chance()};
        for (int j = 0; j < VECTORS_OF_TABLE; j++) {
            place_by_chance(&vector);
            give_books(&vector.books, &vector.book);
            coefficients_by_chance(&vector);
            compare_vector(&vector);
        }
    }
    printf("vectors: %lu cases, %d tables place by place, ", ENTRIES(cases), TABLES_IN_FULL);
    printf("%d vectors by chance on %d tables\n", CHANCE_TABLES * VECTORS_OF_TABLE, CHANCE_TABLES);
}
