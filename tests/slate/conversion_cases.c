/* What docs/RULES.md says of single conversions, and of a page that is lent in the wrong layout, as it stands there:
   none of the rules of tests/second, and no layout of layouts.c, comes between. See "States first", "Refusal numbers"
   and "Order of checks". */

#include "conversions.h"

#include <stdio.h>

enum { TWO_PLACES = 2, ONE = TWO_PLACES * CELL_SIZE, TWO = 2 * ONE, STATES = 256 };

/* Pages of two places in one book and in two, each byte numbered where it stands cell by cell; and the same pages with
   their states first. A state is a number in nines. */
#define RECORD_FROM(n) (n), (n) + 1, (n) + 2, (n) + 3, (n) + 4, (n) + 5, (n) + 6, (n) + 7
#define CELL_FROM(n) (n), RECORD_FROM((n) + 1)
static const uint8_t numbered[TWO] = {CELL_FROM(0), CELL_FROM(9), CELL_FROM(18), CELL_FROM(27)};
static const uint8_t one_book[ONE] = {0, 9, RECORD_FROM(1), RECORD_FROM(10)};
static const uint8_t two_books[TWO] = {0, 9, 18, 27, RECORD_FROM(1), RECORD_FROM(10), RECORD_FROM(19), RECORD_FROM(28)};

/* What is lent beside the two pages, and the answer. */
static const struct {
    uint64_t books;
    uint64_t table_length;
    uint64_t first_length;
    uint64_t second_length;
    uint32_t answer;
} conversions[] = {
    {1, 16, ONE, ONE, ALDRYNJA_CONVERTED},
    {2, 16, TWO, TWO, ALDRYNJA_CONVERTED},
    {1, 16, ONE - 1, ONE, ALDRYNJA_BUFFER_LENGTH},
    {1, 16, ONE, ONE - 1, ALDRYNJA_BUFFER_LENGTH},
    {1, 16, ONE + 1, ONE, ALDRYNJA_BUFFER_LENGTH},
    {1, 16, ONE, ONE + 1, ALDRYNJA_BUFFER_LENGTH},
    {1, 16, ONE - CELL_SIZE, ONE - CELL_SIZE, ALDRYNJA_BUFFER_LENGTH},
    {1, 16, 0, 0, ALDRYNJA_BUFFER_LENGTH},
    {1, 16, TWO, ONE, ALDRYNJA_BUFFER_LENGTH},
    {1, 16, ONE, TWO, ALDRYNJA_BUFFER_LENGTH},
    {1, 16, TWO, TWO, ALDRYNJA_BUFFER_LENGTH},
    {2, 16, ONE, ONE, ALDRYNJA_BUFFER_LENGTH},
    {2, 16, TWO, ONE, ALDRYNJA_BUFFER_LENGTH},
    {16, 16, TWO, TWO, ALDRYNJA_BUFFER_LENGTH},
    {1, 15, ONE, ONE, ALDRYNJA_BAD_TABLE},
    {1, 0, ONE, ONE, ALDRYNJA_BAD_TABLE},
    {1, 15, ONE - 1, ONE, ALDRYNJA_BAD_TABLE},
    {1, 15, ONE, ONE - 1, ALDRYNJA_BAD_TABLE},
    {0, 16, ONE, ONE, ALDRYNJA_BOOKS_OUTSIDE},
    {0, 16, 0, 0, ALDRYNJA_BOOKS_OUTSIDE},
    {17, 16, TWO, TWO, ALDRYNJA_BOOKS_OUTSIDE},
    {256 + 2, 16, TWO, TWO, ALDRYNJA_BOOKS_OUTSIDE},
    {TWO_TO_32 + 1, 16, ONE, ONE, ALDRYNJA_BOOKS_OUTSIDE},
    {TWO_TO_63 + 2, 16, TWO, TWO, ALDRYNJA_BOOKS_OUTSIDE},
    {UINT64_MAX, 16, ONE, ONE, ALDRYNJA_BOOKS_OUTSIDE},
    {0, 15, ONE, ONE, ALDRYNJA_BOOKS_OUTSIDE},
    {17, 16, ONE - 1, ONE, ALDRYNJA_BOOKS_OUTSIDE},
    {17, 15, ONE, ONE - 1, ALDRYNJA_BOOKS_OUTSIDE},
};

static void compare_pages(const char *call, uint64_t number, const uint8_t *wanted, const uint8_t *got, uint64_t size)
{
    for (uint64_t i = 0; i < size; i++)
        compare_case(call, number, wanted[i], got[i]);
}

/* Both ways. The second page is all 200, and stays so but where it is converted. */
static void compare_conversion_case(uint64_t i)
{
    const uint8_t *laid = conversions[i].books == 1 ? one_book : two_books;
    const uint64_t changed = conversions[i].answer == ALDRYNJA_CONVERTED ? conversions[i].second_length : 0;
    uint8_t first[TWO], to_states_first[TWO], to_cell_by_cell[TWO], untouched[TWO];
    for (uint64_t j = 0; j < TWO; j++) {
        untouched[j] = 200;
        to_states_first[j] = untouched[j];
        to_cell_by_cell[j] = untouched[j];
        first[j] = j < conversions[i].first_length && changed ? laid[j] : numbered[j];
    }
    compare_case("aldrynja_to_states_first", i, conversions[i].answer,
                 aldrynja_to_states_first(two_places, conversions[i].table_length, conversions[i].books, numbered,
                                          conversions[i].first_length, to_states_first, conversions[i].second_length));
    compare_case("aldrynja_to_cell_by_cell", i, conversions[i].answer,
                 aldrynja_to_cell_by_cell(two_places, conversions[i].table_length, conversions[i].books, first,
                                          conversions[i].first_length, to_cell_by_cell, conversions[i].second_length));
    compare_pages("the page of aldrynja_to_states_first", i, laid, to_states_first, changed);
    compare_pages("the page of aldrynja_to_cell_by_cell", i, numbered, to_cell_by_cell, changed);
    compare_pages("what stays, states first", i, untouched + changed, to_states_first + changed, TWO - changed);
    compare_pages("what stays, cell by cell", i, untouched + changed, to_cell_by_cell + changed, TWO - changed);
}

/* States are not judged: each one at place 1, there and back. */
static void compare_states(void)
{
    for (int state = 0; state < STATES; state++) {
        const uint8_t cell_by_cell[ONE] = {CELL_FROM(0), (uint8_t)state, RECORD_FROM(10)};
        const uint8_t states_first[ONE] = {0, (uint8_t)state, RECORD_FROM(1), RECORD_FROM(10)};
        uint8_t there[ONE] = {0}, back[ONE] = {0};
        compare_case("aldrynja_to_states_first, a state", (uint64_t)state, ALDRYNJA_CONVERTED,
                     aldrynja_to_states_first(two_places, ROW_SIZE, 1, cell_by_cell, ONE, there, ONE));
        compare_case("aldrynja_to_cell_by_cell, a state", (uint64_t)state, ALDRYNJA_CONVERTED,
                     aldrynja_to_cell_by_cell(two_places, ROW_SIZE, 1, there, ONE, back, ONE));
        compare_pages("the page of aldrynja_to_states_first, a state", (uint64_t)state, states_first, there, ONE);
        compare_pages("the page of aldrynja_to_cell_by_cell, a state", (uint64_t)state, cell_by_cell, back, ONE);
    }
}

/* The page of the whole case, both places held. Lent as it was kept cell by cell it is another page, in which place 0
   is held with a record of row 1, so a take there is refused. Converted, it holds that record already. */
static void compare_wrong_layout(void)
{
    const uint8_t cell_by_cell[ONE] = {1, 0, 0, 0, 1, 0, 0, 0, 0x05, 1, 0, 1, 0, 1, 0, 0, 0, 0x12};
    const uint8_t states_first[ONE] = {1, 1, 0, 0, 0, 1, 0, 0, 0, 0x05, 0, 1, 0, 1, 0, 0, 0, 0x12};
    const uint8_t record[RECORD_SIZE] = {0, 0, 0, 1, 0, 0, 0, 0x05};
    uint8_t as_it_was[ONE], converted[ONE] = {0};
    for (uint64_t i = 0; i < ONE; i++)
        as_it_was[i] = cell_by_cell[i];
    compare_case("aldrynja_take, a page cell by cell", 0, ALDRYNJA_BAD_CELL,
                 aldrynja_take(two_places, ROW_SIZE, 1, as_it_was, ONE, record, RECORD_SIZE));
    compare_pages("the page of aldrynja_take, a page cell by cell", 0, cell_by_cell, as_it_was, ONE);
    compare_case("aldrynja_to_states_first, the whole case", 0, ALDRYNJA_CONVERTED,
                 aldrynja_to_states_first(two_places, ROW_SIZE, 1, as_it_was, ONE, converted, ONE));
    compare_case("aldrynja_take, the whole case", 0, ALDRYNJA_TAKEN,
                 aldrynja_take(two_places, ROW_SIZE, 1, converted, ONE, record, RECORD_SIZE));
    compare_pages("the page of aldrynja_take, the whole case", 0, states_first, converted, ONE);
}

void compare_conversion_cases(void)
{
    for (uint64_t i = 0; i < ENTRIES(conversions); i++)
        compare_conversion_case(i);
    compare_states();
    compare_wrong_layout();
    printf("cases of conversions: %lu both ways, %d states, ", ENTRIES(conversions), STATES);
    printf("and a page that is lent in the wrong layout\n");
}
