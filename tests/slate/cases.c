/* What docs/RULES.md says of single counts, and of single takes into pages of one book, as it stands there: none of
   the rules of tests/second comes between. See "Points and counts", "The page", "Worked cases" and "Calls for C". */

#include "slate.h"

#include <stdio.h>
#include <stdlib.h>

static const struct {
    uint64_t length;
    uint64_t radius;
    uint64_t n;
} counts[] = {
    {2, 3, 12}, {3, 2, 18}, {4, 0, 1}, {16, 12, 3575055360}, {16, 13, 0}, {0, 0, 0}, {17, 0, 0}, {1, 33, 0},
};

/* `pairing.bin`, the two records of `records.bin`, the first one with a bit of its codeword changed, the first one with
   another row, and two of a place that is not there. */
const uint8_t two_places[ROW_SIZE] = {3, 2, 0, 2, 0, 0, 0, 0, 0, 0, 1, 0, 0, 2, 0, 0};
static const uint8_t first[] = {0, 0, 0, 1, 0, 0, 0, 0x05}, second[] = {0, 1, 0, 1, 0, 0, 0, 0x12};
static const uint8_t changed[] = {0, 0, 0, 1, 0, 0, 0, 0x07}, foreign[] = {0, 0, 1, 1, 0, 0, 0, 0x05};
static const uint8_t past[] = {0, 2, 0, 1, 0, 0, 0, 0x05}, foreign_past[] = {0, 2, 1, 1, 0, 0, 0, 0x05};

/* The records in the page, behind its two states; the last one only somebody else can bring there. */
#define FIRST 0, 0, 0, 1, 0, 0, 0, 0x05
#define SECOND 0, 1, 0, 1, 0, 0, 0, 0x12
#define ZEROS 0, 0, 0, 0, 0, 0, 0, 0
#define OF_ANOTHER_ROW 0, 0, 1, 1, 0, 0, 0, 0x05

/* One take after the other into a page that is empty at first, but for one byte of place 0 that is set before: its
   state, or the row of its record. Then what is lent, the answer and the page. */
enum { STATE_BYTE = 0, ROW_BYTE = 2 + AT_ROW };
static const struct {
    uint64_t at;
    uint8_t byte;
    uint64_t table_length;
    uint64_t page_length;
    const uint8_t *record;
    uint64_t length;
    uint32_t answer;
    uint8_t page[2 * CELL_SIZE];
} takes[] = {
    {STATE_BYTE, 0, 16, 18, foreign, 8, ALDRYNJA_FOREIGN_ROW, {0}},
    {STATE_BYTE, 0, 16, 18, first, 8, ALDRYNJA_TAKEN, {1, 0, FIRST}},
    {STATE_BYTE, 1, 16, 18, second, 8, ALDRYNJA_TAKEN, {1, 1, FIRST, SECOND}},
    {STATE_BYTE, 1, 16, 18, first, 8, ALDRYNJA_TAKEN, {1, 1, FIRST, SECOND}},
    {STATE_BYTE, 1, 16, 18, past, 8, ALDRYNJA_NO_SUCH_PLACE, {1, 1, FIRST, SECOND}},
    {STATE_BYTE, 1, 16, 18, changed, 7, ALDRYNJA_BUFFER_LENGTH, {1, 1, FIRST, SECOND}},
    {STATE_BYTE, 1, 16, 17, changed, 8, ALDRYNJA_BUFFER_LENGTH, {1, 1, FIRST, SECOND}},
    {STATE_BYTE, 1, 15, 18, changed, 8, ALDRYNJA_BAD_TABLE, {1, 1, FIRST, SECOND}},
    {STATE_BYTE, 1, 16, 18, foreign, 8, ALDRYNJA_FOREIGN_ROW, {1, 1, FIRST, SECOND}},
    {STATE_BYTE, 1, 16, 18, foreign_past, 8, ALDRYNJA_NO_SUCH_PLACE, {1, 1, FIRST, SECOND}},
    {STATE_BYTE, 1, 16, 18, foreign, 7, ALDRYNJA_BUFFER_LENGTH, {1, 1, FIRST, SECOND}},
    {STATE_BYTE, 1, 16, 17, foreign, 8, ALDRYNJA_BUFFER_LENGTH, {1, 1, FIRST, SECOND}},
    {STATE_BYTE, 1, 15, 18, foreign, 8, ALDRYNJA_BAD_TABLE, {1, 1, FIRST, SECOND}},
    {ROW_BYTE, 1, 16, 18, first, 8, ALDRYNJA_BAD_CELL, {1, 1, OF_ANOTHER_ROW, SECOND}},
    {ROW_BYTE, 1, 16, 18, foreign, 8, ALDRYNJA_FOREIGN_ROW, {1, 1, OF_ANOTHER_ROW, SECOND}},
    {ROW_BYTE, 0, 16, 18, changed, 8, ALDRYNJA_TAKEN, {2, 1, ZEROS, SECOND}},
    {STATE_BYTE, 2, 16, 18, first, 8, ALDRYNJA_TAKEN, {2, 1, ZEROS, SECOND}},
    {STATE_BYTE, 2, 16, 18, foreign, 8, ALDRYNJA_FOREIGN_ROW, {2, 1, ZEROS, SECOND}},
    {STATE_BYTE, 3, 16, 18, first, 8, ALDRYNJA_BAD_CELL, {3, 1, ZEROS, SECOND}},
    {STATE_BYTE, 3, 16, 18, foreign, 8, ALDRYNJA_FOREIGN_ROW, {3, 1, ZEROS, SECOND}},
};

/* The table of the page of three places: the places 0 and 1 are of row 0, and place 2 is of row 1. */
static const uint8_t three_places[] = {3, 2, 0, 2, 0, 0, 0, 0, 0, 0, 1, 0,  0, 2, 0, 0,
                                       2, 2, 0, 4, 0, 0, 0, 0, 0, 0, 0, 77, 0, 1, 0, 0};
enum { PLACES = 3, ROWS = 256, BYTES = 256 };

/* The shells that only the selectors 0 and 1 make usable, each with the largest radius of its length by N. */
static const struct {
    uint8_t length;
    uint8_t radius;
} totals[] = {{9, 27}, {10, 22}, {13, 15}, {16, 12}};

void compare_case(const char *call, uint64_t number, uint64_t expected, uint64_t got)
{
    if (got != expected) {
        printf("%s, case %lu of the rules: expected %lu, got %lu\n", call, number, expected, got);
        exit(1);
    }
}

/* States first: 1 is the state of the held cell, and 0 that of every other one. The records come behind all states. */
uint8_t held_alone(uint64_t cells, uint64_t cell, const uint8_t *record, uint64_t at)
{
    if (at < cells)
        return at == cell;
    return (at - cells) / RECORD_SIZE == cell ? record[(at - cells) % RECORD_SIZE] : 0;
}

static void compare_takes(void)
{
    uint8_t page[2 * CELL_SIZE] = {0};
    for (uint64_t i = 0; i < ENTRIES(takes); i++) {
        page[takes[i].at] = takes[i].byte;
        compare_case("aldrynja_take", i, takes[i].answer,
                     aldrynja_take(two_places, takes[i].table_length, 1, page, takes[i].page_length, takes[i].record,
                                   takes[i].length));
        for (uint64_t j = 0; j < sizeof page; j++)
            compare_case("the page of aldrynja_take", i, takes[i].page[j], page[j]);
    }
}

/* Every row for a place, into a new page. */
static void compare_rows_at(uint8_t place)
{
    const uint8_t own_row = place == 2 ? 1 : 0;
    for (int row = 0; row < ROWS; row++) {
        const uint8_t record[RECORD_SIZE] = {0, place, (uint8_t)row, 1, 0, 0, 0, 0x05};
        const uint64_t other_row = place < PLACES ? ALDRYNJA_FOREIGN_ROW : ALDRYNJA_NO_SUCH_PLACE;
        const int is_taken = place < PLACES && row == own_row;
        uint8_t page[PLACES * CELL_SIZE] = {0};
        compare_case("aldrynja_take, a row", (uint64_t)row, is_taken ? ALDRYNJA_TAKEN : other_row,
                     aldrynja_take(three_places, sizeof three_places, 1, page, sizeof page, record, RECORD_SIZE));
        for (uint64_t j = 0; j < sizeof page; j++)
            compare_case("the page of aldrynja_take, a row", (uint64_t)row,
                         is_taken ? held_alone(PLACES, place, record, j) : 0, page[j]);
    }
}

/* Every selector of row 1 of that table, with a record of place 0, which is of row 0. */
static void compare_selectors(void)
{
    uint8_t table[sizeof three_places];
    for (uint64_t i = 0; i < sizeof table; i++)
        table[i] = three_places[i];
    for (int selector = 0; selector < BYTES; selector++) {
        uint8_t page[PLACES * CELL_SIZE] = {0};
        table[ROW_SIZE + AT_SELECTOR] = (uint8_t)selector;
        compare_case("aldrynja_take, a selector", (uint64_t)selector, selector < 3 ? ALDRYNJA_TAKEN : ALDRYNJA_BAD_TABLE,
                     aldrynja_take(table, sizeof table, 1, page, sizeof page, first, sizeof first));
        compare_case("the state of place 0, a selector", (uint64_t)selector, selector < 3, page[STATE_BYTE]);
    }
}

/* A row of one place whose total is above 2^32 with selector 2 alone; with the next smaller radius it is so with none.
   The record is of place 0. */
static void compare_totals(void)
{
    for (uint64_t i = 0; i < ENTRIES(totals); i++)
        for (uint8_t selector = 0; selector < 3; selector++)
            for (uint8_t less = 0; less < 2; less++) {
                const uint8_t radius = (uint8_t)(totals[i].radius - less);
                const uint8_t table[ROW_SIZE] = {totals[i].length, 2, 0, radius, 0, 0, 0, 0, 0, 0, 1, 0, 0, 1, selector, 0};
                uint8_t page[CELL_SIZE] = {0};
                const int is_bad = selector == 2 && less == 0;
                compare_case("aldrynja_take, a total", i, is_bad ? ALDRYNJA_BAD_TABLE : ALDRYNJA_TAKEN,
                             aldrynja_take(table, sizeof table, 1, page, sizeof page, first, sizeof first));
                compare_case("the state of place 0, a total", i, is_bad ? 0 : 1, page[STATE_BYTE]);
            }
}

void compare_cases(void)
{
    compare_case("the version of the header", 0, 6, ALDRYNJA_VERSION);
    compare_case("aldrynja_version", 0, 6, aldrynja_version());
    for (uint64_t i = 0; i < ENTRIES(counts); i++)
        compare_case("aldrynja_count", i, counts[i].n, aldrynja_count(counts[i].length, counts[i].radius));
    compare_takes();
    for (uint8_t place = 0; place <= PLACES; place++)
        compare_rows_at(place);
    compare_selectors();
    compare_totals();
    printf("cases: 1 version, %lu counts, %lu takes, ", ENTRIES(counts), ENTRIES(takes));
    printf("%d rows at each of %d places, %d selectors, %lu rows beside 2^32\n", ROWS, PLACES + 1, BYTES, 6 * ENTRIES(totals));
}
