/* A page into the other layout, cell by cell into states first and back; docs/RULES.md, "States first". */

#include "plain.h"

/* "17, 7, 4", or 0: both pages have the length of the table's cells in so many books. */
static uint32_t refusal_of_pages(const uint8_t *table, uint64_t table_length, uint64_t books, uint64_t length,
                                 uint64_t other_length)
{
    if (!are_books(books))
        return 17;
    const uint64_t places = plain_survey(table, table_length, 0).places;
    if (places == 0)
        return 7;
    return length == CELL_SIZE * places * books && other_length == length ? 0 : 4;
}

uint32_t plain_to_states_first(const uint8_t *table, uint64_t table_length, uint64_t books, const uint8_t *cell_by_cell,
                               uint64_t cell_by_cell_length, uint8_t *states_first, uint64_t states_first_length)
{
    const uint32_t refusal = refusal_of_pages(table, table_length, books, cell_by_cell_length, states_first_length);
    if (refusal)
        return refusal;
    const uint64_t cells = states_first_length / CELL_SIZE;
    uint8_t *records = states_first + cells;
    for (uint64_t i = 0; i < cells; i++) {
        states_first[i] = cell_by_cell[CELL_SIZE * i + AT_STATE];
        __builtin_memcpy(records + RECORD_SIZE * i, cell_by_cell + CELL_SIZE * i + AT_RECORD, RECORD_SIZE);
    }
    return 0;
}

uint32_t plain_to_cell_by_cell(const uint8_t *table, uint64_t table_length, uint64_t books, const uint8_t *states_first,
                               uint64_t states_first_length, uint8_t *cell_by_cell, uint64_t cell_by_cell_length)
{
    const uint32_t refusal = refusal_of_pages(table, table_length, books, states_first_length, cell_by_cell_length);
    if (refusal)
        return refusal;
    const uint64_t cells = states_first_length / CELL_SIZE;
    const uint8_t *records = states_first + cells;
    for (uint64_t i = 0; i < cells; i++) {
        cell_by_cell[CELL_SIZE * i + AT_STATE] = states_first[i];
        __builtin_memcpy(cell_by_cell + CELL_SIZE * i + AT_RECORD, records + RECORD_SIZE * i, RECORD_SIZE);
    }
    return 0;
}
