/* The two layouts of a page, by rules of the program's own: where a state and a record stand in each, and what the
   conversions must answer. See docs/RULES.md, "States first", "Refusal numbers" and "Order of checks". */

#include "page.h"

/* The state of a cell stands before its record, or among the states of all cells in order. */
static uint64_t state_start(uint64_t layout, uint64_t number)
{
    return layout == CELL_BY_CELL ? CELL_SIZE * number + AT_STATE : number;
}

/* The record of a cell stands behind its state, or behind all states, among the records in the same order. */
static uint64_t record_start(uint64_t layout, uint64_t cells, uint64_t number)
{
    return layout == CELL_BY_CELL ? CELL_SIZE * number + AT_RECORD : cells + RECORD_SIZE * number;
}

/* Writes the cell of a number into a page of so many cells. */
void lay_cell(uint8_t *page, uint64_t layout, uint64_t cells, uint64_t number, const uint8_t *cell)
{
    page[state_start(layout, number)] = cell[AT_STATE];
    for (uint64_t i = 0; i < RECORD_SIZE; i++)
        page[record_start(layout, cells, number) + i] = cell[AT_RECORD + i];
}

/* Reads it. */
void copy_cell(const uint8_t *page, uint64_t layout, uint64_t cells, uint64_t number, uint8_t *cell)
{
    cell[AT_STATE] = page[state_start(layout, number)];
    for (uint64_t i = 0; i < RECORD_SIZE; i++)
        cell[AT_RECORD + i] = page[record_start(layout, cells, number) + i];
}

/* "to_states_first | 17, 7, 4" and "to_cell_by_cell | 17, 7, 4": a page becomes one of the other layout. On a refusal
   nothing is said of that one. */
struct list convert(const struct conversion *asked, uint8_t *converted)
{
    const struct page *page = asked->page;
    const struct judgment judgment = judge(asked->table->bytes, asked->table->size);
    const uint64_t cells = judgment.places * page->books;
    uint8_t cell[CELL_SIZE];
    if (is_no_number_of_books(page->books))
        return (struct list){{17}};
    if (judgment.faults)
        return (struct list){{7, judgment.row}};
    if (page->size != CELL_SIZE * cells || asked->length != CELL_SIZE * cells)
        return (struct list){{4}};
    for (uint64_t number = 0; number < cells; number++) {
        copy_cell(page->wanted + GUARDS, page->layout, cells, number, cell);
        lay_cell(converted, page->layout == CELL_BY_CELL ? STATES_FIRST : CELL_BY_CELL, cells, number, cell);
    }
    return (struct list){{0}};
}
