/* The two layouts of a page, by a helper of this test's own: it shares nothing with the calls, and nothing with
   tests/second. It goes through the bytes in their order and needs no formula. See docs/RULES.md, "States first". */

#include "slate.h"

/* All states, then all records. */
void lay_states_first(const uint8_t *restrict cell_by_cell, uint8_t *restrict states_first, uint64_t cells)
{
    const uint8_t *behind = cell_by_cell + CELL_SIZE * cells;
    for (const uint8_t *cell = cell_by_cell; cell < behind; cell += CELL_SIZE)
        *states_first++ = cell[AT_STATE];
    for (const uint8_t *cell = cell_by_cell; cell < behind; cell += CELL_SIZE)
        for (uint64_t i = AT_RECORD; i < CELL_SIZE; i++)
            *states_first++ = cell[i];
}

/* The way back. */
void lay_cell_by_cell(const uint8_t *restrict states_first, uint8_t *restrict cell_by_cell, uint64_t cells)
{
    const uint8_t *behind = cell_by_cell + CELL_SIZE * cells;
    for (uint8_t *cell = cell_by_cell; cell < behind; cell += CELL_SIZE)
        cell[AT_STATE] = *states_first++;
    for (uint8_t *cell = cell_by_cell; cell < behind; cell += CELL_SIZE)
        for (uint64_t i = AT_RECORD; i < CELL_SIZE; i++)
            cell[i] = *states_first++;
}

/* The way back in the page's own place. */
void keep_cell_by_cell(uint8_t *page, uint64_t cells)
{
    static uint8_t states_first[PAGE_ROOM];
    for (uint64_t i = 0; i < CELL_SIZE * cells; i++)
        states_first[i] = page[i];
    lay_cell_by_cell(states_first, page, cells);
}
