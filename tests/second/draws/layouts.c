/* Layouts by chance, and pages of any bytes. See docs/RULES.md, "States first". */

#include "page_draws.h"

const uint64_t layouts[LAYOUT_NUMBERS] = {
    CELL_BY_CELL, STATES_FIRST, 2, 255, 256, 65536, TWO_TO_32, TWO_TO_63, UINT64_MAX,
};

/* Either layout is as likely, and states first often by another number than 1. */
uint64_t layout_by_chance(void)
{
    const uint64_t states_first = chance_below(2) ? STATES_FIRST : layouts[1 + chance_below(LAYOUT_NUMBERS - 1)];
    return chance_below(2) ? CELL_BY_CELL : states_first;
}

void lay_by_chance(struct page *page)
{
    lay_out(page, layout_by_chance());
}

/* Gives every cell any bytes, so that most states are above 2. */
void cells_of_any_bytes(struct page *page)
{
    uint8_t cell[CELL_SIZE];
    for (uint64_t book = 0; book < page->filled; book++)
        for (uint64_t place = 0; place < page->places; place++) {
            for (uint64_t i = 0; i < CELL_SIZE; i++)
                cell[i] = (uint8_t)chance_below(256);
            set_cell(page, place_field(book, place), cell);
        }
}
