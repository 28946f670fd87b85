/* What is gathered, held to the page that the second program's take makes of the same capture, record by record. */

#include "../listing.h"

#include <string.h>

void hold_to_take(const struct table *table, const struct capture *capture, const struct gathering *gathering)
{
    static struct page page;
    uint8_t cell[CELL_SIZE];
    begin_page(&page, gathering->places);
    own_figure("refused takes of what is gathered", gathering->refused, collect_bytes(table, &page, capture->bytes, capture->size));
    for (uint64_t place = 0; place < gathering->places; place++) {
        cell_of(gathering, place, cell);
        own_figure("a cell of what is gathered, which differs from that of take", memcmp(cell, cell_at(&page, place), CELL_SIZE) != 0, 0);
    }
}
