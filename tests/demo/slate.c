/* A slate of the demo, by our own calls. */

#include "demo.h"

/* It has one book, and keeps its page states first, as the calls for C do. It collects what came and reads every
   coefficient, mending. It draws nothing where no value comes with the answer. */
void receive(const struct capture *capture, struct bands *to)
{
    uint8_t page[CELL_SIZE * PLACES] = {0};
    probe_collect(demo_table.bytes, demo_table.size, ONE_BOOK, STATES_FIRST, page, sizeof page, capture->bytes,
                  capture->size);
    for (uint64_t place = 0; place < PLACES; place++)
        for (uint64_t i = 0; i < length_at(place); i++) {
            const struct spot at = spot(place, i);
            to->at[at.band][at.line][at.column] =
                probe_coefficient_value(MENDING_MODE, demo_table.bytes, demo_table.size, ONE_BOOK, 0, STATES_FIRST,
                                        page, sizeof page, place, i);
        }
}
