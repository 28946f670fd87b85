/* The places of the demo's page: the pairing table has a row for each band, and a place for each piece of a band. */

#include "demo.h"

/* Length, number of radii, eight radii, step, places, selector, a zero. */
const struct table demo_table = {
    .size = BANDS * ROW_SIZE,
    .bytes = {
        4,  8, 0, 2, 3, 4, 5, 6, 7, 9, 1, 0,   0, 24, 0, 0,
        8,  6, 0, 2, 4, 6, 8, 9, 0, 0, 1, 0,   0, 12, 0, 0,
        8,  7, 0, 1, 2, 3, 5, 7, 9, 0, 1, 0,   0, 12, 0, 0,
        16, 6, 0, 1, 2, 4, 6, 8, 0, 0, 1, 128, 0, 6,  0, 0,
    },
};

/* The pieces into which a band is cut, in coefficients: as many as its row's length. */
static const struct {
    uint64_t columns;
    uint64_t lines;
} pieces[BANDS] = {{2, 2}, {4, 2}, {4, 2}, {4, 4}};

/* The pieces of a band follow each other from left to right, then downward, and so do the coordinates of a piece. */
struct spot spot(uint64_t place, uint64_t coordinate)
{
    const uint64_t band = row_of(&demo_table, place), columns = pieces[band].columns, across = BAND_COLUMNS / columns;
    uint64_t piece = place;
    for (const uint8_t *row = demo_table.bytes; row < row_at(&demo_table, place); row += ROW_SIZE)
        piece -= two_bytes(row + AT_PLACES);
    return (struct spot){
        .band = band,
        .line = piece / across * pieces[band].lines + coordinate / columns,
        .column = piece % across * columns + coordinate % columns,
    };
}

/* A coefficient is of 2 by 2 pixels. */
struct box box_of(uint64_t place)
{
    const struct spot first = spot(place, 0);
    return (struct box){
        .column = 2 * first.column,
        .line = 2 * first.line,
        .columns = 2 * pieces[first.band].columns,
        .lines = 2 * pieces[first.band].lines,
    };
}

uint64_t length_at(uint64_t place)
{
    return row_at(&demo_table, place)[AT_LENGTH];
}
