/* Plain C of the same calls, for speed: the answers, refusals and order of checks of docs/RULES.md, with counts from
   tables, but for the magnitude enumeration, which makes its own. It shares nothing with the calls that it is measured
   against, and nothing but the names of fields, sizes, selectors and layouts with the second program. */

#ifndef BENCH_PLAIN_H
#define BENCH_PLAIN_H

#include "../../tests/second/probe.h" /* for REFUSED alone */
#include "../../tests/second/rules/page.h"

#pragma GCC visibility push(hidden)

/* The numbers of the product enumeration, or of the product-product enumeration, by length and radius where nothing
   else is said. */
struct plain_order {
    uint64_t totals[MOST_LENGTH + 1][MOST_RADIUS + 1];
    uint64_t powers[MOST_LENGTH + 1][MOST_RADIUS + 1];                  /* 2^b of a usable shell */
    uint64_t starts[MOST_LENGTH + 1][MOST_RADIUS + 1][MOST_LENGTH + 1]; /* of the ranges, and by s */
    uint32_t bits[MOST_LENGTH + 1][MOST_RADIUS + 1];                    /* of the field for shapes, by s and radius */
    uint32_t largest[MOST_LENGTH + 1];                                  /* the largest usable radius of a length */
};

/* Filled once, at the start. The magnitude enumeration has the totals of the product enumeration. */
enum { BY_SHAPES, BY_FIELDS, ORDERS };
struct plain_counts {
    uint32_t patterns[MOST_LENGTH + 1][MOST_LENGTH + 1]; /* D, by length and s */
    uint32_t shapes[MOST_LENGTH + 1][MOST_RADIUS + 1];   /* S, by s and radius */
    struct plain_order orders[ORDERS];
};
extern struct plain_counts counts;

/* What a table says, and the row of a place; no places if it is bad. */
struct survey {
    uint64_t places;
    uint64_t row;
};

/* Where the rows of a good table end: row r has the places from ends[r] to before ends[r + 1]. */
struct row_ends {
    uint32_t number; /* of rows */
    uint32_t ends[MOST_ROWS + 1];
};

/* The refusal or 0; the distance of 6. */
struct plain_pointing {
    uint32_t refusal;
    uint64_t distance;
};

/* The refusal or 0; the answer, the reason of an unreadable one, and the distance of a mended one or of reason 6. */
struct plain_reading {
    uint32_t refusal;
    uint32_t answer;
    uint32_t reason;
    uint32_t distance;
};

/* The refusal or 0; the place and the coordinate of 11. */
struct plain_sending {
    uint32_t refusal;
    uint32_t place;
    uint32_t coordinate;
};

/* counts.c */
void plain_begin(void);

/* product.c and magnitude.c: in a usable shell with what has passed the checks; whether the index names a point, where
   not every index below the total does */
uint64_t plain_product_rank(uint64_t length, uint64_t radius, const int32_t *point);
void plain_product_unrank(uint64_t length, uint64_t radius, uint64_t index, int32_t *out);
uint64_t plain_fields_rank(uint64_t length, uint64_t radius, const int32_t *point);
int plain_fields_unrank(uint64_t length, uint64_t radius, uint64_t index, int32_t *out);
uint64_t plain_magnitude_rank(uint64_t length, uint64_t radius, const int32_t *point);
void plain_magnitude_unrank(uint64_t length, uint64_t radius, uint64_t index, int32_t *out);

/* points.c: the same by a selector, and the calls */
uint64_t plain_rank(uint64_t selector, uint64_t length, uint64_t radius, const int32_t *point);
int plain_unrank(uint64_t selector, uint64_t length, uint64_t radius, uint64_t index, int32_t *out);
uint64_t plain_index(uint64_t selector, uint64_t length, uint64_t radius, const int32_t *point, uint64_t point_length);
struct plain_pointing plain_point(uint64_t selector, uint64_t length, uint64_t radius, uint64_t index, int32_t *out,
                                  uint64_t out_length);

/* table.c */
struct survey plain_survey(const uint8_t *table, uint64_t table_length, uint64_t place);
struct row_ends plain_row_ends(const uint8_t *table, uint64_t table_length);

/* quantize.c */
uint32_t plain_quantize(const uint8_t *table, uint64_t table_length, uint64_t books, uint64_t book, uint64_t place,
                        const float *coefficients, uint64_t coefficients_length, uint8_t *record,
                        uint64_t record_length);

/* page.c: of the calls, and with a table that has passed its check; the field is that of a place in its book */
int plain_claim(const struct row_ends *rows, uint64_t books, uint64_t layout, uint8_t *page, const uint8_t *record);
struct plain_reading plain_look(uint64_t mode, const uint8_t *row, uint64_t row_number, uint32_t state,
                                const uint8_t *record, uint64_t field, int32_t *out);
uint32_t plain_take(const uint8_t *table, uint64_t table_length, uint64_t books, uint64_t layout, uint8_t *page,
                    uint64_t page_length, const uint8_t *record, uint64_t record_length);
uint64_t plain_collect(const uint8_t *table, uint64_t table_length, uint64_t books, uint64_t layout, uint8_t *page,
                       uint64_t page_length, const uint8_t *bytes, uint64_t bytes_length);
struct plain_reading plain_read(uint64_t mode, const uint8_t *table, uint64_t table_length, uint64_t books,
                                uint64_t book, uint64_t layout, const uint8_t *page, uint64_t page_length,
                                uint64_t place, int32_t *out, uint64_t out_length);

/* conversion.c */
uint32_t plain_to_states_first(const uint8_t *table, uint64_t table_length, uint64_t books, const uint8_t *cell_by_cell,
                               uint64_t cell_by_cell_length, uint8_t *states_first, uint64_t states_first_length);
uint32_t plain_to_cell_by_cell(const uint8_t *table, uint64_t table_length, uint64_t books, const uint8_t *states_first,
                               uint64_t states_first_length, uint8_t *cell_by_cell, uint64_t cell_by_cell_length);

/* send.c */
struct plain_sending plain_send(const uint8_t *table, uint64_t table_length, uint64_t books, uint64_t book,
                                const float *run, uint64_t run_length, uint8_t *buffer, uint64_t buffer_length);

/* What a selector says of totals, widths and usable radii. */
static inline const struct plain_order *order_of(uint64_t selector)
{
    return &counts.orders[selector == PRODUCT_PRODUCT ? BY_FIELDS : BY_SHAPES];
}

static inline uint32_t pair_at(const uint8_t *high)
{
    return (uint32_t)high[0] << 8 | high[1];
}

/* "Books": whether there can be so many, the place field and what it numbers. */
static inline int are_books(uint64_t books)
{
    return books - 1 < MOST_BOOKS;
}

static inline uint64_t plain_field(uint64_t book, uint64_t place)
{
    return book << PLACE_BITS | place;
}

static inline uint64_t plain_book(uint64_t field)
{
    return field >> PLACE_BITS;
}

static inline uint64_t plain_place(uint64_t field)
{
    return field & (MOST_PLACES - 1);
}

/* Where the state of a cell stands in a page of that layout, and where its record begins if there are so many cells. */
static inline uint64_t plain_state_at(uint64_t layout, uint64_t cell)
{
    return layout == CELL_BY_CELL ? CELL_SIZE * cell + AT_STATE : cell;
}

static inline uint64_t plain_record_at(uint64_t layout, uint64_t cells, uint64_t cell)
{
    return layout == CELL_BY_CELL ? CELL_SIZE * cell + AT_RECORD : cells + RECORD_SIZE * cell;
}

#pragma GCC visibility pop

#endif
