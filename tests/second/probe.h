/* The calls under test, as a sender or a slate would link them. Any archive that has these seventeen can be held
   to the second program. The refusal numbers and the order of checks are those of docs/RULES.md, "Refusal numbers" and
   "Order of checks". */

#ifndef SECOND_PROBE_H
#define SECOND_PROBE_H

#include <stdint.h>

/* An answer of the first two calls that is REFUSED or more is REFUSED plus the refusal number. */
#define REFUSED ((uint64_t)1 << 40)

/* N, or refused 1, 2, 3. */
uint64_t probe_count(uint64_t length, uint64_t radius);

/* The index of the point, or refused 20, 1, 2, 3, 4, 5. */
uint64_t probe_index(uint64_t selector, uint64_t length, uint64_t radius, const int32_t *point, uint64_t point_length);

/* 0 for a good pairing table, else 7. */
uint32_t probe_check(const uint8_t *table, uint64_t table_length);

/* The number of places of a good pairing table, else the row that refusal 7 names. */
uint64_t probe_check_value(const uint8_t *table, uint64_t table_length);

/* From here on `books` is how many books there are, and `book` is one of them: docs/RULES.md, "Books". A place is one
   in its book. */

/* 0, and the record in `record`; or the refusal number 17, 7, 8, 4, 11, and `record` as it was. */
uint32_t probe_quantize(const uint8_t *table, uint64_t table_length, uint64_t books, uint64_t book, uint64_t place,
                        const float *coefficients, uint64_t coefficients_length, uint8_t *record,
                        uint64_t record_length);

/* The value that a refusal of quantize names: the row of 7, the coordinate of 11; else 0. It writes the record too. */
uint64_t probe_quantize_value(const uint8_t *table, uint64_t table_length, uint64_t books, uint64_t book,
                              uint64_t place, const float *coefficients, uint64_t coefficients_length, uint8_t *record,
                              uint64_t record_length);

/* Of the calls below, those with `which` answer a list and give its item of that number; an item past the end of the
   list is 0. A refusal is the list of its number and what the rules name with it: the distance of 6, the row of 7, and
   in the tally and in lines the place of 12. In send 11 names the place and then the coordinate. A mode is 0, plain, or
   1, mending. */

/* The list 0, and the point of the index in `out`; or refused 20, 1, 2, 3, 4, 6, 15, and `out` is as it was. */
uint64_t probe_point(uint64_t selector, uint64_t length, uint64_t radius, uint64_t index, int32_t *out, uint64_t out_length,
                     uint64_t which);

/* Each call of the page is given the layout in which the page is kept, directly before it: 0 is cell by cell, and any
   other number states first. */

/* The list 0, and the record is taken into the page; or refused 17, 7, 4, 8, 9, 12, and the page is as it was. */
uint64_t probe_take(const uint8_t *table, uint64_t table_length, uint64_t books, uint64_t layout, uint8_t *page,
                    uint64_t page_length, const uint8_t *record, uint64_t record_length, uint64_t which);

/* Takes each 8 of the bytes in turn, and a shorter last part too; answers how many of these takes were refused. */
uint64_t probe_collect(const uint8_t *table, uint64_t table_length, uint64_t books, uint64_t layout, uint8_t *page,
                       uint64_t page_length, const uint8_t *bytes, uint64_t bytes_length);

/* The list 0, answer, reason: the answers are sound, mended, missing, contested and unreadable, from 0 on; the reason
   is 10, 14, 6 or 15 where the place is unreadable, 6 in plain mode alone, else 0. The distance of a mended place, or
   of one with reason 6, is the item behind these. `out` has the point, or zeros. Or refused 16, 17, 7, 8, 4, 12, and
   `out` is as it was. */
uint64_t probe_read(uint64_t mode, const uint8_t *table, uint64_t table_length, uint64_t books, uint64_t book,
                    uint64_t layout, const uint8_t *page, uint64_t page_length, uint64_t place, int32_t *out,
                    uint64_t out_length, uint64_t which);

/* The same list for one coefficient; or refused 16, 17, 7, 8, 4, 13, 12. */
uint64_t probe_coefficient(uint64_t mode, const uint8_t *table, uint64_t table_length, uint64_t books, uint64_t book,
                           uint64_t layout, const uint8_t *page, uint64_t page_length, uint64_t place,
                           uint64_t coordinate, uint64_t which);

/* The value that comes with sound or mended; else positive zero. */
float probe_coefficient_value(uint64_t mode, const uint8_t *table, uint64_t table_length, uint64_t books, uint64_t book,
                              uint64_t layout, const uint8_t *page, uint64_t page_length, uint64_t place,
                              uint64_t coordinate);

/* The list 0, sound, mended, missing, contested, unreadable: how many places of the book have each answer; or refused
   16, 17, 7, 8, 4, 12. */
uint64_t probe_tally(uint64_t mode, const uint8_t *table, uint64_t table_length, uint64_t books, uint64_t book,
                     uint64_t layout, const uint8_t *page, uint64_t page_length, uint64_t which);

/* The list 0, the place to go on from, how many bytes were written: the lines of the listing from a place on, as many
   as the book has or as `out` has room for with 256 bytes each. Or refused 16, 17, 7, 8, 4, 12, and `out` is as it
   was. */
uint64_t probe_lines(uint64_t mode, const uint8_t *table, uint64_t table_length, uint64_t books, uint64_t book,
                     uint64_t layout, const uint8_t *page, uint64_t page_length, uint64_t from, uint8_t *out,
                     uint64_t out_length, uint64_t which);

/* The list 0, and the page, which is kept cell by cell, with its states first in the other buffer; or refused 17, 7, 4,
   and that buffer is as it was. States are copied, whatever they are. */
uint64_t probe_to_states_first(const uint8_t *table, uint64_t table_length, uint64_t books, const uint8_t *cell_by_cell,
                               uint64_t cell_by_cell_length, uint8_t *states_first, uint64_t states_first_length,
                               uint64_t which);

/* The same the other way round. */
uint64_t probe_to_cell_by_cell(const uint8_t *table, uint64_t table_length, uint64_t books, const uint8_t *states_first,
                               uint64_t states_first_length, uint8_t *cell_by_cell, uint64_t cell_by_cell_length,
                               uint64_t which);

/* The list 0, and the records of all places of the book in `buffer`; or refused 17, 7, 8, 4, 11, and `buffer` as it
   was. The run has the coefficients of all places in order. */
uint64_t probe_send(const uint8_t *table, uint64_t table_length, uint64_t books, uint64_t book, const float *run,
                    uint64_t run_length, uint8_t *buffer, uint64_t buffer_length, uint64_t which);

#endif
