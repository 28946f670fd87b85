/* One comparison of index, of point, of quantize, or of a call of the page, with what is expected of it. The call is
   handed over, so that nothing here names what is under test. */

#ifndef SECOND_LENT_CALLS_H
#define SECOND_LENT_CALLS_H

#include "lent.h"

/* The calls, as probe.h declares them. */
typedef uint64_t index_call(uint64_t selector, uint64_t length, uint64_t radius, const int32_t *point, uint64_t point_length);
typedef uint64_t point_call(uint64_t selector, uint64_t length, uint64_t radius, uint64_t index, int32_t *out, uint64_t out_length,
                            uint64_t which);
typedef uint32_t quantize_call(const uint8_t *table, uint64_t table_length, uint64_t books, uint64_t book,
                               uint64_t place, const float *coefficients, uint64_t coefficients_length, uint8_t *record,
                               uint64_t record_length);
typedef uint64_t quantize_value_call(const uint8_t *table, uint64_t table_length, uint64_t books, uint64_t book,
                                     uint64_t place, const float *coefficients, uint64_t coefficients_length,
                                     uint8_t *record, uint64_t record_length);
typedef uint64_t take_call(const uint8_t *table, uint64_t table_length, uint64_t books, uint64_t layout, uint8_t *page,
                           uint64_t page_length, const uint8_t *record, uint64_t record_length, uint64_t which);
typedef uint64_t read_call(uint64_t mode, const uint8_t *table, uint64_t table_length, uint64_t books, uint64_t book,
                           uint64_t layout, const uint8_t *page, uint64_t page_length, uint64_t place, int32_t *out,
                           uint64_t out_length, uint64_t which);
typedef uint64_t coefficient_call(uint64_t mode, const uint8_t *table, uint64_t table_length, uint64_t books,
                                  uint64_t book, uint64_t layout, const uint8_t *page, uint64_t page_length,
                                  uint64_t place, uint64_t coordinate, uint64_t which);
typedef float value_call(uint64_t mode, const uint8_t *table, uint64_t table_length, uint64_t books, uint64_t book,
                         uint64_t layout, const uint8_t *page, uint64_t page_length, uint64_t place,
                         uint64_t coordinate);
typedef uint64_t tally_call(uint64_t mode, const uint8_t *table, uint64_t table_length, uint64_t books, uint64_t book,
                            uint64_t layout, const uint8_t *page, uint64_t page_length, uint64_t which);
typedef uint64_t lines_call(uint64_t mode, const uint8_t *table, uint64_t table_length, uint64_t books, uint64_t book,
                            uint64_t layout, const uint8_t *page, uint64_t page_length, uint64_t from, uint8_t *out,
                            uint64_t out_length, uint64_t which);
typedef uint64_t converting_call(const uint8_t *table, uint64_t table_length, uint64_t books, const uint8_t *page,
                                 uint64_t page_length, uint8_t *converted, uint64_t converted_length, uint64_t which);

/* lent_pointing.c: the name is what a difference is told with; an index that is expected may be REFUSED and a refusal
   number; nothing is said of the point where there is a refusal */
void expect_indexing(const char *name, index_call *call, struct shell shell, const int32_t *vector, uint64_t length,
                     uint64_t expected);
void print_pointing(const char *name, const struct pointing *asked);
void expect_pointing(const char *name, point_call *call, const struct pointing *asked, struct list expected, const int32_t *point);

/* lent_quantize.c: so is the name here; quantize has a call for the refusal, and one for the value that it names */
struct quantize_calls {
    quantize_call *refusal;
    quantize_value_call *value;
};
void expect_quantizing(const char *name, struct quantize_calls calls, const struct vector *vector, const struct answer *expected);

/* lent_taking.c, lent_reading.c, lent_lines.c and lent_conversion.c: so is the name here; how many calls it took is
   returned. The copy that is wanted of a page is what the page must hold after the call. */
uint64_t expect_take(const char *name, take_call *call, const struct taking *taking);
uint64_t expect_read(const char *name, read_call *call, const struct question *question, struct list expected, const int32_t *point);
uint64_t expect_coefficient(const char *name, coefficient_call *call, value_call *value, const struct question *question,
                            struct list expected, uint32_t bits);
uint64_t expect_tally(const char *name, tally_call *call, const struct question *question, struct list expected);
uint64_t expect_lines(const char *name, lines_call *call, const struct question *question, struct list expected,
                      const struct written *written);
uint64_t expect_convert(const char *name, converting_call *call, const struct conversion *asked, struct list expected,
                        const uint8_t *converted);

#endif
