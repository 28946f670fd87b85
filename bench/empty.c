/* Calls that do nothing: what it takes to run them is no part of what a call takes. */

#include "bench.h"

uint64_t empty_index(uint64_t selector, uint64_t length, uint64_t radius, const int32_t *point, uint64_t point_length)
{
    (void)selector, (void)length, (void)radius, (void)point, (void)point_length;
    return 0;
}

struct plain_pointing empty_point(uint64_t selector, uint64_t length, uint64_t radius, uint64_t index, int32_t *out,
                                  uint64_t out_length)
{
    (void)selector, (void)length, (void)radius, (void)index, (void)out, (void)out_length;
    return (struct plain_pointing){0};
}

uint64_t empty_point_item(uint64_t selector, uint64_t length, uint64_t radius, uint64_t index, int32_t *out, uint64_t out_length,
                          uint64_t which)
{
    (void)selector, (void)length, (void)radius, (void)index, (void)out, (void)out_length, (void)which;
    return 0;
}

uint32_t empty_quantize(const uint8_t *table, uint64_t table_length, uint64_t books, uint64_t book, uint64_t place,
                        const float *coefficients, uint64_t coefficients_length, uint8_t *record,
                        uint64_t record_length)
{
    (void)table, (void)table_length, (void)books, (void)book, (void)place;
    (void)coefficients, (void)coefficients_length, (void)record, (void)record_length;
    return 0;
}

uint32_t empty_take(const uint8_t *table, uint64_t table_length, uint64_t books, uint64_t layout, uint8_t *page,
                    uint64_t page_length, const uint8_t *record, uint64_t record_length)
{
    (void)table, (void)table_length, (void)books, (void)layout;
    (void)page, (void)page_length, (void)record, (void)record_length;
    return 0;
}

uint64_t empty_take_item(const uint8_t *table, uint64_t table_length, uint64_t books, uint64_t layout, uint8_t *page,
                         uint64_t page_length, const uint8_t *record, uint64_t record_length, uint64_t which)
{
    (void)table, (void)table_length, (void)books, (void)layout;
    (void)page, (void)page_length, (void)record, (void)record_length, (void)which;
    return 0;
}

uint64_t empty_collect(const uint8_t *table, uint64_t table_length, uint64_t books, uint64_t layout, uint8_t *page,
                       uint64_t page_length, const uint8_t *bytes, uint64_t bytes_length)
{
    (void)table, (void)table_length, (void)books, (void)layout;
    (void)page, (void)page_length, (void)bytes, (void)bytes_length;
    return 0;
}

struct plain_reading empty_read(uint64_t mode, const uint8_t *table, uint64_t table_length, uint64_t books,
                                uint64_t book, uint64_t layout, const uint8_t *page, uint64_t page_length,
                                uint64_t place, int32_t *out, uint64_t out_length)
{
    (void)mode, (void)table, (void)table_length, (void)books, (void)book, (void)layout;
    (void)page, (void)page_length, (void)place, (void)out, (void)out_length;
    return (struct plain_reading){0};
}

uint64_t empty_read_item(uint64_t mode, const uint8_t *table, uint64_t table_length, uint64_t books, uint64_t book,
                         uint64_t layout, const uint8_t *page, uint64_t page_length, uint64_t place, int32_t *out,
                         uint64_t out_length, uint64_t which)
{
    (void)mode, (void)table, (void)table_length, (void)books, (void)book, (void)layout;
    (void)page, (void)page_length, (void)place, (void)out, (void)out_length, (void)which;
    return 0;
}

uint32_t empty_convert(const uint8_t *table, uint64_t table_length, uint64_t books, const uint8_t *page,
                       uint64_t page_length, uint8_t *other, uint64_t other_length)
{
    (void)table, (void)table_length, (void)books, (void)page, (void)page_length, (void)other, (void)other_length;
    return 0;
}

uint64_t empty_convert_item(const uint8_t *table, uint64_t table_length, uint64_t books, const uint8_t *page,
                            uint64_t page_length, uint8_t *other, uint64_t other_length, uint64_t which)
{
    (void)table, (void)table_length, (void)books, (void)page, (void)page_length, (void)other, (void)other_length;
    (void)which;
    return 0;
}

struct plain_sending empty_send(const uint8_t *table, uint64_t table_length, uint64_t books, uint64_t book,
                                const float *run, uint64_t run_length, uint8_t *buffer, uint64_t buffer_length)
{
    (void)table, (void)table_length, (void)books, (void)book;
    (void)run, (void)run_length, (void)buffer, (void)buffer_length;
    return (struct plain_sending){0};
}

uint64_t empty_send_item(const uint8_t *table, uint64_t table_length, uint64_t books, uint64_t book, const float *run,
                         uint64_t run_length, uint8_t *buffer, uint64_t buffer_length, uint64_t which)
{
    (void)table, (void)table_length, (void)books, (void)book;
    (void)run, (void)run_length, (void)buffer, (void)buffer_length, (void)which;
    return 0;
}
