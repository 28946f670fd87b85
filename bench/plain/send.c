/* A run of coefficients into the records of a page; docs/RULES.md, "Sending a page". The run is judged in one pass,
   and the records are written in another. */

#include "record.h"

/* The coordinates of all places together. */
static uint64_t coordinates(const uint8_t *table, uint64_t table_length)
{
    uint64_t sum = 0;
    for (const uint8_t *row = table; row < table + table_length; row += ROW_SIZE)
        sum += (uint64_t)pair_at(row + AT_PLACES) * row[AT_LENGTH];
    return sum;
}

/* 11, where one of the coefficients is unusable: the rows are gone through to where the first of these stands. */
static struct plain_sending name_first(const uint8_t *table, const float *run)
{
    uint64_t at = 0, place = 0;
    while (are_usable(run + at, 1))
        at++;
    const uint8_t *row = table;
    for (; at >= (uint64_t)pair_at(row + AT_PLACES) * row[AT_LENGTH]; row += ROW_SIZE) {
        at -= (uint64_t)pair_at(row + AT_PLACES) * row[AT_LENGTH];
        place += pair_at(row + AT_PLACES);
    }
    return (struct plain_sending){11, (uint32_t)(place + at / row[AT_LENGTH]), (uint32_t)(at % row[AT_LENGTH])};
}

static void write_records(const uint8_t *table, uint64_t table_length, uint64_t book, const float *run, uint8_t *buffer)
{
    uint64_t field = plain_field(book, 0);
    for (uint64_t number = 0; number < table_length / ROW_SIZE; number++) {
        const uint8_t *row = table + number * ROW_SIZE;
        for (const uint64_t end = field + pair_at(row + AT_PLACES); field < end; field++) {
            write_record_of(row, number, field, run, buffer);
            run += row[AT_LENGTH];
            buffer += RECORD_SIZE;
        }
    }
}

/* "send | 17, 7, 8, 4, 11". */
struct plain_sending plain_send(const uint8_t *table, uint64_t table_length, uint64_t books, uint64_t book,
                                const float *run, uint64_t run_length, uint8_t *buffer, uint64_t buffer_length)
{
    if (!are_books(books))
        return (struct plain_sending){.refusal = 17};
    const uint64_t places = plain_survey(table, table_length, 0).places;
    if (places == 0)
        return (struct plain_sending){.refusal = 7};
    if (book >= books)
        return (struct plain_sending){.refusal = 8};
    if (run_length != coordinates(table, table_length) || buffer_length != RECORD_SIZE * places)
        return (struct plain_sending){.refusal = 4};
    if (!are_usable(run, run_length))
        return name_first(table, run);
    write_records(table, table_length, book, run, buffer);
    return (struct plain_sending){0};
}
