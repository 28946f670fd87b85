/* The call quantize; docs/RULES.md, "Quantizing into a record". */

#include "record.h"

/* "quantize | 17, 7, 8, 4, 11". */
uint32_t plain_quantize(const uint8_t *table, uint64_t table_length, uint64_t books, uint64_t book, uint64_t place,
                        const float *coefficients, uint64_t coefficients_length, uint8_t *record,
                        uint64_t record_length)
{
    if (!are_books(books))
        return 17;
    const struct survey survey = plain_survey(table, table_length, place);
    if (survey.places == 0)
        return 7;
    if (book >= books || place >= survey.places)
        return 8;
    const uint8_t *row = table + survey.row * ROW_SIZE;
    if (coefficients_length != row[AT_LENGTH] || record_length != RECORD_SIZE)
        return 4;
    if (!are_usable(coefficients, row[AT_LENGTH]))
        return 11;
    write_record_of(row, survey.row, plain_field(book, place), coefficients, record);
    return 0;
}
