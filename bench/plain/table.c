/* The check of a pairing table in one pass, which finds the row of a place on the way, and where the rows of a good one
   end; docs/RULES.md, "Pairing table". */

#include "plain.h"

static int are_good_radii(const uint8_t *radii, uint32_t number, uint32_t largest)
{
    if (radii[0] != 0 || radii[number - 1] > largest)
        return 0;
    for (uint32_t i = 1; i < number; i++)
        if (radii[i] <= radii[i - 1])
            return 0;
    for (uint32_t i = number; i < MOST_RADII; i++)
        if (radii[i] != 0)
            return 0;
    return 1;
}

static int is_good(const uint8_t *row)
{
    const uint32_t length = row[AT_LENGTH], number = row[AT_NUMBER_OF_RADII];
    if (length - 1 >= MOST_LENGTH || number - 1 >= MOST_RADII)
        return 0;
    if (!are_good_radii(row + AT_RADII, number, order_of(row[AT_SELECTOR])->largest[length]))
        return 0;
    return pair_at(row + AT_STEP) != 0 && pair_at(row + AT_PLACES) != 0 && row[AT_SELECTOR] < SELECTORS && row[AT_15] == 0;
}

struct survey plain_survey(const uint8_t *table, uint64_t table_length, uint64_t place)
{
    const struct survey bad = {0, 0};
    struct survey survey = {0, 0};
    if (table_length == 0 || table_length > ROW_SIZE * MOST_ROWS || table_length % ROW_SIZE != 0)
        return bad;
    for (const uint8_t *row = table; row < table + table_length; row += ROW_SIZE) {
        if (!is_good(row))
            return bad;
        survey.places += pair_at(row + AT_PLACES);
        if (survey.places > MOST_PLACES)
            return bad;
        survey.row += survey.places <= place;
    }
    return survey;
}

struct row_ends plain_row_ends(const uint8_t *table, uint64_t table_length)
{
    struct row_ends rows = {.number = (uint32_t)(table_length / ROW_SIZE)};
    for (uint32_t row = 0; row < rows.number; row++)
        rows.ends[row + 1] = rows.ends[row] + pair_at(table + row * ROW_SIZE + AT_PLACES);
    return rows;
}
