/* Taking a record into a page, or each of a run, and reading a place, in either layout; docs/RULES.md, "The page",
   "Books" and "States first". */

#include "plain.h"

static int are_same(const uint8_t *one, const uint8_t *other)
{
    uint64_t all_of_one, all_of_other;
    __builtin_memcpy(&all_of_one, one, RECORD_SIZE);
    __builtin_memcpy(&all_of_other, other, RECORD_SIZE);
    return all_of_one == all_of_other;
}

/* The book is a part of the field. */
static int are_of_one_place(const uint8_t *one, const uint8_t *other)
{
    return pair_at(one + AT_PLACE) == pair_at(other + AT_PLACE) && one[AT_ROW] == other[AT_ROW];
}

/* 12, and the page rule. The record is of the place of the cell, and of its row. */
static inline uint32_t put_record(uint8_t *state, uint8_t *held, const uint8_t *record)
{
    if (*state == STATE_EMPTY) {
        *state = STATE_HELD;
        __builtin_memcpy(held, record, RECORD_SIZE);
        return 0;
    }
    if (*state != STATE_HELD)
        return *state == STATE_CONTESTED ? 0 : 12;
    if (are_same(held, record))
        return 0;
    if (!are_of_one_place(held, record))
        return 12;
    *state = STATE_CONTESTED;
    __builtin_memset(held, 0, RECORD_SIZE);
    return 0;
}

/* "take | 17, 7, 4, 8, 9, 12". The pass that checks the table finds the row of the record's place. */
uint32_t plain_take(const uint8_t *table, uint64_t table_length, uint64_t books, uint64_t layout, uint8_t *page,
                    uint64_t page_length, const uint8_t *record, uint64_t record_length)
{
    const int is_record = record_length == RECORD_SIZE;
    const uint64_t field = is_record ? pair_at(record + AT_PLACE) : 0;
    const uint64_t book = plain_book(field), place = plain_place(field);
    if (!are_books(books))
        return 17;
    const struct survey survey = plain_survey(table, table_length, place);
    if (survey.places == 0)
        return 7;
    const uint64_t cells = survey.places * books, cell = book * survey.places + place;
    if (page_length != CELL_SIZE * cells || !is_record)
        return 4;
    if (book >= books || place >= survey.places)
        return 8;
    if (record[AT_ROW] != survey.row)
        return 9;
    return put_record(page + plain_state_at(layout, cell), page + plain_record_at(layout, cells, cell), record);
}

/* Whether the take is refused. The record has 8 bytes, and the page its cells. A record claims its place if there is
   such a book, and the place is one of the record's own row. */
int plain_claim(const struct row_ends *rows, uint64_t books, uint64_t layout, uint8_t *page, const uint8_t *record)
{
    const uint64_t field = pair_at(record + AT_PLACE), book = plain_book(field), place = plain_place(field);
    const uint64_t places = rows->ends[rows->number], cell = book * places + place;
    const uint32_t row = record[AT_ROW];
    if (book >= books || row >= rows->number || place < rows->ends[row] || place >= rows->ends[row + 1])
        return 1;
    uint8_t *held = page + plain_record_at(layout, places * books, cell);
    return put_record(page + plain_state_at(layout, cell), held, record) != 0;
}

/* "how many takes were refused". Where the rows end is found once. */
uint64_t plain_collect(const uint8_t *table, uint64_t table_length, uint64_t books, uint64_t layout, uint8_t *page,
                       uint64_t page_length, const uint8_t *bytes, uint64_t bytes_length)
{
    const uint64_t places = plain_survey(table, table_length, 0).places;
    const uint64_t records = bytes_length / RECORD_SIZE, shorter = bytes_length % RECORD_SIZE != 0;
    if (!are_books(books) || places == 0 || page_length != CELL_SIZE * places * books)
        return records + shorter;
    const struct row_ends rows = plain_row_ends(table, table_length);
    uint64_t refused = shorter;
    for (uint64_t i = 0; i < records; i++)
        refused += (uint64_t)plain_claim(&rows, books, layout, page, bytes + i * RECORD_SIZE);
    return refused;
}

static struct plain_reading zeros(uint32_t answer, uint32_t reason, uint64_t length, int32_t *out)
{
    __builtin_memset(out, 0, length * sizeof *out);
    return (struct plain_reading){0, answer, reason, 0};
}

/* The mode is 0 or 1. */
static struct plain_reading look_at_held(uint64_t mode, const uint8_t *row, const uint8_t *record, int32_t *out)
{
    const uint64_t length = row[AT_LENGTH], number = record[AT_RADIUS_NUMBER];
    const uint64_t index = (uint64_t)pair_at(record + AT_CODEWORD) << 16 | pair_at(record + AT_CODEWORD + 2);
    if (number >= row[AT_NUMBER_OF_RADII])
        return zeros(UNREADABLE, 10, length, out);
    const struct plain_order *order = order_of(row[AT_SELECTOR]);
    const uint64_t radius = row[AT_RADII + number], power = order->powers[length][radius], total = order->totals[length][radius];
    if (index >= power)
        return zeros(UNREADABLE, 14, length, out);
    const int is_sound = index < total;
    if (!is_sound && mode == PLAIN_MODE) {
        __builtin_memset(out, 0, length * sizeof *out);
        return (struct plain_reading){0, UNREADABLE, 6, (uint32_t)(index - total)};
    }
    if (!plain_unrank(row[AT_SELECTOR], length, radius, is_sound ? index : index - power / 2, out))
        return zeros(UNREADABLE, 15, length, out);
    return (struct plain_reading){0, is_sound ? SOUND : MENDED, 0, is_sound ? 0 : (uint32_t)(index - total)};
}

/* Refusal 12, or what the cell of that state and record shows, with its point or zeros in `out`. */
struct plain_reading plain_look(uint64_t mode, const uint8_t *row, uint64_t row_number, uint32_t state,
                                const uint8_t *record, uint64_t field, int32_t *out)
{
    switch (state) {
    case STATE_EMPTY:
        return zeros(MISSING, 0, row[AT_LENGTH], out);
    case STATE_CONTESTED:
        return zeros(CONTESTED, 0, row[AT_LENGTH], out);
    case STATE_HELD:
        if (pair_at(record + AT_PLACE) == field && record[AT_ROW] == row_number)
            return look_at_held(mode, row, record, out);
        break;
    default:
        break;
    }
    return (struct plain_reading){.refusal = 12};
}

/* "read | 16, 17, 7, 8, 4, 12". */
struct plain_reading plain_read(uint64_t mode, const uint8_t *table, uint64_t table_length, uint64_t books,
                                uint64_t book, uint64_t layout, const uint8_t *page, uint64_t page_length,
                                uint64_t place, int32_t *out, uint64_t out_length)
{
    if (mode >= MODES)
        return (struct plain_reading){.refusal = 16};
    if (!are_books(books))
        return (struct plain_reading){.refusal = 17};
    const struct survey survey = plain_survey(table, table_length, place);
    if (survey.places == 0)
        return (struct plain_reading){.refusal = 7};
    if (book >= books || place >= survey.places)
        return (struct plain_reading){.refusal = 8};
    const uint8_t *row = table + survey.row * ROW_SIZE;
    const uint64_t cells = survey.places * books, cell = book * survey.places + place;
    if (page_length != CELL_SIZE * cells || out_length != row[AT_LENGTH])
        return (struct plain_reading){.refusal = 4};
    return plain_look(mode, row, survey.row, page[plain_state_at(layout, cell)],
                      page + plain_record_at(layout, cells, cell), plain_field(book, place), out);
}
