/* The kinds of comparisons of the page that the cell, the place and the book tell. See docs/RULES.md, "The page" and
   "Books". */

#include "page_kinds.h"

#include <string.h>

/* A codeword in the row and with the radius number that it belongs to, and how it is read. */
static void note_codeword(enum page_call call, struct shell shell, uint64_t codeword, struct reading reading)
{
    const uint64_t total = total_of(shell), power = least_power_from(total);
    const int is_sound = reading.word == SOUND, is_mended = reading.word == MENDED, is_power = total == power;
    const int is_6 = reading.reason == 6, is_past = is_mended || is_6;
    note_shell(call, shell, reading.word, reading.reason);
    note_page(call, CELL_SOUND, is_sound);
    note_page(call, CELL_MENDED, is_mended);
    note_page(call, CELL_14, reading.reason == 14);
    note_page(call, CELL_15, reading.reason == 15 && codeword < total);
    note_page(call, CELL_15_PAST_END, reading.reason == 15 && codeword >= total);
    note_page(call, CELL_6_AT_END, is_6 && reading.distance == 0);
    note_page(call, CELL_6_ABOVE_0, is_6 && reading.distance > 0);
    note_page(call, CELL_6_BEFORE_15, is_6 && !names_point(shell, codeword - power / 2));
    note_page(call, CODEWORD_0, codeword == 0 && total > 1);
    note_page(call, CODEWORD_BEFORE_END, codeword == total - 1 && !is_power);
    note_page(call, CODEWORD_AT_END, codeword == total && is_past);
    note_page(call, CODEWORD_PAST_END, codeword == total + 1 && is_past);
    note_page(call, CODEWORD_BEFORE_POWER, codeword == power - 1 && is_past);
    note_page(call, CODEWORD_POWER, codeword == power);
    note_page(call, CODEWORD_LARGEST, codeword == TWO_TO_32 - 1 && power < TWO_TO_32);
    note_page(call, WIDTH_0_SOUND, codeword == 0 && power == 1);
    note_page(call, WIDTH_0_14, codeword == 1 && power == 1);
    note_page(call, WIDTH_32_SOUND, is_sound && power == TWO_TO_32);
    note_page(call, WIDTH_32_PAST_END, is_past && power == TWO_TO_32);
    note_page(call, DISTANCE_PAST_255, reading.distance > 255);
    note_page(call, DISTANCE_PAST_2_24, reading.distance >= 1 << 24);
    note_page(call, POWER_SOUND, codeword == total - 1 && is_power && total > 1);
    note_page(call, POWER_14, codeword == total && is_power && total > 1);
}

/* A cell with a record of the place and of its row. */
static void note_held(enum page_call call, const struct table *table, uint64_t place, const uint8_t *cell)
{
    const uint64_t codeword = codeword_of(cell + AT_RECORD), radius_number = cell[AT_RECORD + AT_RADIUS_NUMBER];
    const uint8_t *row = row_at(table, place);
    if (radius_number < row[AT_NUMBER_OF_RADII]) {
        note_codeword(call, shell_of(row, radius_number), codeword, read_cell(mode_of(call), table, place, cell));
        return;
    }
    note_page(call, CELL_10_AT_NUMBER, radius_number == row[AT_NUMBER_OF_RADII]);
    note_page(call, CELL_10_AND_0, radius_number < MOST_RADII && codeword == 0);
    note_page(call, CELL_10_FROM_8, radius_number >= MOST_RADII);
}

/* A record of another row than that of its place: which row, and what the rest of it would be in the place's. */
void note_foreign(enum page_call call, const struct table *table, const uint8_t *record)
{
    const uint64_t place = place_in(field_in(record)), row = record[AT_ROW], right = row_of(table, place);
    uint8_t cell[CELL_SIZE] = {STATE_HELD};
    write_record(cell + AT_RECORD, place, right, record[AT_RADIUS_NUMBER], codeword_of(record));
    const struct reading reading = read_cell(mode_of(call), table, place, cell);
    note_page(call, OTHER_ROW_ALONE, reading.word == SOUND);
    note_page(call, OTHER_ROW_AND_10, reading.reason == 10);
    note_page(call, OTHER_ROW_AND_14, reading.reason == 14);
    note_page(call, OTHER_ROW_AND_15, reading.reason == 15);
    note_page(call, ROW_BEFORE, row + 1 == right);
    note_page(call, ROW_BEHIND, row == right + 1 && row < table->size / ROW_SIZE);
    note_page(call, ROW_BEFORE_AT_FIRST, row + 1 == right && row_of(table, place - 1) == row);
    note_page(call, ROW_BEHIND_AT_LAST, row == right + 1 && row < table->size / ROW_SIZE && row_of(table, place + 1) == row);
    note_page(call, ROW_IN_LOW_BITS, row % MOST_ROWS == right);
    note_page(call, NO_ROW_OF_TABLE, row >= table->size / ROW_SIZE);
}

/* A held cell: in which bytes the place field differs, and whether the row does. */
static void note_held_cell(enum page_call call, const struct table *table, uint64_t field, const uint8_t *cell)
{
    const uint8_t *record = cell + AT_RECORD;
    const uint64_t changed = field_in(record) ^ field, high = changed / 256, low = changed % 256;
    const int is_other_row = record[AT_ROW] != row_of(table, place_in(field));
    note_page(call, FAULT_HIGH, high != 0 && low == 0 && !is_other_row);
    note_page(call, FAULT_LOW, high == 0 && low != 0 && !is_other_row);
    note_page(call, FAULT_BOTH, high != 0 && low != 0 && !is_other_row);
    note_page(call, FAULT_BOOK, book_in(changed) != 0 && place_in(changed) == 0 && !is_other_row);
    note_page(call, FAULT_PLACE_AND_ROW, changed != 0 && is_other_row);
    if (changed == 0 && is_other_row)
        note_foreign(call, table, record);
    if (changed == 0 && !is_other_row)
        note_held(call, table, place_in(field), cell);
}

/* A cell that the call looks at. */
void note_cell(enum page_call call, const struct table *table, uint64_t field, const uint8_t *cell)
{
    const uint8_t *record = cell + AT_RECORD, zeros[RECORD_SIZE] = {0}, state = cell[AT_STATE];
    const uint64_t row = row_of(table, place_in(field));
    const int is_zeros = memcmp(record, zeros, RECORD_SIZE) == 0, is_other_row = record[AT_ROW] != row;
    note_state(call, state);
    if (!is_at_fault(table, field, cell))
        note_selector(call, row_at(table, place_in(field))[AT_SELECTOR],
                      read_cell(mode_of(call), table, field, cell).word);
    note_page(call, EMPTY_ZEROS, state == STATE_EMPTY && is_zeros);
    note_page(call, EMPTY_GARBAGE, state == STATE_EMPTY && !is_zeros);
    note_page(call, CONTESTED_ZEROS, state == STATE_CONTESTED && is_zeros);
    note_page(call, CONTESTED_GARBAGE, state == STATE_CONTESTED && !is_zeros);
    note_page(call, EMPTY_OTHER_ROW, state == STATE_EMPTY && is_other_row);
    note_page(call, CONTESTED_OTHER_ROW, state == STATE_CONTESTED && is_other_row);
    note_page(call, FAULT_STATE, state > STATE_CONTESTED);
    if (state == STATE_HELD)
        note_held_cell(call, table, field, cell);
}

/* That of a place in the book that is asked for. */
void note_cell_asked(enum page_call call, const struct question *question, uint64_t place)
{
    note_cell(call, question->table, place_field(question->book, place), cell_asked(question, place));
}

/* In which book a call looks that is answered, or refused with 12, and whether the place is at fault in the next. */
static void note_book(enum page_call call, const struct question *question, int is_answered)
{
    const uint64_t books = question->page->books;
    struct question other = *question;
    other.book = (question->book + 1) % books;
    const int is_there = books > 1, is_other_at_fault = is_there && is_fault_at(&other, question->place);
    note_page(call, FAULT_BESIDE_OTHER_BOOK, !is_answered && is_there && !is_other_at_fault);
    note_page(call, BESIDE_OTHER_BOOK, is_answered && is_other_at_fault);
    note_page(call, BOOK_ABOVE_0, is_answered && question->book > 0);
    note_page(call, BOOK_ABOVE_0_PAST_255, is_answered && question->book > 0 && question->place > 255);
    note_page(call, LAST_BOOK, is_answered && is_there && question->book == books - 1);
    note_page(call, OF_16_BOOKS, is_answered && books == MOST_BOOKS);
    note_page(call, OF_1_PLACE, is_answered && question->page->places == 1);
    note_page(call, OF_4096_PLACES, is_answered && question->page->places == MOST_PLACES);
}

/* Where a call looks that is answered, or refused with 12; the tally looks from place 0 on. */
void note_where(enum page_call call, const struct question *question, struct list expected)
{
    const uint64_t place = question->place, row = row_of(question->table, place), places = question->page->places;
    const int is_beside_0 = place > 0, is_0_at_fault = is_fault_at(question, 0), is_answered = expected.items[0] == 0;
    note_book(call, question, is_answered);
    note_page(call, FAULT_BESIDE_GOOD, !is_answered && is_beside_0 && !is_0_at_fault);
    if (!is_answered)
        return;
    note_page(call, BESIDE_FAULT, is_beside_0 && is_0_at_fault);
    note_page(call, AT_PLACE_0, place == 0);
    note_page(call, AT_LAST_PLACE, is_beside_0 && place == places - 1);
    note_page(call, AT_FIRST_OF_ROW, is_beside_0 && row_of(question->table, place - 1) < row);
    note_page(call, AT_LAST_OF_ROW, place < places - 1 && row_of(question->table, place + 1) > row);
    note_page(call, AT_PAST_255, place > 255);
}
