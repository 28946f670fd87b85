/* The kinds that one comparison of read, of coefficient, of the tally or of lines tells, beside those of page_notes.c
   and refusal_notes.c. See docs/RULES.md, "The page", "Books" and "Refusal numbers". */

#include "page_kinds.h"

/* Refusal 13, and the cell that the call does not look at. */
static void note_coordinate(enum page_call call, const struct question *question, uint64_t length)
{
    const uint8_t state = cell_asked(question, question->place)[AT_STATE];
    note_page(call, COORDINATE_LENGTH, question->number == length);
    note_page(call, COORDINATE_FAR, question->number >= TWO_TO_32);
    note_page(call, EMPTY_13, state == STATE_EMPTY);
    note_page(call, CONTESTED_13, state == STATE_CONTESTED);
    note_page(call, HELD_13, state == STATE_HELD && !is_fault_at(question, question->place));
}

/* A place that is answered with a point: whether it tells the enumeration. */
static void note_shown(enum page_call call, struct reading reading)
{
    int32_t point[MOST_LENGTH];
    if (reading.word != SOUND && reading.word != MENDED)
        return;
    point_of(reading.shell, reading.index, point);
    note_page(call, (enum page_kind)(PRODUCT_SHOWN + reading.shell.selector), is_index_telling(reading.shell, point));
}

/* Where the place is not in the table, a length above 16 is no length of an output, and a coordinate above 15
   none of a point. */
void note_reading(enum page_call base, const struct question *question, struct list expected)
{
    const struct page *page = question->page;
    const uint64_t refusal = expected.items[0], place = question->place;
    if (is_no_mode_or_books(base, question, expected))
        return;
    const enum page_call call = call_in(base, question->mode);
    if (refusal == 7) {
        note_page(call, BOTH_7_AND_13, question->number >= MOST_LENGTH);
        return;
    }
    const int is_8 = is_outside(question), is_any_row = place < page->places;
    const uint64_t length = is_any_row ? row_at(question->table, place)[AT_LENGTH] : MOST_LENGTH;
    const int is_other_length = base == READ && (is_any_row ? question->number != length : question->number > length);
    const int is_13 = base == COEFFICIENT && question->number >= (is_8 ? MOST_LENGTH : length);
    note_both(call, (struct reasons){.is_4 = is_wrong_page(page) || is_other_length,
                                     .is_8 = is_8,
                                     .is_12 = !is_8 && is_fault_at(question, place),
                                     .is_13 = is_13});
    note_page(call, OTHER_LENGTH, is_other_length && !is_8 && !is_wrong_page(page));
    note_page(call, BOTH_LENGTHS, is_other_length && !is_8 && is_wrong_page(page));
    if (refusal == 13)
        note_coordinate(call, question, length);
    if (refusal == 0)
        note_shown(call, reading_at(question, place));
    if (refusal == 0 || refusal == 12) {
        note_cell_asked(call, question, place);
        note_where(call, question, expected);
    }
}

/* The value of a sound or mended coefficient. */
void note_value(const struct question *question, struct list expected, uint32_t bits)
{
    const uint64_t word = expected.items[1];
    if (expected.items[0] != 0 || (word != SOUND && word != MENDED))
        return;
    const enum page_call call = call_in(COEFFICIENT, question->mode);
    const struct reading reading = reading_at(question, question->place);
    const uint64_t over_256 = nearest(bits).whole, length = row_at(question->table, question->place)[AT_LENGTH];
    note_page(call, VALUE_POSITIVE, bits != 0 && !is_negative(bits));
    note_page(call, VALUE_NEGATIVE, is_negative(bits));
    note_page(call, VALUE_ZERO_SOUND, bits == 0 && word == SOUND && reading.shell.radius > 0);
    note_page(call, VALUE_ZERO_MENDED, bits == 0 && word == MENDED);
    note_page(call, VALUE_NOT_WHOLE, over_256 % 256 != 0);
    note_page(call, VALUE_PAST_4096, over_256 >= 4096 * 256);
    note_page(call, VALUE_LAST, bits != 0 && length > 1 && question->number == length - 1);
}

/* The places of an answered tally, or the place that refusal 12 names. */
static void note_cells(enum page_call call, const struct question *question, struct list expected)
{
    const uint64_t named = expected.items[1], places = question->page->places;
    if (expected.items[0] == 12) {
        note_page(call, FAULT_AT_FIRST, named == 0);
        note_page(call, FAULT_AT_LAST, named > 0 && named == places - 1);
        note_cell_asked(call, question, named);
        return;
    }
    note_where(call, question, expected);
    for (enum reading_word word = SOUND; word < READINGS; word++)
        note_tallied(call, word, expected.items[1 + word], places);
    for (uint64_t place = 0; place < places; place++)
        note_cell_asked(call, question, place);
}

/* How many places of those from one on are at fault. */
static uint64_t count_faults(const struct question *question, uint64_t from, uint64_t to)
{
    uint64_t at_fault = 0;
    for (uint64_t place = from; place < to; place++)
        at_fault += is_fault_at(question, place) != 0;
    return at_fault;
}

/* The question has place 0. */
void note_tally(const struct question *question, struct list expected)
{
    const uint64_t refusal = expected.items[0];
    if (is_no_mode_or_books(TALLY, question, expected) || refusal == 7)
        return;
    const enum page_call call = call_in(TALLY, question->mode);
    const int is_8 = is_outside(question);
    const uint64_t at_fault = is_8 ? 0 : count_faults(question, 0, question->page->places);
    note_both(call, (struct reasons){.is_4 = is_wrong_page(question->page), .is_8 = is_8, .is_12 = at_fault > 0});
    note_page(call, FAULTS_SEVERAL, refusal == 12 && at_fault > 1);
    if (refusal == 0 || refusal == 12)
        note_cells(call, question, expected);
}

/* The places whose lines are written. */
static void note_text(enum page_call call, const struct question *question, uint64_t end)
{
    const struct page *page = question->page;
    const uint64_t from = question->place, lines = end - from, number = question->number;
    int is_6 = 0;
    for (uint64_t place = from; place < end; place++) {
        note_cell_asked(call, question, place);
        is_6 |= reading_at(question, place).reason == 6;
    }
    note_page(call, TEXT_OF_6, is_6);
    note_page(call, ALL_LINES, lines == page->places && lines > 1);
    note_page(call, LINES_TO_LAST, from > 0 && end == page->places);
    note_page(call, LINES_AS_ROOM, lines > 1 && end < page->places);
    note_page(call, ROOM_256, number == LINE_SPACE && end < page->places);
    note_page(call, ROOM_511, number == 2 * LINE_SPACE - 1 && end < page->places);
    note_page(call, ROOM_CUT, number >= TWO_TO_32 && number % 65536 < LINE_SPACE);
    note_page(call, ROOM_FAR, number >= TWO_TO_63);
    note_page(call, FAULT_BEHIND_LINES, end < page->places && is_fault_at(question, end));
}

/* Where the table and the page are right, and the place is in the table: what is behind 4, 12, or no refusal. */
static void note_lines_asked(enum page_call call, const struct question *question, struct list expected)
{
    const uint64_t refusal = expected.items[0], named = expected.items[1];
    note_page(call, ROOM_255, question->number == LINE_SPACE - 1);
    if (refusal == 12) {
        note_page(call, FAULT_BEHIND_FIRST, named > question->place);
        note_page(call, FAULTS_SEVERAL, count_faults(question, question->place, question->place + lines_asked(question)) > 1);
        note_cell_asked(call, question, named);
    }
    if (refusal == 0)
        note_text(call, question, named);
    if (refusal != 4)
        note_where(call, question, expected);
}

void note_lines(const struct question *question, struct list expected)
{
    const uint64_t refusal = expected.items[0];
    if (is_no_mode_or_books(LINES, question, expected) || refusal == 7)
        return;
    const enum page_call call = call_in(LINES, question->mode);
    const int is_8 = is_outside(question), is_wrong = is_wrong_page(question->page);
    const int is_short = question->number < LINE_SPACE;
    note_both(call, (struct reasons){.is_4 = is_wrong || is_short,
                                     .is_8 = is_8,
                                     .is_12 = !is_8 && is_fault_at(question, question->place)});
    note_page(call, OTHER_LENGTH, is_short && !is_8 && !is_wrong);
    note_page(call, BOTH_LENGTHS, is_short && !is_8 && is_wrong);
    if (!is_8 && !is_wrong)
        note_lines_asked(call, question, expected);
}
