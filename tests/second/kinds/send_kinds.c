/* How many pages of each kind were compared with send. A kind is told from what the program's own rules made of a
   page, not from how it was drawn. The program ends with an error of its own if there are too few of one, so that the
   comparison cannot become empty. See docs/RULES.md, "Sending a page", "Books" and "Refusal numbers". */

#include "lent.h"
#include "send_kinds.h"

#include <stdio.h>

enum { LEAST = 100 };

static uint64_t kinds[SEND_KINDS], rows[MOST_ROWS + 1], lengths[MOST_LENGTH + 1], coordinates[MOST_LENGTH], faults[FAULTS];
static uint64_t selectors[SELECTORS];

static void note_kind(enum send_kind kind, int is_there)
{
    kinds[kind] += is_there != 0;
}

/* Whether the run has one, as far as it is there. */
static int has_unusable(const struct sending *sending)
{
    const uint64_t length = sending->run_length < MOST_SENT ? sending->run_length : MOST_SENT;
    uint64_t i = 0;
    while (i < length && !is_unusable(sending->run[i]))
        i++;
    return i < length;
}

/* A page that is sent: its rows, and the coefficients at the ends of what is usable. */
static void note_sent(const struct sending *sending)
{
    const uint8_t *bytes = sending->table.bytes;
    const uint64_t places = sending->buffer_length / RECORD_SIZE;
    int is_largest = 0, is_lowest = 0;
    for (uint64_t at = 0; at < sending->table.size; at += ROW_SIZE) {
        lengths[bytes[at + AT_LENGTH]]++;
        selectors[bytes[at + AT_SELECTOR]]++;
    }
    for (uint64_t i = 0; i < sending->run_length; i++) {
        is_largest |= sending->run[i] == BITS_BELOW_32768;
        is_lowest |= sending->run[i] == MINUS(BITS_BELOW_32768);
    }
    rows[sending->table.size / ROW_SIZE]++;
    note_kind(SENT, 1);
    note_kind(SENT_1_PLACE, places == 1);
    note_kind(SENT_4096_PLACES, places == MOST_PLACES);
    note_kind(SENT_PAST_255, places > 255);
    note_kind(SENT_MIXED_LENGTHS, do_rows_differ(&sending->table, AT_LENGTH));
    note_kind(SENT_EVERY_SELECTOR, has_every_selector(&sending->table));
    note_kind(SENT_BELOW_32768, is_largest);
    note_kind(SENT_ABOVE_MINUS_32768, is_lowest);
    note_kind(SENT_16_BOOKS, sending->books == MOST_BOOKS);
    note_kind(SENT_BOOK_ABOVE_0, sending->book > 0);
    note_kind(SENT_LAST_BOOK, sending->book > 0 && sending->book == sending->books - 1);
    note_kind(SENT_BOOK_PAST_255, sending->book > 0 && places > 255);
}

/* Whether the run or the buffer has not the length that a good table asks for. */
static int is_length_wrong(const struct sending *sending)
{
    const uint64_t places = judge(sending->table.bytes, sending->table.size).places;
    const int is_run = sending->run_length == coordinates_before(&sending->table, places);
    return !is_run || sending->buffer_length != RECORD_SIZE * places;
}

/* Refusal 17, and what else is wrong. */
static void note_17(const struct sending *sending)
{
    const int is_7 = judge(sending->table.bytes, sending->table.size).faults != 0;
    note_kind(SEND_17, 1);
    note_kind(SEND_17_AND_7, is_7);
    note_kind(SEND_17_AND_8, sending->book >= MOST_BOOKS);
    note_kind(SEND_17_AND_4, !is_7 && is_length_wrong(sending));
    note_kind(SEND_17_AND_11, has_unusable(sending));
}

/* Refusal 8, which is for the book alone. */
static void note_8(const struct sending *sending)
{
    note_kind(SEND_8, 1);
    note_kind(SEND_8_AT_END, sending->book == sending->books);
    note_kind(SEND_8_CUT, sending->book % TWO_TO_32 < sending->books);
    note_kind(SEND_8_AND_4, is_length_wrong(sending));
    note_kind(SEND_8_AND_11, has_unusable(sending));
}

/* Refusal 7. A buffer of part of a record, or of none, is right for no table. */
static void note_7(const struct sending *sending)
{
    const struct judgment judgment = judge(sending->table.bytes, sending->table.size);
    for (enum fault fault = 0; fault < FAULTS; fault++)
        faults[fault] += judgment.faults >> fault & 1;
    note_kind(SEND_7_SIZE, judgment.bad_rows == 0);
    note_kind(SEND_7_ROW_0, judgment.bad_rows > 0 && judgment.row == 0);
    note_kind(SEND_7_ROW_ABOVE_0, judgment.row > 0);
    note_kind(SEND_7_AND_4, sending->buffer_length == 0 || sending->buffer_length % RECORD_SIZE != 0);
    note_kind(SEND_7_AND_11, has_unusable(sending));
    note_kind(SEND_7_AND_8, sending->book >= sending->books);
}

/* A run of another length than the right one, with a buffer of the right one. */
static void note_run_length(const struct sending *sending, uint64_t right, uint64_t places)
{
    const uint64_t length = sending->run_length;
    note_kind(RUN_SHORT, length < right);
    note_kind(RUN_SHORT_1, length + 1 == right);
    note_kind(RUN_LONG, length > right);
    note_kind(RUN_LONG_1, length == right + 1);
    note_kind(RUN_OF_PLACES, length == places);
    note_kind(RUN_OF_FIRST_LENGTH, length == places * sending->table.bytes[AT_LENGTH]);
    note_kind(NO_RUN, length == 0);
    note_kind(RUN_CUT, length == right + 65536 || length == right + TWO_TO_32);
}

/* And the other way round. */
static void note_buffer_length(uint64_t length, uint64_t places)
{
    const uint64_t right = RECORD_SIZE * places;
    note_kind(BUFFER_SHORT, length < right);
    note_kind(BUFFER_SHORT_1, length + 1 == right);
    note_kind(BUFFER_SHORT_8, length + RECORD_SIZE == right && length > 0);
    note_kind(BUFFER_LONG, length > right);
    note_kind(BUFFER_LONG_1, length == right + 1);
    note_kind(BUFFER_LONG_8, length == right + RECORD_SIZE);
    note_kind(BUFFER_OF_PAGE, length == CELL_SIZE * places);
    note_kind(NO_BUFFER, length == 0);
    note_kind(BUFFER_CUT, length == right + 65536 || length == right + TWO_TO_32);
}

/* Refusal 4. */
static void note_4(const struct sending *sending)
{
    const uint64_t places = judge(sending->table.bytes, sending->table.size).places;
    const uint64_t right = coordinates_before(&sending->table, places);
    const int is_run = sending->run_length != right, is_buffer = sending->buffer_length != RECORD_SIZE * places;
    if (!is_buffer)
        note_run_length(sending, right, places);
    if (!is_run)
        note_buffer_length(sending->buffer_length, places);
    note_kind(RUN_AND_BUFFER, is_run && is_buffer);
    note_kind(SEND_4_AND_11, has_unusable(sending));
}

/* The coefficient that refusal 11 names. */
static void note_unusable(uint32_t bits)
{
    const uint32_t positive = bits << 1 >> 1;
    note_kind(FAULT_QUIET_NAN, positive >= BITS_OF_QUIET_NAN);
    note_kind(FAULT_SIGNALLING_NAN, positive > BITS_OF_INFINITY && positive < BITS_OF_QUIET_NAN);
    note_kind(FAULT_INFINITY, bits == BITS_OF_INFINITY);
    note_kind(FAULT_MINUS_INFINITY, bits == MINUS(BITS_OF_INFINITY));
    note_kind(FAULT_32768, bits == BITS_OF_32768);
    note_kind(FAULT_MINUS_32768, bits == MINUS(BITS_OF_32768));
    note_kind(FAULT_NEXT_TO_32768, positive == BITS_OF_32768 + 1);
}

/* What is unusable behind the coefficient that is named: in the same place, and in later ones. */
static void note_behind(const struct sending *sending, uint64_t place, uint64_t coordinate, uint64_t places)
{
    const uint64_t length = row_at(&sending->table, place)[AT_LENGTH];
    const uint32_t *named = sending->run + coordinates_before(&sending->table, place);
    int is_in_place = 0, is_in_places = 0, is_lower = 0;
    for (uint64_t i = coordinate + 1; i < length; i++)
        is_in_place |= is_unusable(named[i]);
    for (uint64_t later = place + 1; later < places; later++) {
        const struct vector vector = vector_at(sending, later);
        for (uint64_t i = 0; i < vector.length; i++)
            if (is_unusable(vector.coefficients[i])) {
                is_in_places = 1;
                is_lower |= i < coordinate;
            }
    }
    note_kind(FAULTS_IN_PLACE, is_in_place);
    note_kind(FAULTS_IN_PLACES, is_in_places);
    note_kind(FAULT_LOWER_BEHIND, is_lower);
    note_kind(FAULT_LAST_COORDINATE, coordinate > 0 && coordinate == length - 1);
    note_unusable(named[coordinate]);
}

/* Refusal 11. */
static void note_11(const struct sending *sending, uint64_t place, uint64_t coordinate)
{
    const uint64_t places = sending->buffer_length / RECORD_SIZE;
    note_kind(FAULT_FIRST_PLACE, place == 0);
    note_kind(FAULT_LAST_PLACE, place > 0 && place == places - 1);
    note_kind(FAULT_LATER_PLACE, place > 0 && place < places - 1);
    note_kind(FAULT_PAST_255, place > 255);
    note_kind(FAULT_ROW_ABOVE_0, row_of(&sending->table, place) > 0);
    note_kind(FAULT_LOWEST_COORDINATE, coordinate == 0);
    coordinates[coordinate]++;
    note_behind(sending, place, coordinate, places);
}

void note_send(const struct sending *sending, const struct sent *expected)
{
    const uint64_t *said = expected->list.items;
    if (said[0] == 0)
        note_sent(sending);
    if (said[0] == 17)
        note_17(sending);
    if (said[0] == 7)
        note_7(sending);
    if (said[0] == 8)
        note_8(sending);
    if (said[0] == 4)
        note_4(sending);
    if (said[0] == 11)
        note_11(sending, said[1], said[2]);
}

/* Only a call is lent a buffer, and only a call is told books: what is counted of these no file can show. */
static int is_of_a_call(enum send_kind kind)
{
    return kind == SEND_7_AND_4 || (kind >= BUFFER_SHORT && kind <= RUN_AND_BUFFER) ||
           (kind >= SENT_16_BOOKS && kind <= SEND_8_AND_11);
}

/* Ends the program unless each kind of pages that files can show was compared often enough. */
void require_file_kinds(uint64_t least)
{
    for (enum send_kind kind = 0; kind < SEND_KINDS; kind++)
        require(kinds[kind], is_of_a_call(kind) ? 0 : least, "pages", send_names[kind]);
    for (uint64_t number = 1; number <= MOST_ROWS; number++)
        require_number(rows[number], least, "pages that are sent with a number of rows of", number);
    for (uint64_t length = 1; length <= MOST_LENGTH; length++)
        require_number(lengths[length], least, "rows of pages that are sent of length", length);
    for (uint64_t selector = 0; selector < SELECTORS; selector++)
        require_number(selectors[selector], least, "rows of pages that are sent of selector", selector);
    for (uint64_t coordinate = 0; coordinate < MOST_LENGTH; coordinate++)
        require_number(coordinates[coordinate], least, "pages refused with 11 at coordinate", coordinate);
    for (uint64_t fault = 0; fault < FAULTS; fault++)
        require_number(faults[fault], least, "pages refused with 7 for the fault with number", fault);
}

/* Ends the program unless each kind was compared often enough. */
void require_send_kinds(void)
{
    for (enum send_kind kind = 0; kind < SEND_KINDS; kind++)
        require(kinds[kind], LEAST, "pages", send_names[kind]);
    require_file_kinds(LEAST);
    printf("kinds of sent pages: %d at least %d times each\n", SEND_KINDS, LEAST);
}
