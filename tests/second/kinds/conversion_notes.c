/* The kinds that one comparison of a conversion tells, beside those of refusal_notes.c. See docs/RULES.md, "States
   first", "Refusal numbers" and "Order of checks". */

#include "page_kinds.h"

#include <string.h>

/* Refusal 4, as far as it is for the buffer. */
static void note_buffer(enum page_call call, const struct conversion *asked)
{
    const uint64_t right = right_size(asked->page), length = asked->length;
    const int is_other_length = length != right, is_wrong = is_wrong_page(asked->page);
    note_page(call, OTHER_LENGTH, is_other_length && !is_wrong);
    note_page(call, BOTH_LENGTHS, is_other_length && is_wrong);
    note_page(call, SIZES_ALIKE, is_other_length && length == asked->page->size);
    note_page(call, BUFFER_SHORT_1, !is_wrong && length == right - 1);
    note_page(call, BUFFER_LONG_1, !is_wrong && length == right + 1);
    note_page(call, BUFFER_SHORT_9, !is_wrong && length == right - CELL_SIZE && length > 0);
    note_page(call, BUFFER_LONG_9, !is_wrong && length == right + CELL_SIZE);
    note_page(call, NO_BUFFER, !is_wrong && length == 0);
    note_page(call, BUFFER_CUT, !is_wrong && (length == right + 65536 || length == right + TWO_TO_32));
}

static void note_cell_converted(enum page_call call, const uint8_t *cell)
{
    const uint8_t zeros[RECORD_SIZE] = {0}, state = cell[AT_STATE];
    const int is_zeros = memcmp(cell + AT_RECORD, zeros, RECORD_SIZE) == 0;
    note_state(call, state);
    note_page(call, EMPTY_ZEROS, state == STATE_EMPTY && is_zeros);
    note_page(call, EMPTY_GARBAGE, state == STATE_EMPTY && !is_zeros);
    note_page(call, CONTESTED_ZEROS, state == STATE_CONTESTED && is_zeros);
    note_page(call, CONTESTED_GARBAGE, state == STATE_CONTESTED && !is_zeros);
    note_page(call, FAULT_STATE, state > STATE_CONTESTED);
}

/* A page that is converted. */
static void note_cells_converted(enum page_call call, const struct page *page)
{
    note_page(call, OF_1_PLACE, page->places == 1);
    note_page(call, OF_4096_PLACES, page->places == MOST_PLACES);
    note_page(call, OF_16_BOOKS, page->books == MOST_BOOKS);
    for (uint64_t number = 0; number < cells_of(page); number++)
        note_cell_converted(call, cell_at(page, 0) + CELL_SIZE * number);
}

void note_converted(enum page_call call, const struct conversion *asked, struct list expected)
{
    const struct page *page = asked->page;
    const int is_7 = judge(asked->table->bytes, asked->table->size).faults != 0;
    const int is_4 = !is_7 && (is_wrong_page(page) || asked->length != right_size(page));
    note_layout(page->layout);
    note_refusal(call, &(struct question){.table = asked->table, .page = page}, expected);
    if (expected.items[0] == 17)
        note_books(call, page->books, (struct reasons){.is_7 = is_7, .is_4 = is_4});
    if (expected.items[0] == 4)
        note_buffer(call, asked);
    if (expected.items[0] == 0)
        note_cells_converted(call, page);
}
