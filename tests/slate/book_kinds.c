/* The kinds that the books of a take tell, beside those that tests/second tells; and how much there was of each book
   with each number of books. They are told from what was lent and what the rules made of it, not from how it was drawn.
   See docs/RULES.md, "Books" and "Refusal numbers". */

#include "slate.h"

#include <string.h>

/* By the number of books and the book: takes that are not refused, and those that are refused with 8 for the book
   alone. */
static uint64_t taken[MOST_BOOKS + 1][MOST_BOOKS], not_there[MOST_BOOKS + 1][MOST_BOOKS];

/* Refusal 17. */
static void note_cut(const struct page *page)
{
    note_slate(BOOKS_CUT_8, page->books % 256 == page->filled);
    note_slate(BOOKS_CUT_32, page->books % TWO_TO_32 == page->filled);
    note_slate(BOOKS_CUT_63, page->books % TWO_TO_63 == page->filled);
}

/* Refusal 8. A place that is not there is at times one whose cell would be that of a place in the next book. */
static void note_not_there(const struct taking *taking)
{
    const struct page *page = taking->page;
    const uint64_t field = field_in(taking->arrival->bytes), book = book_in(field), place = place_in(field);
    note_slate(PLACE_OF_NEXT_BOOK, page->places <= place && place < 2 * page->places && book + 1 < page->books);
    not_there[page->books][book] += place < page->places && !is_foreign(taking->table, taking->arrival->bytes);
}

/* Whether the cell is held with the record of another book, and every other bit of it is the same. */
static int is_same_but_book(const struct taking *taking)
{
    const uint8_t *held = taking->before + AT_RECORD, *record = taking->arrival->bytes;
    const uint64_t changed = field_in(held) ^ field_in(record);
    return taking->before[AT_STATE] == STATE_HELD && book_in(changed) != 0 && place_in(changed) == 0 &&
           memcmp(held + AT_ROW, record + AT_ROW, RECORD_SIZE - AT_ROW) == 0;
}

/* A record that is taken, at times while the next book holds its place. */
static void note_taken(const struct taking *taking)
{
    const struct page *page = taking->page;
    const uint64_t field = field_in(taking->arrival->bytes), book = book_in(field), next = (book + 1) % page->books;
    const uint8_t *beside = cell_at(page, place_field(next, place_in(field)));
    note_slate(HELD_IN_OTHER_BOOK, next != book && beside[AT_STATE] == STATE_HELD);
    taken[page->books][book]++;
}

void note_book_kinds(const struct taking *taking)
{
    const struct page *page = taking->page;
    const uint64_t refusal = taking->expected.items[0];
    if (refusal == 17)
        note_cut(page);
    if (refusal == 8)
        note_not_there(taking);
    if (refusal == 0)
        note_taken(taking);
    note_slate(OTHER_NUMBER_OF_BOOKS, refusal == 4 && page->books != page->filled && page->size == right_size(page));
    note_slate(FAULT_SAME_BUT_BOOK, refusal == 12 && is_same_but_book(taking));
}

/* Each book is there, or it is not. */
void require_each_book(uint64_t least)
{
    for (uint64_t books = 1; books <= MOST_BOOKS; books++)
        for (uint64_t book = 0; book < MOST_BOOKS; book++) {
            if (book < books)
                require_number(taken[books][book], least, "takes of a book that is there, with number", book);
            else
                require_number(not_there[books][book], least, "takes of a book that is not there, with number", book);
        }
}
