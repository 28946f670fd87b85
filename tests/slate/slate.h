/* The parts of the layout program in small. It links the five calls of aldrynja.h and holds them to the rules of
   tests/second, which are written from docs/RULES.md alone and share nothing with the calls. The conversions have
   conversions.h. */

#ifndef SLATE_SLATE_H
#define SLATE_SLATE_H

#include "../second/draws/page_draws.h"
#include "../second/kinds/lent.h"
#include "../second/kinds/page_kinds.h"
#include "aldrynja.h"

/* How a buffer is lent: in its room; or, if it has no bytes, by a null pointer or by one to nothing. */
enum pointer { TO_ROOM, TO_NULL, TO_NOTHING };

/* What aldrynja_take is lent. A size that is not right may be any number, larger than the room too: it decides the
   answer alone, and the call may look at nothing. */
struct lending {
    const struct table *table;
    struct page *page;
    const struct arrival *record;
    enum pointer to_table;
    enum pointer to_page;
    enum pointer to_record;
};

/* under_way.c: from tell_faults on, a call that reads or writes where it may not is told by the words for what is under
   way */
typedef void print_call(const void *what);
void tell_faults(void);
void begin_call(print_call *print, const void *what);
void end_call(void);

/* layouts.c: a page of so many cells in the other layout, and back, in another room or in its own */
void lay_states_first(const uint8_t *restrict cell_by_cell, uint8_t *restrict states_first, uint64_t cells);
void lay_cell_by_cell(const uint8_t *restrict states_first, uint8_t *restrict cell_by_cell, uint64_t cells);
void keep_cell_by_cell(uint8_t *page, uint64_t cells);

/* lending.c: one comparison of aldrynja_take with the rules in tests/second/rules/page.c, whose refusal is returned.
   The number of books is the one that the page tells. lent_at is where a buffer is lent: a null pointer, or an address
   where nothing can be, only for one of no bytes. */
void call_take(const struct taking *taking, const uint8_t *table, uint8_t *states_first, const uint8_t *record);
uint8_t *lent_at(enum pointer pointer, uint64_t size, uint8_t *room);
uint64_t compare_lending(const struct lending *lending);

/* faults.c: the places of the whole rows of a table, good or bad, as far as the room for a book goes */
uint64_t places_of_rows(const struct table *table);

/* kinds.c: how much was compared of each kind, and an error of the test itself where there was too little of one */
enum slate_kind {
    COUNT_GIVEN,
    COUNT_BAD_LENGTH,
    COUNT_BAD_RADIUS,
    COUNT_PAST_2_32,
    COUNT_EXCHANGED,
    COUNT_LENGTH_CUT_8,
    COUNT_LENGTH_CUT_32,
    COUNT_LENGTH_CUT_63,
    COUNT_RADIUS_CUT_8,
    COUNT_RADIUS_CUT_32,
    COUNT_RADIUS_CUT_63,
    NULL_TABLE,
    NULL_PAGE,
    NULL_RECORD,
    NULL_ALL,
    NOTHING_TABLE,
    NOTHING_PAGE,
    NOTHING_RECORD,
    EMPTY_TABLE,
    EMPTY_PAGE,
    EMPTY_RECORD,
    TABLE_CUT_32,
    TABLE_FROM_2_63,
    PAGE_CUT_32,
    PAGE_FROM_2_63,
    RECORD_CUT_32,
    RECORD_FROM_2_63,
    RECORD_LONG,
    EDGE_TAKEN,
    EDGE_PART_OF_ROW,
    EDGE_PAGE_SHORT,
    EDGE_RECORD_SHORT,
    EDGE_FOREIGN_ROW,
    EDGE_LATER_BOOK,
    EDGE_BOOK_BEHIND,
    BOOKS_CUT_8,
    BOOKS_CUT_32,
    BOOKS_CUT_63,
    OTHER_NUMBER_OF_BOOKS,
    PLACE_OF_NEXT_BOOK,
    FAULT_SAME_BUT_BOOK,
    HELD_IN_OTHER_BOOK,
    SLATE_KINDS
};
enum { CLASSES = 9 };
extern const uint64_t most_places[CLASSES];
void note_slate(enum slate_kind kind, int is_there);
void note_answer(uint32_t refusal);
void note_lending(const struct lending *lending, uint64_t refusal);
void note_outcome(const struct taking *taking);
void require_slate_kinds(void);

/* book_kinds.c: the kinds that the books of a take tell; and each book with each number of books */
void note_book_kinds(const struct taking *taking);
void require_each_book(uint64_t least);

/* growth.c: a good table with so many places, and a number of books for its pages */
struct table table_of(uint64_t places);
uint64_t some_books(uint64_t places);

/* sizes.c: the ways to lend a buffer, as it must be or with no bytes by each pointer; and the right size, with sizes
   that are right only where a number is cut, or that are at the ends */
enum { RIGHT, EMPTY, WAYS = 4, ENDS = 9 };
extern const enum pointer pointers[WAYS];
void ends_of(uint64_t right, uint64_t *sizes);

/* edges.c: the end of a room, behind which nothing can be read or written; and so many bytes, up to that end */
uint8_t *end_of_room(void);
uint8_t *lend(uint8_t *to_end, const uint8_t *bytes, uint64_t size);

/* cases.c: the table of two places, of the whole case; a byte of a page whose only held cell is one; and an error where
   a case of the rules is not as it must be */
extern const uint8_t two_places[ROW_SIZE];
uint8_t held_alone(uint64_t cells, uint64_t cell, const uint8_t *record, uint64_t at);
void compare_case(const char *call, uint64_t number, uint64_t expected, uint64_t got);

/* The comparisons, each in the file that its name says */
void compare_counts(void);
void compare_growth(void);
void compare_faults(void);
void compare_sizes(void);
void compare_edges(void);
void compare_cases(void);
void compare_book_cases(void);

#endif
