/* The conversions of a page, aldrynja_to_states_first and aldrynja_to_cell_by_cell, and what they are held to. */

#ifndef SLATE_CONVERSIONS_H
#define SLATE_CONVERSIONS_H

#include "slate.h"

enum conversion_call { TO_STATES_FIRST, TO_CELL_BY_CELL, CONVERSIONS };

/* What a conversion is lent, and how. The first page is read, and the second one written. Each is a struct page for its
   two copies `lent`, whatever their layout: the call is lent number 0, and number 1 is what that must be afterwards.
   The number of books is the one that the first page tells. A size that is not right may be any number. */
struct conversion_lending {
    enum conversion_call call;
    const struct table *table;
    struct page *first;
    struct page *second;
    enum pointer to_table;
    enum pointer to_first;
    enum pointer to_second;
};

/* converting.c: one comparison of a conversion, whose refusal is returned; the three steps of it; and any bytes for a
   page, in either layout */
uint32_t expect_conversion(const struct conversion_lending *lending);
void call_conversion(const struct conversion_lending *lending, uint32_t expected, const uint8_t *table,
                     const uint8_t *first, uint8_t *second);
void compare_converted(const struct conversion_lending *lending, const char *what, const uint8_t *wanted,
                       const uint8_t *got, uint64_t size);
uint32_t compare_conversion(const struct conversion_lending *lending);
void any_bytes(struct page *page, uint64_t places, uint64_t books);

/* conversion_kinds.c: how much was compared of each kind, with each of the two calls, and an error of the test itself
   where there was too little of one */
enum conversion_kind {
    STATES_ABOVE_2,
    BYTES_MOVED,
    OF_ONE_CELL,
    FIRST_SHORT_1,
    FIRST_LONG_1,
    FIRST_SHORT_CELL,
    FIRST_LONG_CELL,
    SECOND_SHORT_1,
    SECOND_LONG_1,
    SECOND_SHORT_CELL,
    SECOND_LONG_CELL,
    BOTH_WRONG_ALIKE,
    FOR_OTHER_BOOKS,
    ONLY_BOOKS,
    BOOKS_AND_BAD_TABLE,
    BOOKS_AND_LENGTH,
    BAD_TABLE_AND_LENGTH,
    BOOKS_RIGHT_IN_8,
    BOOKS_RIGHT_IN_32,
    BOOKS_RIGHT_IN_63,
    NULL_FOR_TABLE,
    NULL_FOR_FIRST,
    NULL_FOR_SECOND,
    NULL_FOR_ALL,
    NOTHING_FOR_FIRST,
    NOTHING_FOR_SECOND,
    FIRST_RIGHT_IN_32,
    FIRST_OF_2_63,
    SECOND_RIGHT_IN_32,
    SECOND_OF_2_63,
    CONVERTED_AT_EDGE,
    FIRST_SHORT_AT_EDGE,
    SECOND_SHORT_AT_EDGE,
    PART_OF_ROW_AT_EDGE,
    CONVERSION_KINDS
};
void note_conversion(const struct conversion_lending *lending, uint32_t refusal);
void note_conversion_kind(enum conversion_call call, enum conversion_kind kind, int is_there);
void require_conversion_kinds(void);

/* The comparisons, each in the file that its name says */
void compare_conversions(void);
void compare_conversion_faults(void);
void compare_conversion_edges(void);
void compare_conversion_cases(void);
void compare_old_pages(void);

#endif
