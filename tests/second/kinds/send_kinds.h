/* The kinds of sent pages that are counted; send_names.c has a name for each. */

#ifndef SECOND_SEND_KINDS_H
#define SECOND_SEND_KINDS_H

#include "../rules/sending.h"

enum send_kind {
    /* pages that are sent */
    SENT,
    SENT_1_PLACE,
    SENT_4096_PLACES,
    SENT_PAST_255,
    SENT_MIXED_LENGTHS,
    SENT_EVERY_SELECTOR,
    SENT_BELOW_32768,
    SENT_ABOVE_MINUS_32768,
    /* books, which no file can show */
    SENT_16_BOOKS,
    SENT_BOOK_ABOVE_0,
    SENT_LAST_BOOK,
    SENT_BOOK_PAST_255,
    SEND_17,
    SEND_17_AND_7,
    SEND_17_AND_8,
    SEND_17_AND_4,
    SEND_17_AND_11,
    SEND_7_AND_8,
    SEND_8,
    SEND_8_AT_END,
    SEND_8_CUT,
    SEND_8_AND_4,
    SEND_8_AND_11,
    /* 7 */
    SEND_7_SIZE,
    SEND_7_ROW_0,
    SEND_7_ROW_ABOVE_0,
    SEND_7_AND_4,
    SEND_7_AND_11,
    /* 4 for the run alone, for the buffer alone, and for both */
    RUN_SHORT,
    RUN_SHORT_1,
    RUN_LONG,
    RUN_LONG_1,
    RUN_OF_PLACES,
    RUN_OF_FIRST_LENGTH,
    NO_RUN,
    RUN_CUT,
    BUFFER_SHORT,
    BUFFER_SHORT_1,
    BUFFER_SHORT_8,
    BUFFER_LONG,
    BUFFER_LONG_1,
    BUFFER_LONG_8,
    BUFFER_OF_PAGE,
    NO_BUFFER,
    BUFFER_CUT,
    RUN_AND_BUFFER,
    SEND_4_AND_11,
    /* 11: where, how many, and which */
    FAULT_FIRST_PLACE,
    FAULT_LAST_PLACE,
    FAULT_LATER_PLACE,
    FAULT_PAST_255,
    FAULT_ROW_ABOVE_0,
    FAULT_LOWEST_COORDINATE,
    FAULT_LAST_COORDINATE,
    FAULTS_IN_PLACE,
    FAULTS_IN_PLACES,
    FAULT_LOWER_BEHIND,
    FAULT_QUIET_NAN,
    FAULT_SIGNALLING_NAN,
    FAULT_INFINITY,
    FAULT_MINUS_INFINITY,
    FAULT_32768,
    FAULT_MINUS_32768,
    FAULT_NEXT_TO_32768,
    SEND_KINDS
};

/* send_names.c: the name of each kind */
extern const char *const send_names[SEND_KINDS];

/* send_kinds.c: how many sent pages of each kind were compared */
void note_send(const struct sending *sending, const struct sent *expected);
void require_file_kinds(uint64_t least);
void require_send_kinds(void);

#endif
