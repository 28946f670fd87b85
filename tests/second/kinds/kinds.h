/* The kinds of vectors that are counted; kinds.c has a name for each. */

#ifndef SECOND_KINDS_H
#define SECOND_KINDS_H

#include "../rules/rules.h"

/* The first four are the turns of a coefficient, see steps.c. */
enum kind {
    TURNED_HALF_DOWN,
    TURNED_HALF_UP,
    TURNED_BELOW_HALF,
    TURNED_ABOVE_HALF,
    NO_TURN,
    TIE_OF_RADII = NO_TURN,
    ONE_BELOW_TIE,
    ONE_ABOVE_TIE,
    BELOW_MIDDLE,
    ABOVE_MIDDLE,
    SUM_PAST_2_24,
    NO_UNITS,
    ONE_UNIT,
    MORE_UNITS,
    TIE_OF_EQUAL,
    TIE_OF_DIFFERENT,
    TIE_PAST_2_24,
    SMALLER_MAGNITUDE,
    SINGLY_OFF,
    ALL_ZERO,
    ALL_ROUNDED_TO_0,
    ZERO_AMONG,
    NEGATIVE_ZERO_AMONG,
    ROUNDED_TO_0_AMONG,
    SUBNORMAL,
    SMALLEST,
    LARGEST,
    LARGEST_NEGATIVE,
    ALL_LARGEST,
    PLACE_0,
    FIRST_OF_ROW,
    LAST_OF_ROW,
    LAST_OF_TABLE,
    PLACE_PAST_255,
    OF_ONE_BOOK,
    OF_SIXTEEN_BOOKS,
    BOOK_PAST_0,
    LAST_OF_BOOKS,
    BOOK_AND_PLACE_PAST_255,
    STEP_1,
    STEP_255,
    STEP_256,
    STEP_65535,
    LARGEST_RADIUS,
    CODEWORD_PAST_2_24,
    PRODUCT_TOLD, /* this one and the next two in the order of the selectors */
    MAGNITUDE_TOLD,
    PRODUCT_PRODUCT_TOLD,
    QUIET_NAN,
    SIGNALLING_NAN,
    POSITIVE_INFINITY,
    NEGATIVE_INFINITY,
    POSITIVE_32768,
    NEGATIVE_32768,
    NEXT_TO_32768,
    MORE_UNUSABLE,
    BAD_SIZE,
    BAD_BEFORE,
    BAD_AT,
    BAD_BEHIND,
    NO_SUCH_BOOK,
    BOOK_OF_NUMBER,
    BOOK_CUT,
    BOOKS_AND_TABLE,
    BOOKS_OF_NONE,
    BOOKS_OF_SEVENTEEN,
    BOOKS_FROM_2_32,
    KINDS
};

/* kinds.c: how many vectors of each kind were compared */
void note_if(int is_there, enum kind kind);
void note_kinds(const struct vector *vector, const struct quantizing *made);
void require_kind(enum kind kind, uint64_t least);
void require_kinds(void);

/* steps.c: the kinds that the steps of quantizing tell */
void note_turns(const struct vector *vector, const struct quantizing *made);
void note_sum(const struct vector *vector, const struct quantizing *made);
void note_units(const struct quantizing *made);
void note_coefficients(const struct vector *vector, const struct quantizing *made);

#endif
