/* The kinds of comparisons of the page that are counted; page_kinds.c has a name for each, and the calls that it
   is wanted for. */

#ifndef SECOND_PAGE_KINDS_H
#define SECOND_PAGE_KINDS_H

#include "../draws/page_draws.h"

/* What a kind is counted for: the calls, those with a mode in mending mode, in plain mode and with a mode that there is
   not; the records that take stores in an empty place, and those that it refuses with 9. */
enum page_call {
    TAKE,
    COLLECT,
    MAKE_STATES_FIRST, /* the conversions, by the layout that they make */
    MAKE_CELL_BY_CELL,
    READ,
    COEFFICIENT,
    TALLY,
    LINES,
    PLAIN_READ,
    PLAIN_COEFFICIENT,
    PLAIN_TALLY,
    PLAIN_LINES,
    PAGE_CALLS,
    NO_MODE_READ = PAGE_CALLS,
    NO_MODE_COEFFICIENT,
    NO_MODE_TALLY,
    NO_MODE_LINES,
    STORED,
    FOREIGN,
    COUNTED_FOR,
    CALLS_WITH_MODE = PLAIN_READ - READ
};

enum page_kind {
    /* what is held where the call looks */
    CELL_SOUND,
    CELL_MENDED,
    CELL_10_AT_NUMBER,
    CELL_10_AND_0,
    CELL_10_FROM_8,
    CELL_14,
    CELL_15,
    CELL_15_PAST_END,
    CELL_6_AT_END,
    CELL_6_ABOVE_0,
    CELL_6_BEFORE_15,
    CODEWORD_0,
    CODEWORD_BEFORE_END,
    CODEWORD_AT_END,
    CODEWORD_PAST_END,
    CODEWORD_BEFORE_POWER,
    CODEWORD_POWER,
    CODEWORD_LARGEST,
    WIDTH_0_SOUND,
    WIDTH_0_14,
    WIDTH_32_SOUND,
    WIDTH_32_PAST_END,
    DISTANCE_PAST_255,
    DISTANCE_PAST_2_24,
    POWER_SOUND,
    POWER_14,
    PRODUCT_SHOWN, /* this one and the next two in the order of the selectors */
    MAGNITUDE_SHOWN,
    PRODUCT_PRODUCT_SHOWN,
    /* the other cells */
    EMPTY_ZEROS,
    EMPTY_GARBAGE,
    CONTESTED_ZEROS,
    CONTESTED_GARBAGE,
    EMPTY_OTHER_ROW,
    CONTESTED_OTHER_ROW,
    FAULT_STATE,
    FAULT_HIGH,
    FAULT_LOW,
    FAULT_BOTH,
    FAULT_BOOK,
    FAULT_PLACE_AND_ROW,
    /* a record of another row, held or refused */
    OTHER_ROW_ALONE,
    OTHER_ROW_AND_10,
    OTHER_ROW_AND_14,
    OTHER_ROW_AND_15,
    ROW_BEFORE,
    ROW_BEHIND,
    ROW_BEFORE_AT_FIRST,
    ROW_BEHIND_AT_LAST,
    ROW_IN_LOW_BITS,
    NO_ROW_OF_TABLE,
    /* where it looks */
    AT_PLACE_0,
    AT_LAST_PLACE,
    AT_FIRST_OF_ROW,
    AT_LAST_OF_ROW,
    AT_PAST_255,
    OF_1_PLACE,
    OF_4096_PLACES,
    BESIDE_FAULT,
    FAULT_BESIDE_GOOD,
    BOOK_ABOVE_0,
    BOOK_ABOVE_0_PAST_255,
    LAST_BOOK,
    OF_16_BOOKS,
    BESIDE_OTHER_BOOK,
    FAULT_BESIDE_OTHER_BOOK,
    /* what take does */
    SAME_STAYS,
    OTHER_IN_SEVERAL,
    FAULT_SAME_REST,
    FAULT_SAME_BUT_ROW,
    EMPTY_9,
    CONTESTED_9,
    HELD_SAME_BUT_ROW_9,
    FAULT_SAME_9,
    /* refusals */
    ANSWERED,
    REFUSED_7,
    REFUSED_4,
    REFUSED_8,
    REFUSED_9,
    REFUSED_12,
    REFUSED_13,
    REFUSED_16,
    REFUSED_17,
    ROW_0_NAMED,
    ROW_ABOVE_0_NAMED,
    PAGE_SHORT_1,
    PAGE_LONG_1,
    PAGE_SHORT_9,
    PAGE_LONG_9,
    NO_PAGE,
    PAGE_CUT,
    PAGE_SHORT_BOOK,
    PAGE_LONG_BOOK,
    OTHER_LENGTH,
    OTHER_LENGTH_AND_ROW,
    BOTH_LENGTHS,
    AT_END,
    FAR_PAST,
    CUT_PLACE,
    PAST_BESIDE_FAULT,
    PLACE_ALONE,
    BOOK_ALONE,
    BOOK_AND_PLACE,
    BOOK_AT_END,
    BOOK_FAR_PAST,
    CUT_BOOK,
    COORDINATE_LENGTH,
    COORDINATE_FAR,
    EMPTY_13,
    CONTESTED_13,
    HELD_13,
    /* two reasons for a refusal */
    BOTH_16_AND_17,
    BOTH_16_AND_7,
    BOTH_16_AND_8,
    BOTH_16_AND_4,
    BOTH_16_AND_13,
    BOTH_16_AND_12,
    ONLY_16,
    BOTH_17_AND_7,
    BOTH_17_AND_8,
    BOTH_17_AND_4,
    BOTH_17_AND_9,
    BOTH_17_AND_13,
    BOTH_17_AND_12,
    ONLY_17,
    BOTH_7_AND_4,
    BOTH_7_AND_8,
    BOTH_7_AND_BOOK,
    BOTH_7_AND_9,
    BOTH_7_AND_13,
    BOTH_4_AND_8,
    BOTH_4_AND_9,
    BOTH_4_AND_12,
    BOTH_4_AND_13,
    BOTH_8_AND_9,
    BOTH_8_AND_13,
    BOTH_9_AND_12,
    BOTH_12_AND_13,
    /* the value of a coefficient */
    VALUE_POSITIVE,
    VALUE_NEGATIVE,
    VALUE_ZERO_SOUND,
    VALUE_ZERO_MENDED,
    VALUE_NOT_WHOLE,
    VALUE_PAST_4096,
    VALUE_LAST,
    /* runs */
    RUN_OF_NONE,
    RUN_OF_ONE_PART,
    RUN_TAKEN,
    RUN_REFUSED,
    RUN_MIXED,
    RUN_TAKEN_AFTER_REFUSED,
    RUN_REPEATS,
    RUN_PERMUTED,
    RUN_ALL_9,
    RUN_EMPTY_BESIDE_9,
    RUN_HELD_BESIDE_9,
    /* tallies */
    FAULT_AT_FIRST,
    FAULT_AT_LAST,
    FAULTS_SEVERAL,
    /* lines */
    ALL_LINES,
    LINES_TO_LAST,
    LINES_AS_ROOM,
    ROOM_255,
    ROOM_256,
    ROOM_511,
    ROOM_CUT,
    ROOM_FAR,
    FAULT_BEHIND_FIRST,
    FAULT_BEHIND_LINES,
    TEXT_OF_6,
    /* conversions */
    BUFFER_SHORT_1,
    BUFFER_LONG_1,
    BUFFER_SHORT_9,
    BUFFER_LONG_9,
    NO_BUFFER,
    BUFFER_CUT,
    SIZES_ALIKE,
    PAGE_KINDS
};

/* The reasons that there are to refuse a call, whichever comes first. With a bad table nothing else is told. */
struct reasons {
    int is_7;
    int is_4;
    int is_8;
    int is_9;
    int is_12;
    int is_13;
};

/* How many kinds were required, and how often the rarest of them was compared. */
struct required {
    uint64_t kinds;
    uint64_t least;
};

/* page_names.c: what each kind is wanted for, and its name */
struct page_name {
    uint32_t wanted_for; /* the bit 1 << call for each */
    const char *what;
};
extern const char *const page_calls[COUNTED_FOR];
extern const struct page_name page_names[PAGE_KINDS];

/* page_kinds.c: a call with a mode is noted as the call in mending mode, and the mode then says which it is; what is
   noted is counted for the layout that was noted last */
enum page_call call_in(enum page_call call, uint64_t mode);
uint64_t mode_of(enum page_call call);
void note_page(enum page_call call, enum page_kind kind, int is_there);
void note_layout(uint64_t layout);
void note_answered(enum page_call call);
void note_fault(enum page_call call, enum fault fault);
void note_state(enum page_call call, uint8_t state);
void note_other_byte(uint64_t byte);
void note_record_length(uint64_t length);
void note_remainder(uint64_t length);
void note_no_mode(enum page_call call, uint64_t mode);
void note_no_books(enum page_call call, uint64_t books);
void note_shell(enum page_call call, struct shell shell, enum reading_word word, uint64_t reason);
void note_selector(enum page_call call, uint64_t selector, enum reading_word word);
void note_tallied(enum page_call call, enum reading_word word, uint64_t counted, uint64_t places);
void require_page_kinds_of(enum page_call call, struct required *so_far);
void require_page_kinds(void);

/* page_notes.c: what the cells tell, and where a call looks */
void note_cell(enum page_call call, const struct table *table, uint64_t field, const uint8_t *cell);
void note_cell_asked(enum page_call call, const struct question *question, uint64_t place);
void note_foreign(enum page_call call, const struct table *table, const uint8_t *record);
void note_where(enum page_call call, const struct question *question, struct list expected);

/* refusal_notes.c: what the refusals tell; a record asks about the place that it names, and a run about nothing */
int is_wrong_page(const struct page *page);
int is_outside(const struct question *question);
void note_refusal(enum page_call call, const struct question *question, struct list expected);
void note_both(enum page_call call, struct reasons reasons);
void note_books(enum page_call call, uint64_t books, struct reasons reasons);
int is_no_mode_or_books(enum page_call call, const struct question *question, struct list expected);

/* take_notes.c: what one comparison of take or of collect tells */
void note_take(const struct table *table, const struct page *page, const struct arrival *arrival, const uint8_t *before,
               struct list expected);
void note_run(const struct table *table, const struct page *page, const struct arrival *run, uint64_t refusals);

/* conversion_notes.c: what one comparison of a conversion tells */
void note_converted(enum page_call call, const struct conversion *asked, struct list expected);

/* reading_notes.c: what one comparison of each other call tells */
void note_reading(enum page_call call, const struct question *question, struct list expected);
void note_value(const struct question *question, struct list expected, uint32_t bits);
void note_tally(const struct question *question, struct list expected);
void note_lines(const struct question *question, struct list expected);

#endif
