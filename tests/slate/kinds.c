/* How much was compared of each kind, beside the kinds of takes that tests/second tells. A kind is told from what was
   lent and what the rules made of it, not from how it was drawn. The test ends with an error of its own if there is too
   little of one, so that it cannot become empty. See docs/RULES.md, "The page" and "Refusal numbers". */

#include "slate.h"

#include <stdio.h>
#include <string.h>

enum { LEAST = 200, LEAST_OF_CLASS = 10000, LEAST_TAKES = 1000000 };

/* The last number of places of each class of pages; each class begins behind the one before. */
const uint64_t most_places[CLASSES] = {1, 8, 64, 255, 256, 1024, 4094, 4095, 4096};

/* What a take makes of the cell that it claims, or why it is refused. */
enum outcome {
    ZEROS_HELD,
    GARBAGE_HELD,
    SAME_STAYED,
    OTHER_CONTESTED,
    ZEROS_STAYED,
    GARBAGE_STAYED,
    WITH_17,
    WITH_7,
    WITH_4,
    WITH_8,
    WITH_9,
    WITH_12,
    OUTCOMES
};

static const char *const outcome_names[OUTCOMES] = {
    [ZEROS_HELD] = "takes that make an empty cell of zeros held, in pages of places up to",
    [GARBAGE_HELD] = "takes that make an empty cell with other bytes held, in pages of places up to",
    [SAME_STAYED] = "takes with which a held cell stays, in pages of places up to",
    [OTHER_CONTESTED] = "takes that make a held cell contested, in pages of places up to",
    [ZEROS_STAYED] = "takes with which a contested cell of zeros stays, in pages of places up to",
    [GARBAGE_STAYED] = "takes with which a contested cell with other bytes stays, in pages of places up to",
    [WITH_17] = "takes refused with 17, in pages of places up to",
    [WITH_7] = "takes refused with 7, in pages of places up to",
    [WITH_4] = "takes refused with 4, in pages of places up to",
    [WITH_8] = "takes refused with 8, in pages of places up to",
    [WITH_9] = "takes refused with 9, in pages of places up to",
    [WITH_12] = "takes refused with 12, in pages of places up to",
};

static const char *const names[SLATE_KINDS] = {
    [COUNT_GIVEN] = "of a usable shell",
    [COUNT_BAD_LENGTH] = "with a bad length alone",
    [COUNT_BAD_RADIUS] = "with a bad radius alone",
    [COUNT_PAST_2_32] = "of a shell with N above 2^32",
    [COUNT_EXCHANGED] = "that would be another if length and radius changed places",
    [COUNT_LENGTH_CUT_8] = "with a length that is good where it is cut to 8 bits",
    [COUNT_LENGTH_CUT_32] = "with a length that is good where it is cut to 32 bits",
    [COUNT_LENGTH_CUT_63] = "with a length that is good where it is cut to 63 bits",
    [COUNT_RADIUS_CUT_8] = "with a radius that is good where it is cut to 8 bits",
    [COUNT_RADIUS_CUT_32] = "with a radius that is good where it is cut to 32 bits",
    [COUNT_RADIUS_CUT_63] = "with a radius that is good where it is cut to 63 bits",
    [NULL_TABLE] = "with a null pointer for the table",
    [NULL_PAGE] = "refused with 4 with a null pointer for the page alone",
    [NULL_RECORD] = "refused with 4 with a null pointer for the record alone",
    [NULL_ALL] = "with three null pointers",
    [NOTHING_TABLE] = "with a pointer to nothing for the table",
    [NOTHING_PAGE] = "refused with 4 with a pointer to nothing for the page",
    [NOTHING_RECORD] = "refused with 4 with a pointer to nothing for the record",
    [EMPTY_TABLE] = "with a table of no bytes in its room",
    [EMPTY_PAGE] = "refused with 4 with a page of no bytes in its room",
    [EMPTY_RECORD] = "refused with 4 with a record of no bytes in its room",
    [TABLE_CUT_32] = "with a table that is good where its size is cut to 32 bits",
    [TABLE_FROM_2_63] = "with a table of 2^63 bytes or more",
    [PAGE_CUT_32] = "with a page that is right where its size is cut to 32 bits, and nothing else wrong",
    [PAGE_FROM_2_63] = "with a page of 2^63 bytes or more, and nothing else wrong",
    [RECORD_CUT_32] = "with a record that is right where its length is cut to 32 bits, and nothing else wrong",
    [RECORD_FROM_2_63] = "with a record of 2^63 bytes or more, and nothing else wrong",
    [RECORD_LONG] = "with a record of 18 to 208 bytes, and nothing else wrong",
    [EDGE_TAKEN] = "at the end of memory that are not refused",
    [EDGE_PART_OF_ROW] = "at the end of memory with a part of a row",
    [EDGE_PAGE_SHORT] = "at the end of memory with a page that is too short",
    [EDGE_RECORD_SHORT] = "at the end of memory with a record that is too short",
    [EDGE_FOREIGN_ROW] = "at the end of memory that are refused with 9",
    [EDGE_LATER_BOOK] = "at the end of memory of a book above 0 that are not refused",
    [EDGE_BOOK_BEHIND] = "at the end of memory of the book that would lie behind it",
    [BOOKS_CUT_8] = "with a number of books that is right where it is cut to 8 bits",
    [BOOKS_CUT_32] = "with a number of books that is right where it is cut to 32 bits",
    [BOOKS_CUT_63] = "with a number of books that is right where it is cut to 63 bits",
    [OTHER_NUMBER_OF_BOOKS] = "refused with 4 with another number of books than those of the page",
    [PLACE_OF_NEXT_BOOK] = "refused with 8 for a place whose cell would be one of the next book",
    [FAULT_SAME_BUT_BOOK] = "refused with 12 for a held record that is the same but for its book",
    [HELD_IN_OTHER_BOOK] = "that are not refused where another book holds the same place",
};

static uint64_t kinds[SLATE_KINDS], outcomes[CLASSES][OUTCOMES], fitting[FAULTS];
static uint64_t answers[MOST_REFUSAL + 1], takes;

void note_slate(enum slate_kind kind, int is_there)
{
    kinds[kind] += is_there != 0;
}

void note_answer(uint32_t refusal)
{
    answers[refusal]++;
    takes++;
}

/* Refusal 7 with a record that is right and a page that is as large as the rows and the books would have it: nothing
   but the table is wrong. */
static void note_fitting(const struct lending *lending)
{
    const struct table *table = lending->table;
    const struct judgment judgment = judge(table->bytes, table->size);
    if (table->size > sizeof table->bytes || lending->record->length != RECORD_SIZE)
        return;
    if (lending->page->size == CELL_SIZE * places_of_rows(table) * lending->page->books)
        for (int fault = 0; fault < FAULTS; fault++)
            fitting[fault] += judgment.faults >> fault & 1;
}

/* The pointers and the sizes of a take. */
void note_lending(const struct lending *lending, uint64_t refusal)
{
    const uint64_t table = lending->table->size, page = lending->page->size, record = lending->record->length;
    const uint64_t right = right_size(lending->page);
    const int is_4 = refusal == 4, page_alone = is_4 && record == RECORD_SIZE, record_alone = is_4 && page == right;
    const int is_null[] = {lending->to_table == TO_NULL, lending->to_page == TO_NULL, lending->to_record == TO_NULL};
    if (refusal == 7)
        note_fitting(lending);
    note_slate(NULL_TABLE, table == 0 && is_null[0]);
    note_slate(NULL_PAGE, page_alone && page == 0 && is_null[1]);
    note_slate(NULL_RECORD, record_alone && record == 0 && is_null[2]);
    note_slate(NULL_ALL, table + page + record == 0 && is_null[0] && is_null[1] && is_null[2]);
    note_slate(NOTHING_TABLE, table == 0 && lending->to_table == TO_NOTHING);
    note_slate(NOTHING_PAGE, is_4 && page == 0 && lending->to_page == TO_NOTHING);
    note_slate(NOTHING_RECORD, is_4 && record == 0 && lending->to_record == TO_NOTHING);
    note_slate(EMPTY_TABLE, table == 0 && lending->to_table == TO_ROOM);
    note_slate(EMPTY_PAGE, is_4 && page == 0 && lending->to_page == TO_ROOM);
    note_slate(EMPTY_RECORD, is_4 && record == 0 && lending->to_record == TO_ROOM);
    note_slate(TABLE_CUT_32, table >= TWO_TO_32 && judge(lending->table->bytes, table % TWO_TO_32).faults == 0);
    note_slate(TABLE_FROM_2_63, table >= TWO_TO_63);
    note_slate(PAGE_CUT_32, page_alone && page > right && page % TWO_TO_32 == right);
    note_slate(PAGE_FROM_2_63, page_alone && page >= TWO_TO_63);
    note_slate(RECORD_CUT_32, record_alone && record > RECORD_SIZE && record % TWO_TO_32 == RECORD_SIZE);
    note_slate(RECORD_FROM_2_63, record_alone && record >= TWO_TO_63);
    note_slate(RECORD_LONG, record_alone && record > MOST_TAKEN && record <= MOST_ARRIVAL);
}

/* Told from the cell before and behind a take, and from nothing else where it is not refused. */
static enum outcome outcome_of(const struct taking *taking)
{
    static const uint8_t zeros[RECORD_SIZE];
    static const enum outcome refused[MOST_REFUSAL + 1] = {[17] = WITH_17, [7] = WITH_7, [4] = WITH_4,
                                                           [8] = WITH_8,   [9] = WITH_9, [12] = WITH_12};
    const uint64_t refusal = taking->expected.items[0];
    if (refusal != 0)
        return refused[refusal];
    const uint8_t *before = taking->before, *after = cell_at(taking->page, field_in(taking->arrival->bytes));
    const int is_zeros = memcmp(before + AT_RECORD, zeros, RECORD_SIZE) == 0;
    const int is_arrived = memcmp(after + AT_RECORD, taking->arrival->bytes, RECORD_SIZE) == 0;
    if (before[AT_STATE] == STATE_EMPTY && after[AT_STATE] == STATE_HELD && is_arrived)
        return is_zeros ? ZEROS_HELD : GARBAGE_HELD;
    if (before[AT_STATE] == STATE_HELD && after[AT_STATE] == STATE_CONTESTED)
        return OTHER_CONTESTED;
    own_figure("cells that a take changes otherwise", memcmp(before, after, CELL_SIZE) != 0, 0);
    return before[AT_STATE] == STATE_HELD ? SAME_STAYED : is_zeros ? ZEROS_STAYED : GARBAGE_STAYED;
}

void note_outcome(const struct taking *taking)
{
    int size_class = 0;
    while (most_places[size_class] < taking->page->places)
        size_class++;
    outcomes[size_class][outcome_of(taking)]++;
}

/* Ends the test unless there was enough of everything; then says how much. */
void require_slate_kinds(void)
{
    struct required so_far = {0, UINT64_MAX};
    require_page_kinds_of(TAKE, &so_far);
    require_page_kinds_of(STORED, &so_far);
    require_page_kinds_of(FOREIGN, &so_far);
    for (int kind = 0; kind < SLATE_KINDS; kind++)
        require(kinds[kind], LEAST, kind < NULL_TABLE ? "counts" : "takes", names[kind]);
    for (uint64_t fault = 0; fault < FAULTS; fault++)
        require_number(fitting[fault], LEAST, "takes refused with 7 alone for the fault with number", fault);
    for (int size_class = 0; size_class < CLASSES; size_class++)
        for (int outcome = 0; outcome < OUTCOMES; outcome++)
            require_number(outcomes[size_class][outcome], LEAST_OF_CLASS, outcome_names[outcome], most_places[size_class]);
    require_each_book(LEAST);
    require(takes, LEAST_TAKES, "takes", "in all");
    printf("kinds: %lu of takes at least %lu times each, %d more at least %d times each, ", so_far.kinds, so_far.least, SLATE_KINDS,
           LEAST);
    printf("%d outcomes at least %d times each in each of %d classes of pages\n", OUTCOMES, LEAST_OF_CLASS, CLASSES);
    printf("agreed: every count, and %lu takes: %lu taken, ", takes, answers[0]);
    printf("refused %lu with 17, %lu with 7, %lu with 4, ", answers[17], answers[7], answers[4]);
    printf("%lu with 8, %lu with 9, %lu with 12\n", answers[8], answers[9], answers[12]);
}
