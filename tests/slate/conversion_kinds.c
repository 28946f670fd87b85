/* How much was compared of each kind of conversion, with each of the two calls. A kind is told from what was lent and
   what the rules made of it, not from how it was drawn. The test ends with an error of its own if there is too little
   of one, so that it cannot become empty. See docs/RULES.md, "States first" and "Refusal numbers". */

#include "conversions.h"

#include <stdio.h>
#include <string.h>

enum { LEAST = 20, LEAST_OF_CLASS = 400, LEAST_CONVERSIONS = 20000, BYTES = 256 };

static const char *const names[CONVERSION_KINDS] = {
    [STATES_ABOVE_2] = "of pages with states above 2",
    [BYTES_MOVED] = "of pages that have other bytes in the other layout",
    [OF_ONE_CELL] = "of pages of one cell",
    [FIRST_SHORT_1] = "refused with 4 for a first page that is a byte too short",
    [FIRST_LONG_1] = "refused with 4 for a first page that is a byte too long",
    [FIRST_SHORT_CELL] = "refused with 4 for a first page that is a cell too short",
    [FIRST_LONG_CELL] = "refused with 4 for a first page that is a cell too long",
    [SECOND_SHORT_1] = "refused with 4 for a second page that is a byte too short",
    [SECOND_LONG_1] = "refused with 4 for a second page that is a byte too long",
    [SECOND_SHORT_CELL] = "refused with 4 for a second page that is a cell too short",
    [SECOND_LONG_CELL] = "refused with 4 for a second page that is a cell too long",
    [BOTH_WRONG_ALIKE] = "refused with 4 for two pages of the same length",
    [FOR_OTHER_BOOKS] = "refused with 4 with another number of books than those of the pages",
    [ONLY_BOOKS] = "refused with 17, and nothing else wrong",
    [BOOKS_AND_BAD_TABLE] = "refused with 17 with a bad table",
    [BOOKS_AND_LENGTH] = "refused with 17 with pages that are not both right for their books",
    [BAD_TABLE_AND_LENGTH] = "refused with 7 with pages of different lengths",
    [BOOKS_RIGHT_IN_8] = "with a number of books that is right where it is cut to 8 bits",
    [BOOKS_RIGHT_IN_32] = "with a number of books that is right where it is cut to 32 bits",
    [BOOKS_RIGHT_IN_63] = "with a number of books that is right where it is cut to 63 bits",
    [NULL_FOR_TABLE] = "with a null pointer for the table",
    [NULL_FOR_FIRST] = "refused with 4 with a null pointer for the first page alone",
    [NULL_FOR_SECOND] = "refused with 4 with a null pointer for the second page alone",
    [NULL_FOR_ALL] = "with three null pointers",
    [NOTHING_FOR_FIRST] = "refused with 4 with a pointer to nothing for the first page",
    [NOTHING_FOR_SECOND] = "refused with 4 with a pointer to nothing for the second page",
    [FIRST_RIGHT_IN_32] = "with a first page that is right where its size is cut to 32 bits, and nothing else wrong",
    [FIRST_OF_2_63] = "with a first page of 2^63 bytes or more, and nothing else wrong",
    [SECOND_RIGHT_IN_32] = "with a second page that is right where its size is cut to 32 bits, and nothing else wrong",
    [SECOND_OF_2_63] = "with a second page of 2^63 bytes or more, and nothing else wrong",
    [CONVERTED_AT_EDGE] = "at the end of memory that are not refused",
    [FIRST_SHORT_AT_EDGE] = "at the end of memory with a first page that is too short",
    [SECOND_SHORT_AT_EDGE] = "at the end of memory with a second page that is too short",
    [PART_OF_ROW_AT_EDGE] = "at the end of memory with a part of a row",
};

/* What is told of one of the calls. */
static struct {
    uint64_t kinds[CONVERSION_KINDS];
    uint64_t answers[MOST_REFUSAL + 1];
    uint64_t classes[CLASSES];      /* those that are not refused, by the places */
    uint64_t books[MOST_BOOKS + 1]; /* and by the number of books */
    uint64_t states[BYTES];         /* the states that they copied */
    uint64_t largest;               /* those of 4,096 places in each of 16 books */
    uint64_t fitting[FAULTS];       /* those that are refused with 7 and have pages that would fit, by the fault */
} noted[CONVERSIONS];

void note_conversion_kind(enum conversion_call call, enum conversion_kind kind, int is_there)
{
    noted[call].kinds[kind] += is_there != 0;
}

/* A page that is converted. Its states are those that stand in the layout that has them first. */
static void note_page_converted(const struct conversion_lending *lending)
{
    const enum conversion_call call = lending->call;
    const struct page *first = lending->first, *second = lending->second;
    const uint8_t *states = (call == TO_STATES_FIRST ? second : first)->lent[1] + GUARDS;
    const uint64_t cells = cells_of(first);
    uint64_t above_2 = 0;
    int size_class = 0;
    while (most_places[size_class] < first->places)
        size_class++;
    for (uint64_t i = 0; i < cells; i++) {
        noted[call].states[states[i]]++;
        above_2 += states[i] > STATE_CONTESTED;
    }
    noted[call].classes[size_class]++;
    noted[call].books[first->books]++;
    note_conversion_kind(call, STATES_ABOVE_2, above_2 > 0);
    note_conversion_kind(call, OF_ONE_CELL, cells == 1);
    noted[call].largest += cells == MOST_PLACES * MOST_BOOKS;
    note_conversion_kind(call, BYTES_MOVED,
                         memcmp(first->lent[1] + GUARDS, second->lent[1] + GUARDS, first->size) != 0);
}

/* Refusal 4, of two pages that are right for the books that they have, or one of which is not. */
static void note_lengths(const struct conversion_lending *lending)
{
    const enum conversion_call call = lending->call;
    const uint64_t first = lending->first->size, second = lending->second->size, right = right_size(lending->first);
    const int is_first = first != right && second == right, is_second = first == right && second != right;
    const uint64_t over_first = first - right, over_second = second - right; /* the difference, modulo 2^64 */
    const uint64_t off[] = {UINT64_MAX, 1, UINT64_MAX - CELL_SIZE + 1, CELL_SIZE};
    for (uint64_t i = 0; i < ENTRIES(off); i++) {
        note_conversion_kind(call, FIRST_SHORT_1 + (enum conversion_kind)i, is_first && over_first == off[i]);
        note_conversion_kind(call, SECOND_SHORT_1 + (enum conversion_kind)i, is_second && over_second == off[i]);
    }
    note_conversion_kind(call, BOTH_WRONG_ALIKE, first == second && first != right);
    note_conversion_kind(call, FOR_OTHER_BOOKS, first == right && second == right);
    note_conversion_kind(call, NULL_FOR_FIRST, is_first && first == 0 && lending->to_first == TO_NULL);
    note_conversion_kind(call, NULL_FOR_SECOND, is_second && second == 0 && lending->to_second == TO_NULL);
    note_conversion_kind(call, NOTHING_FOR_FIRST, first == 0 && lending->to_first == TO_NOTHING);
    note_conversion_kind(call, NOTHING_FOR_SECOND, second == 0 && lending->to_second == TO_NOTHING);
    note_conversion_kind(call, FIRST_RIGHT_IN_32, is_first && first % TWO_TO_32 == right);
    note_conversion_kind(call, FIRST_OF_2_63, is_first && first >= TWO_TO_63);
    note_conversion_kind(call, SECOND_RIGHT_IN_32, is_second && second % TWO_TO_32 == right);
    note_conversion_kind(call, SECOND_OF_2_63, is_second && second >= TWO_TO_63);
}

/* Refusal 17. */
static void note_no_number(const struct conversion_lending *lending, int is_bad)
{
    const struct page *first = lending->first;
    const int is_right = first->size == right_size(first) && lending->second->size == right_size(first);
    note_conversion_kind(lending->call, ONLY_BOOKS, !is_bad && is_right);
    note_conversion_kind(lending->call, BOOKS_AND_BAD_TABLE, is_bad);
    note_conversion_kind(lending->call, BOOKS_AND_LENGTH, !is_right);
    note_conversion_kind(lending->call, BOOKS_RIGHT_IN_8, first->books % 256 == first->filled);
    note_conversion_kind(lending->call, BOOKS_RIGHT_IN_32, first->books % TWO_TO_32 == first->filled);
    note_conversion_kind(lending->call, BOOKS_RIGHT_IN_63, first->books % TWO_TO_63 == first->filled);
}

/* Refusal 7. */
static void note_bad_table(const struct conversion_lending *lending, struct judgment judgment)
{
    const struct table *table = lending->table;
    const uint64_t first = lending->first->size, second = lending->second->size;
    note_conversion_kind(lending->call, BAD_TABLE_AND_LENGTH, first != second);
    note_conversion_kind(lending->call, NULL_FOR_TABLE, table->size == 0 && lending->to_table == TO_NULL);
    note_conversion_kind(lending->call, NULL_FOR_ALL,
                         table->size + first + second == 0 && lending->to_table == TO_NULL &&
                             lending->to_first == TO_NULL && lending->to_second == TO_NULL);
    if (table->size > sizeof table->bytes || first != second ||
        first != CELL_SIZE * places_of_rows(table) * lending->first->books)
        return;
    for (int fault = 0; fault < FAULTS; fault++)
        noted[lending->call].fitting[fault] += judgment.faults >> fault & 1;
}

void note_conversion(const struct conversion_lending *lending, uint32_t refusal)
{
    const struct judgment judgment = judge(lending->table->bytes, lending->table->size);
    noted[lending->call].answers[refusal]++;
    if (refusal == 0)
        note_page_converted(lending);
    if (refusal == 17)
        note_no_number(lending, judgment.faults != 0);
    if (refusal == 7)
        note_bad_table(lending, judgment);
    if (refusal == 4)
        note_lengths(lending);
}

static void require_conversions_of(int call)
{
    uint64_t all = 0;
    for (int kind = 0; kind < CONVERSION_KINDS; kind++)
        require(noted[call].kinds[kind], LEAST, "conversions", names[kind]);
    require(noted[call].largest, 1, "conversions", "of pages of 4,096 places in each of 16 books");
    for (int size_class = 0; size_class < CLASSES; size_class++)
        require_number(noted[call].classes[size_class], LEAST_OF_CLASS, "conversions of pages of places up to",
                       most_places[size_class]);
    for (uint64_t books = 1; books <= MOST_BOOKS; books++)
        require_number(noted[call].books[books], LEAST, "conversions of pages of so many books,", books);
    for (uint64_t state = 0; state < BYTES; state++)
        require_number(noted[call].states[state], LEAST, "cells that are converted with state", state);
    for (uint64_t fault = 0; fault < FAULTS; fault++)
        require_number(noted[call].fitting[fault], LEAST, "conversions refused with 7 alone for fault", fault);
    for (int answer = 0; answer <= MOST_REFUSAL; answer++)
        all += noted[call].answers[answer];
    require(all, LEAST_CONVERSIONS, "conversions", "in all");
}

/* Ends the test unless there was enough of everything; then says how much. */
void require_conversion_kinds(void)
{
    static const char *const ways[CONVERSIONS] = {"states first", "cell by cell"};
    for (int call = 0; call < CONVERSIONS; call++) {
        const uint64_t *answers = noted[call].answers;
        require_conversions_of(call);
        printf("agreed: conversions to %s: %lu converted, ", ways[call], answers[0]);
        printf("refused %lu with 17, %lu with 7, %lu with 4\n", answers[17], answers[7], answers[4]);
    }
    printf("kinds: %d of conversions at least %d times each, both ways\n", CONVERSION_KINDS, LEAST);
}
