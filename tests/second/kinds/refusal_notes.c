/* The kinds of comparisons of the page that the refusals tell, and what is behind them. See docs/RULES.md, "Books",
   "Refusal numbers" and "Order of checks". */

#include "page_kinds.h"

int is_wrong_page(const struct page *page)
{
    return page->size != right_size(page);
}

/* Whether the book or the place is not there. */
int is_outside(const struct question *question)
{
    return question->book >= question->page->filled || question->place >= question->page->places;
}

/* Refusal 7. Where the table is bad, a page of part of a cell, or of none, is wrong too, and so is a
   place above 4,095. */
static void note_bad_table(enum page_call call, const struct question *question)
{
    const struct page *page = question->page;
    const struct judgment judgment = judge(question->table->bytes, question->table->size);
    for (enum fault fault = 0; fault < FAULTS; fault++)
        if (judgment.faults >> fault & 1)
            note_fault(call, fault);
    note_page(call, ROW_0_NAMED, judgment.row == 0);
    note_page(call, ROW_ABOVE_0_NAMED, judgment.row > 0);
    note_page(call, BOTH_7_AND_4, page->size == 0 || page->size % CELL_SIZE != 0);
    note_page(call, BOTH_7_AND_8, question->place >= MOST_PLACES);
    note_page(call, BOTH_7_AND_BOOK, question->book >= page->books);
}

/* Refusal 4, as far as it is for the page. */
static void note_page_size(enum page_call call, const struct page *page)
{
    const uint64_t right = right_size(page), book = CELL_SIZE * page->places;
    note_page(call, PAGE_SHORT_1, page->size == right - 1);
    note_page(call, PAGE_LONG_1, page->size == right + 1);
    note_page(call, PAGE_SHORT_9, page->size == right - CELL_SIZE && page->size > 0);
    note_page(call, PAGE_LONG_9, page->size == right + CELL_SIZE);
    note_page(call, NO_PAGE, page->size == 0);
    note_page(call, PAGE_CUT, page->size == right + 65536 || page->size == right + TWO_TO_32);
    note_page(call, PAGE_SHORT_BOOK, page->size == right - book && page->size > 0);
    note_page(call, PAGE_LONG_BOOK, page->size == right + book);
}

/* Whether a number that is not below the bound is so where it is cut. */
static int is_right_if_cut(uint64_t number, uint64_t bound)
{
    const uint64_t cuts[] = {256, MOST_PLACES, 65536, TWO_TO_32};
    int is_cut = 0;
    for (uint64_t i = 0; i < ENTRIES(cuts); i++)
        is_cut |= number % cuts[i] < bound;
    return is_cut && number >= bound;
}

/* Refusal 8. */
static void note_outside(enum page_call call, const struct question *question)
{
    const uint64_t book = question->book, books = question->page->books;
    const uint64_t place = question->place, places = question->page->places;
    note_page(call, AT_END, place == places);
    note_page(call, FAR_PAST, place >= TWO_TO_63);
    note_page(call, CUT_PLACE, is_right_if_cut(place, places));
    note_page(call, PAST_BESIDE_FAULT, is_at_fault(question->table, 0, cell_at(question->page, 0)));
    note_page(call, PLACE_ALONE, book < books);
    note_page(call, BOOK_ALONE, place < places);
    note_page(call, BOOK_AND_PLACE, book >= books && place >= places);
    note_page(call, BOOK_AT_END, book == books);
    note_page(call, BOOK_FAR_PAST, book >= TWO_TO_63);
    note_page(call, CUT_BOOK, is_right_if_cut(book, books));
}

/* What a call answers by number, and what is behind it. */
void note_refusal(enum page_call call, const struct question *question, struct list expected)
{
    const uint64_t refusal = expected.items[0];
    note_page(call, ANSWERED, refusal == 0);
    note_page(call, REFUSED_17, refusal == 17);
    note_page(call, REFUSED_7, refusal == 7);
    note_page(call, REFUSED_4, refusal == 4);
    note_page(call, REFUSED_8, refusal == 8);
    note_page(call, REFUSED_9, refusal == 9);
    note_page(call, REFUSED_12, refusal == 12);
    note_page(call, REFUSED_13, refusal == 13);
    note_page(call, REFUSED_16, refusal == 16);
    if (refusal == 0)
        note_answered(call);
    if (refusal == 7)
        note_bad_table(call, question);
    if (refusal == 4)
        note_page_size(call, question->page);
    if (refusal == 8)
        note_outside(call, question);
}

/* Two reasons for a refusal at once, with a good table. */
void note_both(enum page_call call, struct reasons reasons)
{
    note_page(call, BOTH_4_AND_8, reasons.is_4 && reasons.is_8);
    note_page(call, BOTH_4_AND_9, reasons.is_4 && reasons.is_9);
    note_page(call, BOTH_4_AND_12, reasons.is_4 && reasons.is_12);
    note_page(call, BOTH_4_AND_13, reasons.is_4 && reasons.is_13);
    note_page(call, BOTH_8_AND_9, reasons.is_8 && reasons.is_9);
    note_page(call, BOTH_8_AND_13, reasons.is_8 && reasons.is_13);
    note_page(call, BOTH_9_AND_12, reasons.is_9 && reasons.is_12);
    note_page(call, BOTH_12_AND_13, reasons.is_12 && reasons.is_13);
}

static int is_any_reason(struct reasons reasons)
{
    return reasons.is_7 || reasons.is_4 || reasons.is_8 || reasons.is_9 || reasons.is_12 || reasons.is_13;
}

/* Refusal 17, and what else is wrong. */
void note_books(enum page_call call, uint64_t books, struct reasons reasons)
{
    note_no_books(call, books);
    note_page(call, BOTH_17_AND_7, reasons.is_7);
    note_page(call, BOTH_17_AND_8, reasons.is_8);
    note_page(call, BOTH_17_AND_4, reasons.is_4);
    note_page(call, BOTH_17_AND_9, reasons.is_9);
    note_page(call, BOTH_17_AND_13, reasons.is_13);
    note_page(call, BOTH_17_AND_12, reasons.is_12);
    note_page(call, ONLY_17, !is_any_reason(reasons));
}

/* Whether the place, or with the tally any place, of a book that is there has a cell at fault; the page must have all
   cells of the table. */
static int is_fault_asked(enum page_call call, const struct question *question)
{
    if (call != TALLY)
        return is_fault_at(question, question->place);
    for (uint64_t place = 0; place < question->page->places; place++)
        if (is_fault_at(question, place))
            return 1;
    return 0;
}

/* Whether a length is wrong, with a good table. Where the place is not in it, the length of the output is not known. */
static int is_length_wrong(enum page_call call, const struct question *question)
{
    if (is_wrong_page(question->page))
        return 1;
    if (call == LINES)
        return question->number < LINE_SPACE;
    return call == READ && question->place < question->page->places &&
           question->number != row_at(question->table, question->place)[AT_LENGTH];
}

/* What is wrong beside the mode and the number of books. */
static struct reasons reasons_behind(enum page_call call, const struct question *question)
{
    if (judge(question->table->bytes, question->table->size).faults != 0)
        return (struct reasons){.is_7 = 1};
    const int is_8 = is_outside(question);
    return (struct reasons){.is_8 = is_8,
                            .is_4 = is_length_wrong(call, question),
                            .is_12 = !is_8 && is_fault_asked(call, question),
                            .is_13 = !is_8 && call == COEFFICIENT &&
                                     question->number >= row_at(question->table, question->place)[AT_LENGTH]};
}

/* Refusal 16, and what else is wrong. */
static void note_mode(enum page_call call, const struct question *question)
{
    const enum page_call as = call_in(call, question->mode);
    const struct reasons reasons = reasons_behind(call, question);
    const int is_17 = is_no_number_of_books(question->page->books);
    note_no_mode(as, question->mode);
    note_page(as, REFUSED_16, 1);
    note_page(as, BOTH_16_AND_17, is_17);
    note_page(as, BOTH_16_AND_7, reasons.is_7);
    note_page(as, BOTH_16_AND_8, reasons.is_8);
    note_page(as, BOTH_16_AND_4, reasons.is_4);
    note_page(as, BOTH_16_AND_13, reasons.is_13);
    note_page(as, BOTH_16_AND_12, reasons.is_12);
    note_page(as, ONLY_16, !is_17 && !is_any_reason(reasons));
}

/* Whether a call that looks is refused with 16 or 17, which are noted then; another answer is noted by its number. All
   that is noted of the call comes behind this. */
int is_no_mode_or_books(enum page_call call, const struct question *question, struct list expected)
{
    const uint64_t refusal = expected.items[0];
    note_layout(question->page->layout);
    if (refusal == 16) {
        note_mode(call, question);
        return 1;
    }
    note_refusal(call_in(call, question->mode), question, expected);
    if (refusal == 17)
        note_books(call_in(call, question->mode), question->page->books, reasons_behind(call, question));
    return refusal == 17;
}
