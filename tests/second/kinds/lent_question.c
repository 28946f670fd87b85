/* What the calls that look at a page are lent, and what it must be afterwards; and the words for what was asked. */

#include "lent.h"

#include <stdio.h>

/* What has no elements is lent as a null pointer where `by_null` says so. */
const uint8_t *lent_table(const struct table *table, const struct table_room *room, int by_null)
{
    return by_null && table->size == 0 ? 0 : room->bytes;
}

const uint8_t *lent_page(const struct page *page, int by_null)
{
    return by_null && page->size == 0 ? 0 : page->lent[0] + GUARDS;
}

/* Without the place and the number, which a tally has not. */
void print_book_asked(const char *name, const struct question *question)
{
    print_table(name, question->table);
    printf(", mode %lu, book %lu of %lu, ", question->mode, question->book, question->page->books);
    printf("layout %lu, page of %lu bytes", question->page->layout, question->page->size);
}

void print_question(const char *name, const struct question *question, const char *what)
{
    print_book_asked(name, question);
    printf(", place %lu", question->place);
    if (question->book < question->page->filled && question->place < question->page->places)
        print_bytes(", its cell", cell_asked(question, question->place), CELL_SIZE);
    printf(", %s %lu", what, question->number);
}

/* The lent table and page after calls that may not write there. */
void compare_lent(const char *name, const struct question *question, const struct table_room *table)
{
    const struct table_room before = table_among_guards(question->table);
    const int is_table_same = same_table(table, &before);
    if (is_table_same && is_page_as_it_must_be(question->page, 0))
        return;
    print_question(name, question, "output of, coordinate, or buffer of");
    if (!is_table_same)
        end("something is written at the table");
    wrong_page(question->page, 0);
}
