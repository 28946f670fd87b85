/* Tallies of whole books, in both modes, and lines of some: of cells of every kind, of cells with one answer alone,
   with none, one or several cells at fault, in the book or in another one, and with wrong sizes. See docs/RULES.md,
   "The page" and "Books". */

#include "../draws/page_draws.h"
#include "comparisons.h"

#include <stdio.h>

enum { SMALL_TABLES = 6300, TABLES_ALIKE = 2000, LARGE_TABLES = 340 };

static struct page page;

/* Draws the cell of a place until its answer, in mending mode, is the one. */
static void draw_cell_with(const struct table *table, uint64_t field, enum reading_word word)
{
    uint8_t cell[CELL_SIZE];
    do
        cell_by_chance(table, field, cell);
    while (read_cell(MENDING_MODE, table, field, cell).word != word);
    set_cell(&page, field, cell);
}

/* All places with one answer, or all but one. Each row has a shell that leaves something to mend. */
static void compare_alike(enum reading_word word)
{
    struct table table = small_table_by_chance();
    for (uint64_t row = 0; row < table.size / ROW_SIZE; row++)
        plant_shell(&table, row, (struct shell){3, 4, chance_below(SELECTORS)});
    pages_by_chance(&page, &table, books_by_chance(), 4);
    lay_by_chance(&page);
    const struct question question = {0, &table, &page, chance_below(page.filled), 0, 0};
    for (uint64_t place = 0; place < page.places; place++)
        draw_cell_with(&table, place_field(question.book, place), word);
    compare_both_tallies(&question);
    draw_cell_with(&table, place_field(question.book, some_place(&table)), (enum reading_word)chance_below(READINGS));
    compare_both_tallies(&question);
}

static void spoil_place(const struct table *table, uint64_t field)
{
    uint8_t cell[CELL_SIZE];
    for (int i = 0; i < CELL_SIZE; i++)
        cell[i] = cell_at(&page, field)[i];
    spoil_cell(table, field, cell);
    set_cell(&page, field, cell);
}

/* A book without faults, though other books have some; with one, often at the last place; of a page of a wrong size
   besides; and with another one, often at the first; and at times a book that is not there. */
static void compare_with_faults(const struct table *table)
{
    const uint64_t books = books_by_chance(), book = chance_below(books);
    pages_by_chance(&page, table, books, 0);
    lay_by_chance(&page);
    if (books > 1)
        spoil_place(table, place_field((book + 1) % books, some_place(table)));
    const struct question whole = {0, table, &page, book, 0, 0}, outside = {0, table, &page, wrong_book(books), 0, 0};
    compare_both_tallies(&whole);
    const uint64_t room = LINE_SPACE * page.places + chance_below(LINE_SPACE);
    if (chance_below(8) == 0)
        compare_both_lines(&(struct question){0, table, &page, book, 0, room});
    const uint64_t spoiled = chance_below(4) ? some_place(table) : page.places - 1;
    spoil_place(table, place_field(book, spoiled));
    compare_both_tallies(&whole);
    compare_both_lines(&(struct question){0, table, &page, book, spoiled, LINE_SPACE});
    page.size = wrong_page_size(&page);
    compare_both_tallies(chance_below(4) ? &whole : &outside);
    page.size = right_size(&page);
    spoil_place(table, place_field(book, chance_below(4) ? some_place(table) : 0));
    compare_both_tallies(chance_below(8) ? &whole : &outside);
    compare_both_lines(&(struct question){0, table, &page, book, some_place(table), text_length_by_chance()});
}

/* As many places as there can be, few of them at fault or none. */
static void compare_large(void)
{
    const struct table table = large_table_by_chance();
    const uint64_t books = 1 + chance_below(2), book = chance_below(books);
    pages_by_chance(&page, &table, books, chance_below(5) ? 0 : MOST_PLACES);
    lay_by_chance(&page);
    compare_both_tallies(&(struct question){0, &table, &page, book, 0, 0});
    const uint64_t from = chance_below(2) ? 0 : some_place(&table);
    if (chance_below(16) == 0)
        compare_both_lines(&(struct question){0, &table, &page, book, from, LINE_SPACE * MOST_PLACES});
}

void compare_tallies(void)
{
    for (int i = 0; i < SMALL_TABLES; i++) {
        const struct table table = small_table_by_chance();
        compare_with_faults(&table);
    }
    for (int i = 0; i < TABLES_ALIKE; i++)
        compare_alike((enum reading_word)(i % READINGS));
    for (int i = 0; i < LARGE_TABLES; i++)
        compare_large();
    printf("tallies: of %d tables with few places, of %d with 4,096\n", SMALL_TABLES + TABLES_ALIKE, LARGE_TABLES);
}
