/* Reading places, single coefficients and lines in both modes, in one book or one of several: in every usable shell and
   in each enumeration the codewords beside which the answer changes, those of empty shapes, and others; and any cells,
   books, places, lengths and coordinates by chance. See docs/RULES.md, "The page" and "Books". */

#include "../draws/page_draws.h"
#include "comparisons.h"

#include <stdio.h>

enum { TABLES_OF_SHELL = 17, CODEWORDS_OF_SHELL = 20, MORE_IF_EMPTY = 28, TABLES = 1400, QUESTIONS_OF_TABLE = 100 };

static struct page page;

/* The length or more, and numbers that are below it where they are cut. */
static uint64_t wrong_coordinate(uint64_t length)
{
    const uint64_t coordinate = chance_below(length);
    const uint64_t past[] = {length, length + 1, MOST_LENGTH, TWO_TO_32 - 1, TWO_TO_63, UINT64_MAX};
    const uint64_t cut[] = {256, 65536, TWO_TO_32, TWO_TO_63, UINT64_MAX - TWO_TO_32 + 1};
    return chance_below(2) ? past[chance_below(ENTRIES(past))] : cut[chance_below(ENTRIES(cut))] + coordinate;
}

/* The place as a whole, its line, and coordinates of it: one, or all; in both modes. */
static void compare_place(const struct table *table, uint64_t field, int is_all)
{
    const uint64_t length = row_at(table, place_in(field))[AT_LENGTH];
    struct question question = {0, table, &page, book_in(field), place_in(field), length};
    compare_reads(&question);
    question.number = is_all ? 0 : chance_below(length);
    compare_coefficients(&question);
    for (question.number = 1; is_all && question.number < length; question.number++)
        compare_coefficients(&question);
    question.number = LINE_SPACE;
    if (is_all)
        compare_both_lines(&question);
}

/* A codeword for number i: those beside which the answer changes, then sound ones, those past the end, mended if any
   is, and those of 2^b or more where there are such, and last, in turn with more of these, those of empty shapes. */
static uint64_t codeword_of_number(struct shell shell, uint64_t i)
{
    const uint64_t total = total_of(shell), power = least_power_from(total);
    if (i < CODEWORDS_BESIDE)
        return codeword_beside(shell, i);
    if (i >= CODEWORDS_OF_SHELL && i % 2 == 0)
        return empty_codeword(shell);
    if (i % 3 == 1 && total < power)
        return is_any_mended(shell) ? mended_codeword(shell) : total + chance_below(power - total);
    if (i % 3 == 2 && power < TWO_TO_32)
        return power + chance_below(TWO_TO_32 - power);
    return next_named(shell, chance_below(total));
}

/* A table that has the shell in one of its rows, and a place of this row. */
static void compare_codewords(struct shell shell)
{
    struct table table = small_table_by_chance();
    const uint64_t row = chance_below(table.size / ROW_SIZE);
    uint64_t field, number = 0;
    plant_shell(&table, row, shell);
    while (table.bytes[row * ROW_SIZE + AT_RADII + number] != shell.radius)
        number++;
    pages_by_chance(&page, &table, books_by_chance(), 8);
    lay_by_chance(&page);
    do
        field = some_field(&page, &table);
    while (row_of(&table, place_in(field)) != row);
    for (uint64_t i = 0; i < CODEWORDS_OF_SHELL + (has_empty_shapes(shell) ? MORE_IF_EMPTY : 0); i++) {
        uint8_t cell[CELL_SIZE] = {STATE_HELD};
        write_record(cell + AT_RECORD, field, row, number, codeword_of_number(shell, i));
        set_cell(&page, field, cell);
        compare_place(&table, field, i % 16 == 0);
    }
}

static void compare_shell(struct shell shell)
{
    for (int i = 0; i < TABLES_OF_SHELL; i++)
        compare_codewords(shell);
}

/* Anything that can be asked: a new cell for the place, at times at fault; a book, a place, a length or a coordinate
   that is not right, or their number. */
static void compare_question(const struct table *table)
{
    const uint64_t right = some_field(&page, table), length = row_at(table, place_in(right))[AT_LENGTH];
    const uint64_t book = chance_below(24) ? book_in(right) : wrong_book(page.filled);
    const uint64_t place = chance_below(16) ? place_in(right) : wrong_place(page.places);
    if (chance_below(4))
        draw_cell(&page, table, right, 6);
    if (chance_below(14) == 0)
        page.size = wrong_page_size(&page);
    if (chance_below(32) == 0)
        page.books = no_books_by_chance(page.filled);
    const uint64_t out_length = chance_below(16) ? length : other_than(length, MOST_OUTPUT);
    const uint64_t coordinate = chance_below(8) ? chance_below(length) : wrong_coordinate(length);
    compare_reads(&(struct question){0, table, &page, book, place, out_length});
    compare_coefficients(&(struct question){0, table, &page, book, place, coordinate});
    if (chance_below(2))
        compare_both_lines(&(struct question){0, table, &page, book, place, text_length_by_chance()});
    page.size = right_size(&page);
    page.books = page.filled;
}

void compare_places(void)
{
    for_each_numbering(compare_shell);
    for (int i = 0; i < TABLES; i++) {
        const struct table table = page_table_by_chance();
        pages_by_chance(&page, &table, books_for(&table), 8);
        lay_by_chance(&page);
        for (int j = 0; j < QUESTIONS_OF_TABLE; j++)
            compare_question(&table);
    }
    printf("places: each usable shell in %d tables of each selector, %d questions by chance on %d tables\n", TABLES_OF_SHELL,
           TABLES * QUESTIONS_OF_TABLE, TABLES);
}
