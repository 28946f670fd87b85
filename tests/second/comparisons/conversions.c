/* Converting pages of one book and of several, from each layout to the other: cells of any bytes and cells that are
   drawn, each fault alone and together with others, sizes of the page and of the buffer near the right one, and bad
   tables of every kind. Both conversions undo each other. See docs/RULES.md, "States first", "Refusal numbers" and
   "Order of checks". */

#include "../kinds/lent_calls.h"
#include "comparisons.h"

#include <stdio.h>
#include <string.h>

enum { TABLES = 3000, LARGE_TABLES = 330, TABLES_OF_SETS = 500, SIZES_OF_TABLE = 30, BAD_TABLES = 320, FEW_CELLS = 64 };
enum { BOOKS = 2, PLACES = 2, WRITTEN_DOWN = CELL_SIZE * PLACES * BOOKS };

static struct page page;
static uint64_t ways_back;

/* Two books of the table of the whole case, whose bytes are numbered cell by cell. */
static const uint8_t written_down[LAYOUTS][WRITTEN_DOWN] = {
    [CELL_BY_CELL] = {0,  1,  2,  3,  4,  5,  6,  7,  8,  9,  10, 11, 12, 13, 14, 15, 16, 17,
                      18, 19, 20, 21, 22, 23, 24, 25, 26, 27, 28, 29, 30, 31, 32, 33, 34, 35},
    [STATES_FIRST] = {0,  9,  18, 27, 1,  2,  3,  4,  5,  6,  7,  8,  10, 11, 12, 13, 14, 15,
                      16, 17, 19, 20, 21, 22, 23, 24, 25, 26, 28, 29, 30, 31, 32, 33, 34, 35},
};

static uint64_t converted(const struct table *table, uint64_t length)
{
    return compare_conversion(&(struct conversion){table, &page, length}).items[0];
}

/* What is written down holds the program's own rules too. */
static void compare_written_down(uint64_t layout)
{
    uint8_t other[WRITTEN_DOWN];
    page.layout = layout;
    begin_books(&page, PLACES, BOOKS);
    fill_page(&page, written_down[layout], WRITTEN_DOWN);
    own_figure("refusal of a conversion that is written down", converted(&pairing_bin, WRITTEN_DOWN), 0);
    convert(&(struct conversion){&pairing_bin, &page, WRITTEN_DOWN}, other);
    own_figure("conversion that is written down", memcmp(other, written_down[1 - layout], WRITTEN_DOWN) != 0, 0);
    for (uint64_t number = 0; number < PLACES * BOOKS; number++)
        own_figure("state of a cell", cell_at(&page, 0)[CELL_SIZE * number], CELL_SIZE * number);
}

/* There and back by the calls, on what the first one has made, must give the same bytes. */
static void compare_way_back(const struct table *table, converting_call *there, converting_call *back)
{
    static uint8_t made[PAGE_ROOM], again[PAGE_ROOM];
    const uint8_t *bytes = page.lent[0] + GUARDS;
    const uint64_t size = page.size;
    const uint64_t one = there(table->bytes, table->size, page.books, bytes, size, made, size, 0);
    const uint64_t other = back(table->bytes, table->size, page.books, made, size, again, size, 0);
    compared.calls_of_page += 2;
    ways_back++;
    if (one == 0 && other == 0 && memcmp(again, bytes, size) == 0)
        return;
    print_table("two conversions, there and back", table);
    printf(", %lu books", page.books);
    end("the second one does not undo the first one");
}

/* A page in each layout to the other one. Its bytes are those of a page in the other layout too. */
static void compare_both_ways(const struct table *table)
{
    for (uint64_t layout = 0; layout < LAYOUTS; layout++) {
        lay_out(&page, layout);
        own_figure("refusal of a conversion that is right", converted(table, page.size), 0);
        compare_way_back(table, probe_to_states_first, probe_to_cell_by_cell);
        compare_way_back(table, probe_to_cell_by_cell, probe_to_states_first);
    }
}

/* Cells as they are drawn, or of any bytes. */
static void draw_page(const struct table *table, uint64_t books)
{
    if (chance_below(2)) {
        pages_by_chance(&page, table, books, 8);
        return;
    }
    begin_books(&page, judge(table->bytes, table->size).places, books);
    cells_of_any_bytes(&page);
}

/* A conversion with what the set says made wrong; its refusal is told from the set alone. */
static void compare_set(const struct table *right, int set)
{
    struct table table = *right;
    if (set & WRONG_TABLE)
        spoil_table(&table);
    page.size = set & WRONG_PAGE ? wrong_page_size(&page) : right_size(&page);
    page.books = set & WRONG_BOOKS ? no_books_by_chance(page.filled) : page.filled;
    const uint64_t wrong = set & WRONG_PAGE && chance_below(4) == 0 ? page.size : wrong_page_size(&page);
    const uint64_t lengths = set & (WRONG_PAGE | WRONG_LENGTH) ? 4 : 0;
    own_figure("refusal of a conversion with faults",
               converted(&table, set & WRONG_LENGTH ? wrong : right_size(&page)),
               set & WRONG_BOOKS ? 17 : set & WRONG_TABLE ? 7 : lengths);
}

/* Each set of faults, and wrong sizes of the page, of the buffer and of both. */
static void compare_sets(uint64_t layout)
{
    const int faults[] = {WRONG_TABLE, WRONG_BOOKS, WRONG_PAGE, WRONG_LENGTH};
    const int sizes[] = {WRONG_PAGE, WRONG_LENGTH, WRONG_PAGE | WRONG_LENGTH};
    const struct table table = small_table_by_chance();
    draw_page(&table, books_by_chance());
    lay_out(&page, layout);
    for (int choice = 0; choice < 1 << ENTRIES(faults); choice++) {
        int set = 0;
        for (uint64_t i = 0; i < ENTRIES(faults); i++)
            set |= choice >> i & 1 ? faults[i] : 0;
        compare_set(&table, set);
    }
    for (uint64_t i = 0; i < SIZES_OF_TABLE; i++)
        compare_set(&table, sizes[i % ENTRIES(sizes)]);
}

/* Bad tables with a page and a buffer as large as the rows would have them, or of wrong sizes. */
static void compare_bad_table(enum fault fault, int is_wrong)
{
    const struct table table = bad_table_by_chance(fault);
    uint64_t places = 0;
    for (uint64_t row = 0; row < table.size / ROW_SIZE; row++)
        places += two_bytes(table.bytes + row * ROW_SIZE + AT_PLACES);
    page.books = books_by_chance();
    const uint64_t size = CELL_SIZE * page.books * (places < MOST_PLACES ? places : MOST_PLACES);
    page.size = is_wrong ? chance_below(CELL_SIZE * FEW_CELLS) : size;
    for (page.layout = 0; page.layout < LAYOUTS; page.layout++)
        own_figure("refusal of a conversion with a bad table", converted(&table, size), 7);
}

void compare_conversions(void)
{
    for (uint64_t layout = 0; layout < LAYOUTS; layout++)
        compare_written_down(layout);
    for (int i = 0; i < TABLES; i++) {
        const struct table table = small_table_by_chance();
        draw_page(&table, i % 4 == 0 ? MOST_BOOKS : books_by_chance());
        compare_both_ways(&table);
    }
    for (int i = 0; i < LARGE_TABLES; i++) {
        const struct table table = large_table_by_chance();
        draw_page(&table, i % 64 == 0 ? MOST_BOOKS : 1);
        compare_both_ways(&table);
    }
    for (uint64_t i = 0; i < TABLES_OF_SETS * LAYOUTS; i++)
        compare_sets(i % LAYOUTS);
    begin_page(&page, FEW_CELLS);
    for (int i = 0; i < BAD_TABLES * FAULTS; i++)
        compare_bad_table((enum fault)(i / BAD_TABLES), i % 2);
    printf("conversions: of pages on %d tables, %lu times there and back; %d bad tables\n",
           TABLES + LARGE_TABLES + LAYOUTS * TABLES_OF_SETS, ways_back, BAD_TABLES * FAULTS);
}
