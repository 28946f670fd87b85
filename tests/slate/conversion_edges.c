/* Conversions with buffers that end where memory ends: what is read or written behind one of them, as where a size is
   judged too late, ends the call. See docs/RULES.md, "States first" and "Refusal numbers". */

#include "conversions.h"

#include <stdio.h>

enum { EDGE_TABLES = 20, MOST_SIZE = 600, FEW_PLACES = 3, FEW_BOOKS = 3 };

static struct page first, second;
static uint8_t *table_end, *first_end, *second_end;

static void note_edge(const struct conversion_lending *lending, uint32_t refusal)
{
    note_conversion_kind(lending->call, CONVERTED_AT_EDGE, refusal == 0);
    note_conversion_kind(lending->call, FIRST_SHORT_AT_EDGE, refusal == 4 && first.size < second.size);
    note_conversion_kind(lending->call, SECOND_SHORT_AT_EDGE, refusal == 4 && second.size < first.size);
    note_conversion_kind(lending->call, PART_OF_ROW_AT_EDGE, lending->table->size % ROW_SIZE != 0);
}

/* By each of the calls. */
static void compare_at_edge(const struct table *table)
{
    for (int call = 0; call < CONVERSIONS; call++) {
        const struct conversion_lending lending = {
            .call = (enum conversion_call)call, .table = table, .first = &first, .second = &second};
        const uint8_t *lent_table = lend(table_end, table->bytes, table->size);
        const uint8_t *lent_first = lend(first_end, first.lent[1] + GUARDS, first.size);
        uint8_t *lent_second = lend(second_end, second.lent[1] + GUARDS, second.size);
        const uint32_t expected = expect_conversion(&lending);
        call_conversion(&lending, expected, lent_table, lent_first, lent_second);
        compare_converted(&lending, "table at the edge", table->bytes, lent_table, table->size);
        compare_converted(&lending, "first page at the edge", first.lent[1] + GUARDS, lent_first, first.size);
        compare_converted(&lending, "second page at the edge", second.lent[1] + GUARDS, lent_second, second.size);
        note_edge(&lending, expected);
    }
}

/* Every size of each page, from none to two cells too long, while the other one is right. */
static void compare_sizes_at_edge(const struct table *table)
{
    const uint64_t right = right_size(&first);
    for (uint64_t size = 0; size <= right + CELL_SIZE * CELLS_BEHIND; size++) {
        first.size = size;
        second.size = right;
        compare_at_edge(table);
        first.size = right;
        second.size = size;
        compare_at_edge(table);
    }
}

/* Each number of books up to those of the pages, which are as long as that number would have it. */
static void compare_books_at_edge(const struct table *table)
{
    for (first.books = 1; first.books <= first.filled; first.books++) {
        first.size = CELL_SIZE * first.places * first.books;
        second.size = first.size;
        compare_at_edge(table);
    }
}

/* Every size of good rows, the pages as large as the whole ones would have it. */
static void compare_tables_at_edge(void)
{
    struct table table = rows_by_chance(MOST_LENT_ROWS, FEW_PLACES);
    for (table.size = 0; table.size <= MOST_SIZE; table.size++) {
        const uint64_t places = places_of_rows(&table);
        any_bytes(&first, places > 0 ? places : 1, FEW_BOOKS);
        any_bytes(&second, places > 0 ? places : 1, FEW_BOOKS);
        compare_at_edge(&table);
    }
}

void compare_conversion_edges(void)
{
    table_end = end_of_room();
    first_end = end_of_room();
    second_end = end_of_room();
    for (int i = 0; i < EDGE_TABLES; i++) {
        const struct table table = small_table_by_chance();
        const uint64_t places = judge(table.bytes, table.size).places;
        any_bytes(&first, places, 1 + chance_below(MOST_BOOKS));
        any_bytes(&second, places, first.filled);
        compare_sizes_at_edge(&table);
        compare_books_at_edge(&table);
    }
    compare_tables_at_edge();
    printf("edges of conversions: the pages of %d tables, and %d sizes of a table\n", EDGE_TABLES, MOST_SIZE + 1);
}
