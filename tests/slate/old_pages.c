/* Pages that were kept cell by cell, as up to version 5: converted by one call, grown by takes, and converted back by
   the other. They must be what the takes of tests/second make of them cell by cell: no layout of this test's own comes
   between. See docs/RULES.md, "States first". */

#include "conversions.h"

#include <stdio.h>

enum { OLD_PAGES = 2000, TAKES_OF_PAGE = 20 };

static struct page page;

static void compare_answer(const struct taking *taking, const char *call, uint32_t expected, uint32_t got)
{
    if (got == expected)
        return;
    print_taking(call, taking);
    differ(as_answer(expected), as_answer(got));
}

/* One record after the other, into the converted page and by the rules. */
static void take_records(const struct table *table, uint8_t *states_first)
{
    for (int i = 0; i < TAKES_OF_PAGE; i++) {
        const struct arrival record = arrival_by_chance(table, &page, some_field(&page, table));
        const struct taking taking = {table, &page, &record, 0, take(table, &page, &record)};
        compare_answer(&taking, "aldrynja_take into a converted page", (uint32_t)taking.expected.items[0],
                       aldrynja_take(table->bytes, table->size, page.books, states_first, page.size, record.bytes,
                                     record.length));
    }
}

/* The page as it was is the first copy, and what comes back goes into the second. */
static void compare_old_page(const struct table *table)
{
    static uint8_t states_first[PAGE_ROOM];
    const struct arrival none = {0};
    const struct taking taking = {table, &page, &none, 0, {{0}}};
    compare_answer(&taking, "aldrynja_to_states_first", ALDRYNJA_CONVERTED,
                   aldrynja_to_states_first(table->bytes, table->size, page.books, page.lent[0] + GUARDS, page.size,
                                            states_first, page.size));
    take_records(table, states_first);
    compare_answer(&taking, "aldrynja_to_cell_by_cell", ALDRYNJA_CONVERTED,
                   aldrynja_to_cell_by_cell(table->bytes, table->size, page.books, states_first, page.size,
                                            page.lent[1] + GUARDS, page.size));
    if (!is_page_as_it_must_be(&page, 1)) {
        print_taking("aldrynja_to_cell_by_cell after takes", &taking);
        wrong_page(&page, 1);
    }
}

void compare_old_pages(void)
{
    for (int i = 0; i < OLD_PAGES; i++) {
        const struct table table = page_table_by_chance();
        pages_by_chance(&page, &table, books_for(&table), 8);
        compare_old_page(&table);
    }
    printf("old pages: %d converted, grown by %d takes each, and converted back\n", OLD_PAGES, TAKES_OF_PAGE);
}
