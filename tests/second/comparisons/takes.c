/* Taking records by chance into pages of good tables, of one book or of several and of each layout: into cells of every
   state, records that are held already, that differ in one byte or in several, that are of another row or of another
   book, or whose place or book is not there, and lengths and numbers of books that are wrong. See docs/RULES.md, "The
   page", "States first" and "Books". */

#include "../draws/page_draws.h"
#include "comparisons.h"

#include <stdio.h>

enum { TABLES = 2100, TAKES_OF_TABLE = 480 };

static struct page page;

static void compare_take_at(const struct table *table, uint64_t field)
{
    struct arrival arrival = arrival_by_chance(table, &page, field);
    if (chance_below(16) == 0)
        set_two_bytes(arrival.bytes + AT_PLACE, field_past_end(&page));
    if (chance_below(16) == 0)
        change_book(arrival.bytes);
    if (chance_below(32) == 0)
        arrival.length = other_than(RECORD_SIZE, MOST_TAKEN);
    if (chance_below(32) == 0)
        page.size = wrong_page_size(&page);
    if (chance_below(64) == 0)
        page.books = no_books_by_chance(page.filled);
    compare_take(table, &page, &arrival);
    page.size = right_size(&page);
    page.books = page.filled;
}

/* In every fourth table the page is empty at first, and only what is taken changes it. */
static void compare_takes_of(const struct table *table)
{
    const uint64_t is_drawn = chance_below(4);
    pages_by_chance(&page, table, books_for(table), 8);
    if (!is_drawn)
        begin_books(&page, page.places, page.filled);
    lay_by_chance(&page);
    for (int i = 0; i < TAKES_OF_TABLE; i++) {
        const uint64_t field = some_field(&page, table);
        if (is_drawn && chance_below(4))
            draw_cell(&page, table, field, 6);
        compare_take_at(table, field);
    }
}

void compare_takes(void)
{
    for (int i = 0; i < TABLES; i++) {
        const struct table table = page_table_by_chance();
        compare_takes_of(&table);
    }
    printf("takes: %d by chance on %d tables\n", TABLES * TAKES_OF_TABLE, TABLES);
}
