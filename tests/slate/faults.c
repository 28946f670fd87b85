/* The refusals of aldrynja_take, each alone and together with others, so that the order of checks is compared
   too; every state; and bad tables of every kind. See docs/RULES.md, "Refusal numbers", "Order of checks", "Books" and
   "Pairing table". */

#include "slate.h"

#include <stdio.h>

enum { BAD_TABLES = 200, FEW_BOOKS = 2 };

static struct page page = {.layout = STATES_FIRST};

uint64_t places_of_rows(const struct table *table)
{
    const uint64_t most = MOST_PLACES + CELLS_BEHIND;
    uint64_t places = 0;
    for (uint64_t row = 0; row < table->size / ROW_SIZE; row++)
        places += two_bytes(table->bytes + row * ROW_SIZE + AT_PLACES);
    return places < most ? places : most;
}

static uint64_t take_of(const struct case_of_page *of)
{
    return compare_lending(&(struct lending){.table = &of->table, .page = &page, .record = &of->arrival});
}

static void compare_set(const struct case_of_page *wrong, int set)
{
    own_figure("refusal of a take with faults", take_of(wrong), refusal_of_take(set));
}

static void compare_state(const struct case_of_page *right)
{
    take_of(right);
}

/* Bad tables with a page that is as large as their rows would have it, and a record that would be taken. */
static void compare_bad_tables(void)
{
    struct case_of_page of = right_case(&page, small_table_by_chance());
    begin_books(&page, MOST_PLACES, FEW_BOOKS);
    for (int i = 0; i < BAD_TABLES * FAULTS; i++) {
        of.table = bad_table_by_chance((enum fault)(i / BAD_TABLES));
        const uint64_t places = places_of_rows(&of.table), place = places > 0 ? chance_below(places) : 0;
        page.size = CELL_SIZE * places * FEW_BOOKS;
        set_place(&of.table, place_field(chance_below(FEW_BOOKS), place), of.arrival.bytes);
        own_figure("refusal of a take with a bad table", take_of(&of), 7);
    }
}

void compare_faults(void)
{
    for_each_set(&page, compare_set);
    for_each_state(&page, compare_state);
    compare_bad_tables();
    printf("faults: %d sets of them together, each %d times; %d bad tables\n", SETS, SET_TABLES, BAD_TABLES * FAULTS);
}
