/* Conversions of pages of every size and every number of books, with any bytes in them, there and back; and of the
   largest pages that there are. Each of the two calls undoes the other. See docs/RULES.md, "States first". */

#include "conversions.h"

#include <stdio.h>
#include <string.h>

enum { TABLES_OF_CLASS = 400 };

static struct page page, other, back;
static uint64_t tables;

/* The page in the other layout, and that one in the layout of the page: by the calls alone, and to the byte. */
static void compare_there_and_back(enum conversion_call call, const struct table *table)
{
    const struct conversion_lending there = {.call = call, .table = table, .first = &page, .second = &other};
    const enum conversion_call other_call = call == TO_STATES_FIRST ? TO_CELL_BY_CELL : TO_STATES_FIRST;
    const struct conversion_lending again = {.call = other_call, .table = table, .first = &other, .second = &back};
    own_figure("refusal of a right conversion", compare_conversion(&there), 0);
    own_figure("refusal of a right conversion back", compare_conversion(&again), 0);
    compare_converted(&again, "page, there and back", page.lent[0] + GUARDS, back.lent[0] + GUARDS, right_size(&page));
}

/* All three pages have bytes of their own before. */
static void compare_table(const struct table *table, uint64_t books)
{
    const uint64_t places = judge(table->bytes, table->size).places;
    for (int call = 0; call < CONVERSIONS; call++) {
        any_bytes(&page, places, books);
        any_bytes(&other, places, books);
        any_bytes(&back, places, books);
        compare_there_and_back((enum conversion_call)call, table);
    }
    tables++;
}

void compare_conversions(void)
{
    for (int size_class = 0; size_class < CLASSES; size_class++) {
        const uint64_t most = most_places[size_class], fewer = size_class > 0 ? most_places[size_class - 1] : 0;
        for (int i = 0; i < TABLES_OF_CLASS; i++) {
            const uint64_t places = most - chance_below(most - fewer);
            const struct table table = table_of(places);
            compare_table(&table, some_books(places));
        }
    }
    for (uint64_t books = 1; books <= MOST_BOOKS; books++) {
        const struct table table = large_table_by_chance();
        compare_table(&table, books);
    }
    printf("conversions: there and back, both ways, on %lu tables of 1 to 4,096 places, with 1 to 16 books\n", tables);
}
