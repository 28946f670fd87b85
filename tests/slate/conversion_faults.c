/* The refusals of the conversions, each alone and together with others; bad tables of every kind; every size of a
   table; buffers of no bytes by each pointer, and sizes at the ends of 64 bits. See docs/RULES.md, "States first",
   "Refusal numbers" and "Order of checks". */

#include "conversions.h"

#include <stdio.h>

enum { WRONG_FIRST = 4, WRONG_SECOND = 8, CONVERSION_SETS = 16 };
enum { FAULTY_TABLES = 500, BAD_TABLES = 50, FEW_PLACES = 3, FEW_BOOKS = 3, MOST_SIZE = 600 };
enum { EMPTY_TABLES = 100, END_TABLES = 20 };

static struct page first, second;

/* Two pages for a table, of as many books as are told. */
static void begin_pages(const struct table *table, uint64_t books)
{
    const uint64_t places = judge(table->bytes, table->size).places;
    any_bytes(&first, places, books);
    any_bytes(&second, places, books);
}

/* By each of the calls. */
static void compare_both(const char *what, struct conversion_lending lending, uint64_t refusal)
{
    lending.first = &first;
    lending.second = &second;
    for (int call = 0; call < CONVERSIONS; call++) {
        lending.call = (enum conversion_call)call;
        own_figure(what, compare_conversion(&lending), refusal);
    }
}

/* Where both pages are of a wrong size, it is often the same one. */
static void compare_set(const struct table *right, int set)
{
    struct table table = *right;
    first.size = set & WRONG_FIRST ? wrong_page_size(&first) : right_size(&first);
    second.size = set & WRONG_SECOND ? wrong_page_size(&second) : right_size(&second);
    if (set & WRONG_FIRST && set & WRONG_SECOND && chance_below(2))
        second.size = first.size;
    first.books = set & WRONG_BOOKS ? no_books_by_chance(first.filled) : first.filled;
    if (set & WRONG_TABLE)
        spoil_table(&table);
    compare_both("refusal of a conversion with faults", (struct conversion_lending){.table = &table},
                 set & WRONG_BOOKS ? 17 : set & WRONG_TABLE ? 7 : set ? 4 : 0);
}

/* Another number of books than that of the pages. */
static void compare_other_books(const struct table *table)
{
    first.size = right_size(&first);
    second.size = right_size(&second);
    first.books = 1 + other_than(first.filled - 1, MOST_BOOKS - 1);
    compare_both("refusal of a conversion with other books", (struct conversion_lending){.table = table}, 4);
}

/* Bad tables with pages that are as large as their rows would have it. */
static void compare_bad_tables(void)
{
    any_bytes(&first, MOST_PLACES, FEW_BOOKS);
    any_bytes(&second, MOST_PLACES, FEW_BOOKS);
    for (int i = 0; i < BAD_TABLES * FAULTS; i++) {
        const struct table table = bad_table_by_chance((enum fault)(i / BAD_TABLES));
        first.size = CELL_SIZE * places_of_rows(&table) * FEW_BOOKS;
        second.size = first.size;
        compare_both("refusal of a conversion with a bad table", (struct conversion_lending){.table = &table}, 7);
    }
}

/* Every size of good rows, the pages as large as the whole ones would have it. */
static void compare_table_sizes(void)
{
    struct table table = rows_by_chance(MOST_LENT_ROWS, FEW_PLACES);
    for (table.size = 0; table.size <= MOST_SIZE; table.size++) {
        const uint64_t places = places_of_rows(&table), books = 1 + chance_below(FEW_BOOKS);
        any_bytes(&first, places > 0 ? places : 1, books);
        any_bytes(&second, places > 0 ? places : 1, books);
        compare_both("refusal of a conversion with so much of a table", (struct conversion_lending){.table = &table},
                     judge(table.bytes, table.size).faults ? 7 : 0);
    }
}

/* Each of the three buffers as it must be, or with no bytes by each pointer. */
static void compare_empty(const struct table *right)
{
    for (int ways = 0; ways < WAYS * WAYS * WAYS; ways++) {
        const int of_table = ways % WAYS, of_first = ways / WAYS % WAYS, of_second = ways / WAYS / WAYS;
        struct table table = *right;
        table.size = of_table == RIGHT ? table.size : 0;
        first.size = of_first == RIGHT ? right_size(&first) : 0;
        second.size = of_second == RIGHT ? right_size(&second) : 0;
        compare_both("refusal of a conversion with buffers of no bytes",
                     (struct conversion_lending){.table = &table, .to_table = pointers[of_table],
                                                 .to_first = pointers[of_first], .to_second = pointers[of_second]},
                     of_table != RIGHT ? 7 : ways != 0 ? 4 : 0);
    }
}

/* Each of the three sizes at the ends, in all combinations; the first one is right. */
static void compare_ends(const struct table *right)
{
    uint64_t of_table[ENDS], of_page[ENDS];
    struct table table = *right;
    ends_of(right->size, of_table);
    ends_of(right_size(&first), of_page);
    for (int i = 0; i < ENDS * ENDS * ENDS; i++) {
        table.size = of_table[i % ENDS];
        first.size = of_page[i / ENDS % ENDS];
        second.size = of_page[i / ENDS / ENDS];
        compare_both("refusal of a conversion with sizes at the ends", (struct conversion_lending){.table = &table},
                     i % ENDS != 0 ? 7 : i != 0 ? 4 : 0);
    }
}

void compare_conversion_faults(void)
{
    for (int i = 0; i < FAULTY_TABLES; i++) {
        const struct table table = small_table_by_chance();
        begin_pages(&table, 1 + chance_below(MOST_BOOKS));
        for (int set = 0; set < CONVERSION_SETS; set++)
            compare_set(&table, set);
        compare_other_books(&table);
    }
    compare_bad_tables();
    compare_table_sizes();
    for (int i = 0; i < EMPTY_TABLES + END_TABLES; i++) {
        const struct table table = small_table_by_chance();
        begin_pages(&table, books_by_chance());
        if (i < EMPTY_TABLES)
            compare_empty(&table);
        else
            compare_ends(&table);
    }
    printf("faults of conversions: %d sets of them together, ", CONVERSION_SETS);
    printf("each %d times both ways; ", FAULTY_TABLES);
    printf("%d bad tables, %d sizes of a table, ", BAD_TABLES * FAULTS, MOST_SIZE + 1);
    printf("%d sets of buffers of no bytes, %d of sizes at the ends\n", WAYS * WAYS * WAYS, ENDS * ENDS * ENDS);
}
