/* The sizes of what aldrynja_take is lent: every size of a table, buffers of no bytes by each pointer, numbers at the
   ends of 64 bits, and numbers that are right only where they are cut; and every number of books that there may not be.
   See docs/RULES.md, "Refusal numbers" and "Books". */

#include "slate.h"

#include <stdio.h>

enum { MOST_SIZE = 600, FEW_PLACES = 3, FEW_BOOKS = 3, EMPTY_TABLES = 250, END_TABLES = 100 };

const enum pointer pointers[WAYS] = {[RIGHT] = TO_ROOM, [EMPTY] = TO_ROOM, TO_NULL, TO_NOTHING};

/* A right table and a wrong one, a right record and a wrong one, three sizes of a page. */
enum { BOOK_SETS = 2 * 2 * 3 };

static struct page page = {.layout = STATES_FIRST};

/* Every size of good rows, the page as large as the whole ones would have it. */
static void compare_table_sizes(void)
{
    const struct table rows = rows_by_chance(MOST_LENT_ROWS, FEW_PLACES);
    struct table table = rows;
    struct arrival record = {.length = RECORD_SIZE};
    for (table.size = 0; table.size <= MOST_SIZE; table.size++) {
        const uint64_t places = places_of_rows(&table);
        begin_books(&page, places > 0 ? places : 1, 1 + chance_below(FEW_BOOKS));
        record_by_chance(&rows, place_field(chance_below(page.filled), chance_below(page.places)), record.bytes);
        compare_lending(&(struct lending){.table = &table, .page = &page, .record = &record});
    }
}

static void compare_empty(const struct case_of_page *right, int of_table, int of_page, int of_record)
{
    struct table table = right->table;
    struct arrival record = right->arrival;
    table.size = of_table == RIGHT ? table.size : 0;
    page.size = of_page == RIGHT ? right_size(&page) : 0;
    record.length = of_record == RIGHT ? RECORD_SIZE : 0;
    const struct lending lending = {&table, &page, &record, pointers[of_table], pointers[of_page], pointers[of_record]};
    const uint64_t wanted = of_table != RIGHT ? 7 : of_page != RIGHT || of_record != RIGHT ? 4 : 0;
    own_figure("refusal of a take with buffers of no bytes", compare_lending(&lending), wanted);
}

void ends_of(uint64_t right, uint64_t *sizes)
{
    sizes[0] = right;
    sizes[1] = right + 65536;
    sizes[2] = right + TWO_TO_32;
    sizes[3] = right + TWO_TO_63;
    sizes[4] = right * (TWO_TO_32 + 1);
    sizes[5] = 0 - right;
    sizes[6] = TWO_TO_63;
    sizes[7] = UINT64_MAX - ROW_SIZE * RECORD_SIZE * CELL_SIZE;
    sizes[8] = UINT64_MAX;
}

/* All of these for each of the three, in all combinations; the first one is right. */
static void compare_ends_of(const struct case_of_page *right)
{
    uint64_t of_table[ENDS], of_page[ENDS], of_record[ENDS];
    struct table table = right->table;
    struct arrival record = right->arrival;
    ends_of(table.size, of_table);
    ends_of(page.size, of_page);
    ends_of(record.length, of_record);
    for (int i = 0; i < ENDS * ENDS * ENDS; i++) {
        table.size = of_table[i % ENDS];
        page.size = of_page[i / ENDS % ENDS];
        record.length = of_record[i / ENDS / ENDS];
        const uint64_t refusal = compare_lending(&(struct lending){.table = &table, .page = &page, .record = &record});
        own_figure("refusal of a take with sizes at the ends", refusal, i % ENDS != 0 ? 7 : i != 0 ? 4 : 0);
    }
}

/* Every number of books that there may not be, also where a table, a page or a record of a wrong size comes with it.
   The page is right for the books that it has, or one byte shorter, or as large as that number would have it. */
static void compare_no_books(const struct case_of_page *right)
{
    struct table table = right->table;
    struct arrival record = right->arrival;
    for (uint64_t i = 0; i < NO_BOOKS * BOOK_SETS; i++) {
        const uint64_t set = i / NO_BOOKS, books = no_books[i % NO_BOOKS];
        const uint64_t sizes[] = {right_size(&page), right_size(&page) - 1, CELL_SIZE * page.places * books};
        table.size = right->table.size - set % 2;
        record.length = RECORD_SIZE - set / 2 % 2;
        page.size = sizes[set / 4];
        page.books = books;
        const uint64_t refusal = compare_lending(&(struct lending){.table = &table, .page = &page, .record = &record});
        own_figure("refusal of a take with a number of books that there may not be", refusal, 17);
    }
}

void compare_sizes(void)
{
    compare_table_sizes();
    for (int i = 0; i < EMPTY_TABLES; i++) {
        const struct case_of_page right = right_case(&page, small_table_by_chance());
        for (int ways = 0; ways < WAYS * WAYS * WAYS; ways++)
            compare_empty(&right, ways % WAYS, ways / WAYS % WAYS, ways / WAYS / WAYS);
    }
    for (int i = 0; i < END_TABLES; i++) {
        const struct case_of_page right = right_case(&page, small_table_by_chance());
        compare_ends_of(&right);
        compare_no_books(&right);
    }
    printf("sizes: %d of a table, %d sets of buffers of no bytes, %d sets of sizes at the ends, ", MOST_SIZE + 1,
           WAYS * WAYS * WAYS, ENDS * ENDS * ENDS);
    printf("%d numbers of books that there may not be\n", NO_BOOKS);
}
