/* One comparison of take, or of collect, with the rules in rules/page.c, and of a conversion with those in
   rules/layouts.c. What a call is lent lies among guards, and every byte of it is compared afterwards: only the page
   may change, or the buffer for the converted one, and only as those rules say. */

#include "../kinds/lent_calls.h"
#include "../kinds/page_kinds.h"
#include "comparisons.h"

#include <stdio.h>

struct list compare_take(const struct table *table, struct page *page, const struct arrival *arrival)
{
    uint8_t before[CELL_SIZE];
    copy_named(page, arrival, before);
    const struct taking taking = {table, page, arrival, before, take(table, page, arrival)};
    compared.calls_of_page += expect_take("probe_take", probe_take, &taking);
    note_take(table, page, arrival, before, taking.expected);
    note(as_answer((uint32_t)taking.expected.items[0]), &compared.takes);
    return taking.expected;
}

/* A call of collect with the first copy of the page. */
static void call_collect(const struct taking *taking, uint64_t refusals, int by_null)
{
    const struct arrival *run = taking->arrival;
    struct table_room table = table_among_guards(taking->table);
    struct arrival_room room = arrival_among_guards(run);
    struct page *page = taking->page;
    const uint64_t got = probe_collect(lent_table(taking->table, &table, by_null), taking->table->size, page->books,
                                       page->layout, by_null && page->size == 0 ? 0 : page->lent[0] + GUARDS,
                                       page->size, by_null && run->length == 0 ? 0 : room.bytes, run->length);
    if (got != refusals) {
        print_taking("probe_collect", taking);
        printf(", refused takes");
        differ(refusals, got);
    }
    compare_taking("probe_collect", taking, 0, &table, &room);
    compared.calls_of_page++;
}

/* The same run into the second copy, by a call of take for each part. */
static void take_parts(const struct taking *taking, uint64_t refusals)
{
    const struct arrival *run = taking->arrival;
    struct table_room table = table_among_guards(taking->table);
    struct arrival_room room = arrival_among_guards(run);
    struct page *page = taking->page;
    uint64_t got = 0;
    for (uint64_t at = 0; at < run->length; at += RECORD_SIZE) {
        const uint64_t left = run->length - at, length = left < RECORD_SIZE ? left : RECORD_SIZE;
        got += probe_take(table.bytes, taking->table->size, page->books, page->layout, page->lent[1] + GUARDS,
                          page->size, room.bytes + at, length, 0) != 0;
        compared.calls_of_page++;
    }
    if (got != refusals) {
        print_taking("probe_take of each part", taking);
        printf(", refused takes");
        differ(refusals, got);
    }
    compare_taking("probe_take of each part", taking, 1, &table, &room);
}

uint64_t compare_run(const struct table *table, struct page *page, const struct arrival *run)
{
    const struct taking taking = {.table = table, .page = page, .arrival = run};
    const uint64_t refusals = collect(table, page, run);
    call_collect(&taking, refusals, 0);
    if (table->size == 0 || page->size == 0 || run->length == 0)
        call_collect(&taking, refusals, 1);
    take_parts(&taking, refusals);
    note_run(table, page, run, refusals);
    compared.runs++;
    return refusals;
}

struct list compare_conversion(const struct conversion *asked)
{
    static uint8_t converted[PAGE_ROOM];
    const int is_to_states_first = asked->page->layout == CELL_BY_CELL;
    const struct list expected = convert(asked, converted);
    compared.calls_of_page +=
        is_to_states_first
            ? expect_convert("probe_to_states_first", probe_to_states_first, asked, expected, converted)
            : expect_convert("probe_to_cell_by_cell", probe_to_cell_by_cell, asked, expected, converted);
    note_converted(is_to_states_first ? MAKE_STATES_FIRST : MAKE_CELL_BY_CELL, asked, expected);
    note(as_answer((uint32_t)expected.items[0]), &compared.conversions);
    return expected;
}
