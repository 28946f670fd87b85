/* What take, or collect, is lent: the table and what arrives, among guards, and a copy of the page. Every byte of it is
   compared after a call: only the page may change, and only as the rules in rules/page.c say. Nothing here calls what
   is under test. */

#include "lent.h"

#include <stdio.h>
#include <string.h>

struct arrival_room arrival_among_guards(const struct arrival *arrival)
{
    struct arrival_room room;
    set_guards(room.front, room.back);
    for (uint64_t i = 0; i < MOST_ARRIVAL; i++)
        room.bytes[i] = arrival->bytes[i];
    return room;
}

/* The cell of the place that a record names, zeros where there is none. */
void copy_named(const struct page *page, const struct arrival *arrival, uint8_t *cell)
{
    const uint64_t field = field_in(arrival->bytes);
    for (uint64_t i = 0; i < CELL_SIZE; i++)
        cell[i] = has_cell(page, field) ? cell_at(page, field)[i] : 0;
}

void print_taking(const char *call, const struct taking *taking)
{
    const struct arrival *arrival = taking->arrival;
    print_table(call, taking->table);
    printf(", %lu books, layout %lu, page of %lu bytes", taking->page->books, taking->page->layout, taking->page->size);
    if (taking->before)
        print_bytes(", its cell before", taking->before, CELL_SIZE);
    printf(", lent %lu bytes", arrival->length);
    print_bytes("", arrival->bytes, arrival->length <= MOST_ARRIVAL ? arrival->length : RECORD_SIZE);
}

/* One copy of the page, and the lent table and bytes, after a call. */
void compare_taking(const char *call, const struct taking *taking, int lent, const struct table_room *table,
                    const struct arrival_room *arrival)
{
    const struct table_room table_before = table_among_guards(taking->table);
    const struct arrival_room arrival_before = arrival_among_guards(taking->arrival);
    const int is_table_same = same_table(table, &table_before);
    const int is_arrival_same = memcmp(arrival, &arrival_before, sizeof *arrival) == 0;
    if (is_table_same && is_arrival_same && is_page_as_it_must_be(taking->page, lent))
        return;
    print_taking(call, taking);
    if (!is_table_same) {
        printf(", byte %ld", first_other_byte(&table_before, table));
        end("something is written at the table");
    }
    if (!is_arrival_same) {
        printf(", byte %ld", first_other_byte(&arrival_before, arrival));
        end("something is written at the bytes that arrive");
    }
    wrong_page(taking->page, lent);
}
