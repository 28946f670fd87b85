/* One comparison of aldrynja_take with the rules in tests/second/rules/page.c. What the call is lent lies among guards,
   and every byte of it is compared afterwards: only the page may change, and only as those rules say. Its pages are
   kept states first. */

#include "slate.h"

static void print_take(const void *taking)
{
    print_taking("aldrynja_take", taking);
}

/* The call, and what it gives. */
void call_take(const struct taking *taking, const uint8_t *table, uint8_t *states_first, const uint8_t *record)
{
    const uint32_t expected = (uint32_t)taking->expected.items[0];
    begin_call(print_take, taking);
    const uint32_t got = aldrynja_take(table, taking->table->size, taking->page->books, states_first,
                                       taking->page->size, record, taking->arrival->length);
    end_call();
    if (got != expected) {
        print_taking("aldrynja_take", taking);
        differ(as_answer(expected), as_answer(got));
    }
    note_answer(expected);
}

uint8_t *lent_at(enum pointer pointer, uint64_t size, uint8_t *room)
{
    if (pointer == TO_ROOM || size > 0)
        return room;
    return pointer == TO_NULL ? NULL : (uint8_t *)1;
}

uint64_t compare_lending(const struct lending *lending)
{
    uint8_t before[CELL_SIZE];
    copy_named(lending->page, lending->record, before);
    const struct taking taking = {lending->table, lending->page, lending->record, before,
                                  take(lending->table, lending->page, lending->record)};
    struct table_room table = table_among_guards(lending->table);
    struct arrival_room record = arrival_among_guards(lending->record);
    call_take(&taking, lent_at(lending->to_table, lending->table->size, table.bytes),
              lent_at(lending->to_page, lending->page->size, lending->page->lent[0] + GUARDS),
              lent_at(lending->to_record, lending->record->length, record.bytes));
    compare_taking("aldrynja_take", &taking, 0, &table, &record);
    note_lending(lending, taking.expected.items[0]);
    note_take(lending->table, lending->page, lending->record, before, taking.expected);
    note_outcome(&taking);
    note_book_kinds(&taking);
    return taking.expected.items[0];
}
