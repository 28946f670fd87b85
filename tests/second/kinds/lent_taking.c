/* One comparison of take with what is expected of it: by each item of its list, and at times by one past the end. What
   a call is lent lies among guards, and every byte of it is compared afterwards: only the page may change, and only
   where there is no refusal. */

#include "../draws/draws.h"
#include "lent_calls.h"

/* A call with one copy of the page, for one item. */
static void ask_take(const char *name, take_call *call, const struct taking *taking, int lent, uint64_t which, int by_null)
{
    const struct arrival *arrival = taking->arrival;
    struct table_room table = table_among_guards(taking->table);
    struct arrival_room room = arrival_among_guards(arrival);
    struct page *page = taking->page;
    const uint64_t got = call(lent_table(taking->table, &table, by_null), taking->table->size, page->books,
                              page->layout, by_null && page->size == 0 ? 0 : page->lent[lent] + GUARDS, page->size,
                              by_null && arrival->length == 0 ? 0 : room.bytes, arrival->length, which);
    if (got != item_of(taking->expected, which)) {
        print_taking(name, taking);
        wrong_item(taking->expected, which, got);
    }
    compare_taking(name, taking, lent, &table, &room);
}

/* A call with each copy of the page. After a refusal both are as they were, and one can be lent again. */
static uint64_t call_take(const char *name, take_call *call, const struct taking *taking, int by_null)
{
    const int is_refused = taking->expected.items[0] != 0;
    ask_take(name, call, taking, 0, 0, by_null);
    ask_take(name, call, taking, 1, is_refused || chance_below(2) ? 1 : any_item(), by_null);
    if (is_refused)
        ask_take(name, call, taking, 1, any_item(), by_null);
    return is_refused ? 3 : 2;
}

uint64_t expect_take(const char *name, take_call *call, const struct taking *taking)
{
    const int is_any_empty = taking->table->size == 0 || taking->page->size == 0 || taking->arrival->length == 0;
    uint64_t calls = 0;
    for (int by_null = 0; by_null <= is_any_empty; by_null++)
        calls += call_take(name, call, taking, by_null);
    return calls;
}
