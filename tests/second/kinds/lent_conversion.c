/* One comparison of a conversion with what is expected of it: by each item of its list, and at times by one past the
   end. What it is lent lies among guards, and every byte of it is compared afterwards: only the buffer for the
   converted page may change, and only where there is no refusal. */

#include "../draws/draws.h"
#include "lent_calls.h"

#include <stdio.h>
#include <string.h>

enum { ITEMS_OF_CONVERSION = 2 };

static uint8_t lent[PAGE_ROOM], wanted[PAGE_ROOM];

/* The bytes of the room that are filled and compared: as many as the page uses, which any buffer that is written has
   room in. */
static uint64_t filled(const struct conversion *asked)
{
    return room_used(asked->page);
}

/* No byte of the buffer is what it must become. */
static void fill(const struct conversion *asked, int is_refused, const uint8_t *converted)
{
    for (uint64_t i = 0; i < filled(asked); i++)
        lent[i] = wanted[i] = (uint8_t)(1 + i % 255);
    for (uint64_t i = 0; !is_refused && i < asked->length; i++) {
        lent[GUARDS + i] ^= converted[i];
        wanted[GUARDS + i] = converted[i];
    }
}

static void print_conversion(const char *name, const struct conversion *asked)
{
    print_table(name, asked->table);
    printf(", %lu books, page of %lu bytes, ", asked->page->books, asked->page->size);
    printf("buffer of %lu bytes", asked->length);
}

/* All that was lent, after a call, and now and then all of the room: the rest is as it was. */
static void compare_all_lent(const char *name, const struct conversion *asked, const struct table_room *table)
{
    const struct table_room before = table_among_guards(asked->table);
    const int is_table_same = same_table(table, &before);
    const int is_buffer_right = memcmp(lent, wanted, chance_below(1024) ? filled(asked) : PAGE_ROOM) == 0;
    if (is_table_same && is_buffer_right && is_page_as_it_must_be(asked->page, 0))
        return;
    print_conversion(name, asked);
    if (!is_table_same)
        end("something is written at the table");
    if (is_buffer_right)
        wrong_page(asked->page, 0);
    printf(", byte %ld of the buffer", first_other_byte(lent, wanted));
    end("the page there is not the one that is wanted, or something is written beside it");
}

/* A call for each item. */
static uint64_t call_convert(const char *name, converting_call *call, const struct conversion *asked,
                             struct list expected, const uint8_t *converted, int by_null)
{
    struct table_room table = table_among_guards(asked->table);
    for (uint64_t i = 0; i <= ITEMS_OF_CONVERSION; i++) {
        const uint64_t which = i < ITEMS_OF_CONVERSION ? i : any_item();
        fill(asked, expected.items[0] != 0, converted);
        const uint64_t got = call(lent_table(asked->table, &table, by_null), asked->table->size, asked->page->books,
                                  lent_page(asked->page, by_null), asked->page->size,
                                  by_null && asked->length == 0 ? 0 : lent + GUARDS, asked->length, which);
        if (got != item_of(expected, which)) {
            print_conversion(name, asked);
            wrong_item(expected, which, got);
        }
        compare_all_lent(name, asked, &table);
    }
    return ITEMS_OF_CONVERSION + 1;
}

uint64_t expect_convert(const char *name, converting_call *call, const struct conversion *asked, struct list expected,
                        const uint8_t *converted)
{
    const int is_any_empty = asked->table->size == 0 || asked->page->size == 0 || asked->length == 0;
    uint64_t calls = 0;
    for (int by_null = 0; by_null <= is_any_empty; by_null++)
        calls += call_convert(name, call, asked, expected, converted, by_null);
    return calls;
}
