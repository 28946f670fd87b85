/* One comparison of read, of coefficient or of the tally with what is expected of it: by each item of its list, and at
   times by one past the end. What a call is lent lies among guards, and every byte of it is compared afterwards: only
   the output of read may change, and only where there is no refusal. */

#include "lent_calls.h"

#include <stdio.h>
#include <stdlib.h>

enum { ITEMS_OF_READING = 4 }; /* the refusal or 0, the answer, its reason, its distance */

/* The bits of an f32; nothing else is done with it. */
static uint32_t bits_of_float(float value)
{
    const union {
        float value;
        uint32_t bits;
    } as = {value};
    return as.bits;
}

/* The output of read, after a call that must have written so many numbers of the point. */
static void compare_output(const char *name, const struct question *question, const struct point_room *room, const int32_t *point,
                           uint64_t length)
{
    const struct point_room wanted = garbage_around(point, length);
    if (same_points(room, &wanted))
        return;
    print_question(name, question, "output of");
    wrong_output(room, point, length);
}

/* A call for each item. */
static uint64_t call_read(const char *name, read_call *call, const struct question *question, struct list expected,
                          const int32_t *point, int by_null)
{
    struct table_room table = table_among_guards(question->table);
    const struct page *page = question->page;
    for (uint64_t i = 0; i <= ITEMS_OF_READING; i++) {
        const uint64_t which = i < ITEMS_OF_READING ? i : any_item();
        struct point_room room = garbage();
        const uint64_t got = call(question->mode, lent_table(question->table, &table, by_null), question->table->size,
                                  page->books, question->book, page->layout, lent_page(page, by_null), page->size,
                                  question->place, by_null && question->number == 0 ? 0 : room.cells + GUARDS,
                                  question->number, which);
        if (got != item_of(expected, which)) {
            print_question(name, question, "output of");
            wrong_item(expected, which, got);
        }
        compare_output(name, question, &room, point, expected.items[0] == 0 ? question->number : 0);
    }
    compare_lent(name, question, &table);
    return ITEMS_OF_READING + 1;
}

uint64_t expect_read(const char *name, read_call *call, const struct question *question, struct list expected, const int32_t *point)
{
    const int is_any_empty = question->table->size == 0 || question->page->size == 0 || question->number == 0;
    uint64_t calls = 0;
    for (int by_null = 0; by_null <= is_any_empty; by_null++)
        calls += call_read(name, call, question, expected, point, by_null);
    return calls;
}

/* A call for each item. */
static uint64_t call_coefficient(const char *name, coefficient_call *call, const struct question *question, struct list expected,
                                 int by_null)
{
    struct table_room table = table_among_guards(question->table);
    const struct page *page = question->page;
    for (uint64_t i = 0; i <= ITEMS_OF_READING; i++) {
        const uint64_t which = i < ITEMS_OF_READING ? i : any_item();
        const uint64_t got = call(question->mode, lent_table(question->table, &table, by_null), question->table->size,
                                  page->books, question->book, page->layout, lent_page(page, by_null), page->size,
                                  question->place, question->number, which);
        if (got != item_of(expected, which)) {
            print_question(name, question, "coordinate");
            wrong_item(expected, which, got);
        }
    }
    compare_lent(name, question, &table);
    return ITEMS_OF_READING + 1;
}

static uint64_t call_value(const char *name, value_call *call, const struct question *question, uint32_t bits, int by_null)
{
    struct table_room table = table_among_guards(question->table);
    const struct page *page = question->page;
    const uint32_t got = bits_of_float(call(question->mode, lent_table(question->table, &table, by_null), question->table->size,
                                            page->books, question->book, page->layout, lent_page(page, by_null),
                                            page->size, question->place, question->number));
    if (got != bits) {
        print_question(name, question, "coordinate");
        printf(", the value: expected the bits %08x, got %08x\n", bits, got);
        exit(1);
    }
    compare_lent(name, question, &table);
    return 1;
}

uint64_t expect_coefficient(const char *name, coefficient_call *call, value_call *value, const struct question *question,
                            struct list expected, uint32_t bits)
{
    const int is_any_empty = question->table->size == 0 || question->page->size == 0;
    uint64_t calls = 0;
    for (int by_null = 0; by_null <= is_any_empty; by_null++)
        calls += call_coefficient(name, call, question, expected, by_null) + call_value(name, value, question, bits, by_null);
    return calls;
}

/* A call for each item. */
static uint64_t call_tally(const char *name, tally_call *call, const struct question *question, struct list expected,
                           int by_null)
{
    struct table_room table = table_among_guards(question->table);
    const struct page *page = question->page;
    for (uint64_t i = 0; i <= ITEMS; i++) {
        const uint64_t which = i < ITEMS ? i : any_item();
        const uint64_t got = call(question->mode, lent_table(question->table, &table, by_null), question->table->size,
                                  page->books, question->book, page->layout, lent_page(page, by_null), page->size,
                                  which);
        if (got != item_of(expected, which)) {
            print_book_asked(name, question);
            wrong_item(expected, which, got);
        }
    }
    compare_lent(name, question, &table);
    return ITEMS + 1;
}

uint64_t expect_tally(const char *name, tally_call *call, const struct question *question, struct list expected)
{
    const int is_any_empty = question->table->size == 0 || question->page->size == 0;
    uint64_t calls = 0;
    for (int by_null = 0; by_null <= is_any_empty; by_null++)
        calls += call_tally(name, call, question, expected, by_null);
    return calls;
}
