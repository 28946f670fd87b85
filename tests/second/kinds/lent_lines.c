/* One comparison of lines with what is expected of it: by each item of its list, and at times by one past the end. What
   it is lent lies among guards, and every byte of it is compared afterwards: only the buffer may change, only where
   there is no refusal, and only where the text goes. */

#include "lent_calls.h"

#include <stdio.h>
#include <string.h>

enum { ITEMS_OF_LINES = 3, LINES_ROOM = GUARDS + TEXT_ROOM + LINE_SPACE + GUARDS };

static uint8_t lent[LINES_ROOM], wanted[LINES_ROOM];

/* The bytes of the room that are filled and compared: the buffer as far as there can be lines, and the guards. */
static uint64_t filled(const struct question *question)
{
    const uint64_t most = LINE_SPACE * (question->page->places + 1), of_room = most < TEXT_ROOM ? most : TEXT_ROOM;
    return GUARDS + (question->number < of_room ? question->number : of_room) + GUARDS;
}

static void fill(uint8_t *room, uint64_t size)
{
    for (uint64_t i = 0; i < size; i++)
        room[i] = (uint8_t)(0x91 + i);
}

/* The buffer after a call. */
static void compare_text(const char *name, const struct question *question)
{
    if (memcmp(lent, wanted, filled(question)) == 0)
        return;
    print_question(name, question, "buffer of");
    printf(", byte %ld of the buffer", first_other_byte(lent, wanted));
    end("the text is not the one that is wanted, or something is written beside it");
}

/* A call for each item. */
static uint64_t call_lines(const char *name, lines_call *call, const struct question *question, struct list expected, int by_null)
{
    struct table_room table = table_among_guards(question->table);
    const struct page *page = question->page;
    for (uint64_t i = 0; i <= ITEMS_OF_LINES; i++) {
        const uint64_t which = i < ITEMS_OF_LINES ? i : any_item();
        fill(lent, filled(question));
        const uint64_t got = call(question->mode, lent_table(question->table, &table, by_null), question->table->size,
                                  page->books, question->book, page->layout, lent_page(page, by_null), page->size,
                                  question->place, by_null && question->number == 0 ? 0 : lent + GUARDS,
                                  question->number, which);
        if (got != item_of(expected, which)) {
            print_question(name, question, "buffer of");
            wrong_item(expected, which, got);
        }
        compare_text(name, question);
    }
    compare_lent(name, question, &table);
    return ITEMS_OF_LINES + 1;
}

uint64_t expect_lines(const char *name, lines_call *call, const struct question *question, struct list expected,
                      const struct written *written)
{
    const int is_any_empty = question->table->size == 0 || question->page->size == 0 || question->number == 0;
    uint64_t calls = 0;
    fill(wanted, filled(question));
    for (uint64_t i = 0; expected.items[0] == 0 && i < written->size; i++)
        wanted[GUARDS + i] = written->bytes[i];
    for (int by_null = 0; by_null <= is_any_empty; by_null++)
        calls += call_lines(name, call, question, expected, by_null);
    return calls;
}
