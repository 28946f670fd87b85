/* One comparison of a conversion with docs/RULES.md, "States first", by the layouts of layouts.c. What the call is lent
   lies among guards, and every byte of it is compared afterwards: only the second page may change, and only where there
   is no refusal. */

#include "conversions.h"

#include <stdio.h>
#include <string.h>

typedef uint32_t convert_call(const uint8_t *table, size_t table_length, uint64_t books, const uint8_t *first,
                              size_t first_length, uint8_t *second, size_t second_length);
typedef void lay_call(const uint8_t *restrict first, uint8_t *restrict second, uint64_t cells);

static const struct {
    const char *name;
    convert_call *convert;
    lay_call *lay;
} calls[CONVERSIONS] = {
    [TO_STATES_FIRST] = {"aldrynja_to_states_first", aldrynja_to_states_first, lay_states_first},
    [TO_CELL_BY_CELL] = {"aldrynja_to_cell_by_cell", aldrynja_to_cell_by_cell, lay_cell_by_cell},
};

/* The checks 17, 7, 4. */
static uint32_t refusal_of(const struct conversion_lending *lending)
{
    const struct judgment judgment = judge(lending->table->bytes, lending->table->size);
    const uint64_t books = lending->first->books, right = CELL_SIZE * judgment.places * books;
    if (is_no_number_of_books(books))
        return 17;
    if (judgment.faults)
        return 7;
    return lending->first->size == right && lending->second->size == right ? 0 : 4;
}

/* The answer; what the second page must hold is laid into its copy. */
uint32_t expect_conversion(const struct conversion_lending *lending)
{
    const uint32_t expected = refusal_of(lending);
    if (expected == 0)
        calls[lending->call].lay(lending->first->lent[1] + GUARDS, lending->second->lent[1] + GUARDS,
                                 lending->first->size / CELL_SIZE);
    return expected;
}

static void print_conversion(const void *what)
{
    const struct conversion_lending *lending = what;
    print_table(calls[lending->call].name, lending->table);
    printf(", %lu books, pages of %lu and of %lu bytes", lending->first->books, lending->first->size,
           lending->second->size);
}

/* The call, and what it gives. */
void call_conversion(const struct conversion_lending *lending, uint32_t expected, const uint8_t *table,
                     const uint8_t *first, uint8_t *second)
{
    begin_call(print_conversion, lending);
    const uint32_t got = calls[lending->call].convert(table, lending->table->size, lending->first->books, first,
                                                      lending->first->size, second, lending->second->size);
    end_call();
    if (got != expected) {
        print_conversion(lending);
        differ(as_answer(expected), as_answer(got));
    }
}

/* Something that was lent, after the call, and what it must be. */
void compare_converted(const struct conversion_lending *lending, const char *what, const uint8_t *wanted,
                       const uint8_t *got, uint64_t size)
{
    if (memcmp(wanted, got, size) == 0)
        return;
    const int64_t at = first_other_byte(wanted, got) + GUARDS;
    print_conversion(lending);
    printf(", byte %ld of the %s", at, what);
    print_bytes(": expected", wanted + at, 1);
    print_bytes(", got", got + at, 1);
    end("it is not as it must be");
}

/* With the guards, and now and then all of the room. */
static void compare_room(const struct conversion_lending *lending, const char *what, const struct page *page)
{
    compare_converted(lending, what, page->lent[1], page->lent[0], chance_below(1024) ? room_used(page) : PAGE_ROOM);
}

uint32_t compare_conversion(const struct conversion_lending *lending)
{
    const struct table_room table_before = table_among_guards(lending->table);
    struct table_room table = table_before;
    const uint32_t expected = expect_conversion(lending);
    call_conversion(lending, expected, lent_at(lending->to_table, lending->table->size, table.bytes),
                    lent_at(lending->to_first, lending->first->size, lending->first->lent[0] + GUARDS),
                    lent_at(lending->to_second, lending->second->size, lending->second->lent[0] + GUARDS));
    compare_converted(lending, "room of the table", table_before.front, table.front, sizeof table);
    compare_room(lending, "room of the first page", lending->first);
    compare_room(lending, "room of the second page", lending->second);
    note_conversion(lending, expected);
    return expected;
}

void any_bytes(struct page *page, uint64_t places, uint64_t books)
{
    uint8_t nine[CELL_SIZE];
    begin_books(page, places, books);
    for (uint64_t book = 0; book < books; book++)
        for (uint64_t place = 0; place < places; place++) {
            for (uint64_t i = 0; i < CELL_SIZE; i++)
                nine[i] = (uint8_t)chance_below(256);
            set_cell(page, place_field(book, place), nine);
        }
}
