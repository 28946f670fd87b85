/* One comparison of send with the rules in rules/sending.c, and what a page that was sent is to its receiver: taken
   into an empty page of either layout, every place of its book is sound and has the quantized point, and the other
   books are empty. */

#include "../kinds/lent_send.h"
#include "../kinds/send_kinds.h"
#include "comparisons.h"

#include <stdio.h>

static struct sent expected;
static uint8_t page[CELL_SIZE * MOST_BOOKS * MOST_PLACES]; /* of the receiver */
static uint64_t layout;                                    /* of that page, each in turn */

/* The refusal of the program's own rules is returned. */
uint64_t compare_send(const struct sending *sending)
{
    send_page(sending, &expected);
    expect_send("probe_send", probe_send, sending, &expected);
    note_send(sending, &expected);
    note(as_answer((uint32_t)expected.list.items[0]), &compared.sends);
    return expected.list.items[0];
}

/* A call for the receiver that answers something else. */
static void hold(const struct table *table, const char *what, uint64_t wanted, uint64_t got)
{
    if (wanted == got)
        return;
    print_table("records that were sent", table);
    printf(", %s", what);
    differ(wanted, got);
}

/* One place of the page that was received: sound in each mode, with the point of the program's own quantizer. */
static void compare_point_received(uint64_t mode, const struct sending *sending, const struct quantizing *made,
                                   uint64_t size, uint64_t place)
{
    int32_t point[MOST_LENGTH];
    const struct table *table = &sending->table;
    const uint64_t length = made->shell.length, books = sending->books, book = sending->book;
    for (uint64_t item = 0; item < 2; item++)
        hold(table, item == 0 ? "refusal of read" : "answer of read", item == 0 ? 0 : SOUND,
             probe_read(mode, table->bytes, table->size, books, book, layout, page, size, place, point, length, item));
    for (uint64_t i = 0; i < length; i++)
        hold(table, "coordinate, as 64 bits,", (uint64_t)made->point[i], (uint64_t)point[i]);
}

/* And quantize writes this very record. */
static void compare_received(const struct sending *sending, uint64_t size, uint64_t place)
{
    const struct vector vector = vector_at(sending, place);
    const struct quantizing made = quantize(&vector);
    for (uint64_t mode = 0; mode < MODES; mode++)
        compare_point_received(mode, sending, &made, size, place);
    expect_quantize(&vector, &made.answer);
}

/* How many places of a book have an answer. */
static uint64_t tally_received(uint64_t mode, const struct sending *sending, uint64_t book, uint64_t size,
                               enum reading_word word)
{
    const struct table *table = &sending->table;
    return probe_tally(mode, table->bytes, table->size, sending->books, book, layout, page, size, 1 + (uint64_t)word);
}

/* A page that is not refused, and then what its receiver has. */
void compare_send_received(const struct sending *sending)
{
    const struct table *table = &sending->table;
    const uint64_t places = sending->buffer_length / RECORD_SIZE, books = sending->books;
    const uint64_t size = CELL_SIZE * places * books;
    own_figure("refusal of a page that is right", compare_send(sending), 0);
    __builtin_memset(page, 0, size);
    layout = (layout + 1) % LAYOUTS;
    hold(table, "refused takes", 0,
         probe_collect(table->bytes, table->size, books, layout, page, size, expected.records, sending->buffer_length));
    for (uint64_t mode = 0; mode < MODES; mode++) {
        hold(table, "sound places", places, tally_received(mode, sending, sending->book, size, SOUND));
        if (books > 1)
            hold(table, "missing places of another book", places,
                 tally_received(mode, sending, (sending->book + 1) % books, size, MISSING));
    }
    compare_received(sending, size, some_place(table));
}
