/* The layouts against each other: on a page whose states are first, each call answers as on the page cell by cell that
   the conversion makes of it, and leaves the conversion of what it leaves there. The calls are held to each other here,
   and not to the program's own rules. See docs/RULES.md, "States first". */

#include "../kinds/lent_calls.h"
#include "comparisons.h"

#include <stdio.h>
#include <string.h>

enum { TABLES = 1500, ARRIVALS_OF_TABLE = 12, TEXT = 3 * LINE_SPACE, CALLS_EACH = 5 * ITEMS + 2, LEAST_ALIKE = 15000 };

static struct page page;

/* What the calls are asked, beside the page. */
struct asking {
    struct case_of_page of;
    uint64_t mode;
    struct arrival run;
};

/* All that they answer, and write. */
struct said {
    uint64_t take[ITEMS];
    uint64_t collect;
    uint64_t read[ITEMS];
    uint64_t coefficient[ITEMS];
    uint64_t tally[ITEMS];
    uint64_t lines[ITEMS];
    int32_t point[MOST_OUTPUT];
    uint32_t value;
    uint8_t text[TEXT];
};

static uint8_t states_first[PAGE_ROOM], cell_by_cell[PAGE_ROOM], back[PAGE_ROOM];

static uint32_t bits_of_value(const struct asking *asking, uint64_t layout, const uint8_t *bytes)
{
    const struct case_of_page *of = &asking->of;
    const float value = probe_coefficient_value(asking->mode, of->table.bytes, of->table.size, page.books, of->book,
                                                layout, bytes, page.size, of->place, of->coordinate);
    uint32_t bits;
    __builtin_memcpy(&bits, &value, sizeof bits);
    return bits;
}

/* Take and collect are last: they may change the page. */
static void ask(const struct asking *asking, uint64_t layout, uint8_t *bytes, struct said *to)
{
    const struct case_of_page *of = &asking->of;
    const uint8_t *rows = of->table.bytes;
    const uint64_t mode = asking->mode, rows_size = of->table.size, books = page.books, size = page.size;
    __builtin_memset(to, 0, sizeof *to);
    for (uint64_t item = 0; item < ITEMS; item++) {
        to->read[item] = probe_read(mode, rows, rows_size, books, of->book, layout, bytes, size, of->place, to->point,
                                    of->out_length, item);
        to->coefficient[item] = probe_coefficient(mode, rows, rows_size, books, of->book, layout, bytes, size,
                                                  of->place, of->coordinate, item);
        to->tally[item] = probe_tally(mode, rows, rows_size, books, of->book, layout, bytes, size, item);
        to->lines[item] =
            probe_lines(mode, rows, rows_size, books, of->book, layout, bytes, size, of->place, to->text, TEXT, item);
    }
    to->value = bits_of_value(asking, layout, bytes);
    for (uint64_t item = 0; item < ITEMS; item++)
        to->take[item] = probe_take(rows, rows_size, books, layout, bytes, size, of->arrival.bytes, of->arrival.length,
                                    item);
    to->collect = probe_collect(rows, rows_size, books, layout, bytes, size, asking->run.bytes, asking->run.length);
    compared.calls_of_page += CALLS_EACH;
}

/* By the call, with a right page. */
static void make(const struct table *table, converting_call *call, const uint8_t *from, uint8_t *to)
{
    const uint64_t size = right_size(&page);
    own_figure("refusal of a conversion that is right",
               call(table->bytes, table->size, page.filled, from, size, to, size, 0), 0);
    compared.calls_of_page++;
}

/* At times something is wrong: the place, the book, the size of the page, the number of books, the mode, a length or
   what the record names. */
static void spoil_asking(struct asking *asking)
{
    const uint64_t choice = chance_below(24);
    if (choice == 0)
        asking->of.place = wrong_place(page.places);
    if (choice == 1)
        asking->of.book = wrong_book(page.filled);
    if (choice == 2)
        page.size = wrong_page_size(&page);
    if (choice == 3)
        page.books = no_books_by_chance(page.filled);
    if (choice == 4)
        asking->mode = no_mode_by_chance();
    if (choice == 5)
        asking->of.arrival.length = other_than(RECORD_SIZE, MOST_TAKEN);
    if (choice == 6)
        asking->of.out_length = other_than(asking->of.out_length, MOST_OUTPUT);
    if (choice == 7)
        set_two_bytes(asking->of.arrival.bytes + AT_PLACE, field_past_end(&page));
}

static struct asking asking_by_chance(const struct table *table)
{
    const uint64_t field = some_field(&page, table), length = row_at(table, place_in(field))[AT_LENGTH];
    struct asking asking = {.of = {.table = *table, .book = book_in(field), .place = place_in(field)}};
    asking.mode = chance_below(MODES);
    asking.of.out_length = length;
    asking.of.coordinate = chance_below(length + 1);
    asking.of.arrival = arrival_by_chance(table, &page, field);
    asking.run.length = chance_below(MOST_RUN + 1);
    for (uint64_t at = 0; at < asking.run.length; at += RECORD_SIZE)
        record_by_chance(table, some_field(&page, table), asking.run.bytes + at);
    page.size = right_size(&page);
    page.books = page.filled;
    spoil_asking(&asking);
    return asking;
}

/* The same question about both pages, and then the first one against the conversion of the second. */
static void compare_asking(const struct asking *asking)
{
    static struct said one, other;
    ask(asking, STATES_FIRST, states_first, &one);
    ask(asking, CELL_BY_CELL, cell_by_cell, &other);
    make(&asking->of.table, probe_to_states_first, cell_by_cell, back);
    compared.layouts++;
    const int is_said = memcmp(&one, &other, sizeof one) == 0;
    if (is_said && memcmp(states_first, back, right_size(&page)) == 0)
        return;
    print_table("calls in both layouts", &asking->of.table);
    printf(", mode %lu, book %lu of %lu, place %lu", asking->mode, asking->of.book, page.books, asking->of.place);
    printf(", page of %lu bytes", page.size);
    print_bytes(", record", asking->of.arrival.bytes, RECORD_SIZE);
    end(is_said ? "a take leaves another page in the other layout" : "an answer is another one in the other layout");
}

void compare_layouts(void)
{
    for (int i = 0; i < TABLES; i++) {
        const struct table table = i % 16 ? small_table_by_chance() : good_table_by_chance();
        pages_by_chance(&page, &table, books_for(&table), i % 2 ? 0 : 4);
        lay_out(&page, STATES_FIRST);
        __builtin_memcpy(states_first, page.lent[0] + GUARDS, page.size);
        make(&table, probe_to_cell_by_cell, states_first, cell_by_cell);
        for (int j = 0; j < ARRIVALS_OF_TABLE; j++) {
            const struct asking asking = asking_by_chance(&table);
            compare_asking(&asking);
        }
    }
    require(compared.layouts, LEAST_ALIKE, "pages asked about", "in both layouts");
    printf("layouts: %lu times all calls in both layouts, held to each other\n", compared.layouts);
}
