/* Calls with what the second program draws: bad tables of every kind, vectors near every tie or anywhere, some of
   them unusable, cells of every kind, with what arrives there, one by one and as runs, and whole pages with every set
   of faults. Each row has one of the enumerations. There is one book or there are several, in a page of either layout,
   which is converted too. */

#include "../tests/second/draws/send_draws.h"
#include "bench.h"

enum { TABLES_OF_FAULT = 50, TABLES = 1000, VECTORS_OF_TABLE = 20, RECORDS_OF_TABLE = 50, PAGES = 100 };

/* Every call is refused so, whatever else is lent; 16 comes before all other numbers. */
static void require_refused(struct sharing with, uint64_t refusal)
{
    static uint8_t pages[2][CELL_SIZE];
    const struct coefficients in = {.length = with.table->bytes[AT_LENGTH] % (MOST_LENGTH + 1)};
    const struct record record = {.length = RECORD_SIZE};
    if (agree_on_quantize(with, &in, RECORD_SIZE) != refusal ||
        agree_on_read(chance_below(MODES), with, pages[0], CELL_SIZE, 0, in.length) != refusal ||
        agree_on_read(no_mode_by_chance(), with, pages[0], CELL_SIZE, 0, in.length) != 16 ||
        agree_on_take(with, pages[0], pages[1], CELL_SIZE, &record) != refusal ||
        agree_on_conversion(with, pages[0], CELL_SIZE, CELL_SIZE) != refusal ||
        agree_on_send(with, in.values, 1, RECORD_SIZE) != refusal)
        fail("a bad table or a wrong number of books", "not refused");
}

/* With a number of books that there may be, and with one that there may not be: 17 comes before 7. */
static void try_bad_table(enum fault fault)
{
    const struct table table = bad_table_by_chance(fault);
    struct sharing with = {.table = &table, .layout = layout_by_chance()};
    give_books(&with.books, &with.book);
    require_refused(with, 7);
    with.books = no_books_by_chance(with.books);
    require_refused(with, 17);
}

static void try_vectors(void)
{
    struct vector vector = {.table = good_table_by_chance()};
    struct sharing with = {.table = &vector.table};
    for (int i = 0; i < VECTORS_OF_TABLE; i++) {
        place_by_chance(&vector);
        coefficients_by_chance(&vector);
        give_books(&with.books, &with.book);
        struct coefficients in = {.place = vector.place, .length = vector.length};
        __builtin_memcpy(in.values, vector.coefficients, vector.length * sizeof *in.values);
        agree_on_quantize(with, &in, RECORD_SIZE);
    }
}

/* What is read at a place in a book, in each mode. */
static void read_at(const struct table *table, const struct page *page, const uint8_t *lent, uint64_t field)
{
    const struct sharing with = {table, page->books, book_in(field), page->layout};
    for (uint64_t mode = 0; mode < MODES; mode++)
        agree_on_read(mode, with, lent, page->size, place_in(field), row_at(table, place_in(field))[AT_LENGTH]);
}

/* What arrives at a place, and what is read there before and then; at last the page is converted. */
static void try_page(void)
{
    static struct page page;
    const struct table table = page_table_by_chance();
    page.layout = layout_by_chance();
    pages_by_chance(&page, &table, books_by_chance(), 0);
    const struct sharing with = {&table, page.books, 0, page.layout};
    uint8_t *ours = page.lent[0] + GUARDS, *of_plain = page.lent[1] + GUARDS;
    for (int i = 0; i < RECORDS_OF_TABLE; i++) {
        const uint64_t field = some_field(&page, &table);
        draw_cell(&page, &table, field, 6);
        const struct arrival arrival = arrival_by_chance(&table, &page, field);
        struct record record = {.length = arrival.length};
        __builtin_memcpy(record.bytes, arrival.bytes, RECORD_SIZE);
        read_at(&table, &page, ours, field);
        agree_on_take(with, ours, of_plain, page.size, &record);
        read_at(&table, &page, of_plain, field);
    }
    if (agree_on_conversion(with, ours, page.size, page.size) != 0)
        fail("conversion", "refused");
}

/* What arrives as a run, for places of the table and for others, in a page with cells at fault. */
static void try_run(void)
{
    static struct page page;
    const struct table table = page_table_by_chance();
    struct arrival run = {.length = chance_below(MOST_RUN + 1)};
    page.layout = layout_by_chance();
    pages_by_chance(&page, &table, books_by_chance(), 6);
    for (uint64_t at = 0; at < run.length; at += RECORD_SIZE) {
        const struct arrival arrival = arrival_by_chance(&table, &page, some_field(&page, &table));
        __builtin_memcpy(run.bytes + at, arrival.bytes, RECORD_SIZE);
        if (chance_below(8) == 0)
            set_two_bytes(run.bytes + at + AT_PLACE, field_past_end(&page));
    }
    agree_on_collect((struct sharing){&table, page.books, 0, page.layout}, page.lent[0] + GUARDS,
                     page.lent[1] + GUARDS, page.size, run.bytes, run.length);
}

/* The same bits, as floats. */
static uint64_t agree_on_sending(const struct sending *sending)
{
    static float run[ENTRIES(sending->run)];
    const struct sharing with = {.table = &sending->table, .books = sending->books, .book = sending->book};
    __builtin_memcpy(run, sending->run, sizeof run);
    return agree_on_send(with, run, sending->run_length, sending->buffer_length);
}

/* A page in each of as many books as there may be; then in any, with every set of faults. */
static void try_sets(void)
{
    static struct sending right, wrong;
    const struct table table = small_table_by_chance();
    send_by_chance(&right, &table);
    right.books = MOST_BOOKS;
    for (right.book = 0; right.book < MOST_BOOKS; right.book++)
        if (agree_on_sending(&right) != 0)
            fail("send", "refused");
    give_books(&right.books, &right.book);
    for (int set = 0; set < SEND_SETS; set++) {
        wrong = right;
        make_wrong(&wrong, set);
        if ((agree_on_sending(&wrong) != 0) != (set != 0))
            fail("send", "refused or not, as was not meant");
    }
}

void compare_draws(void)
{
    for (int i = 0; i < FAULTS * TABLES_OF_FAULT; i++)
        try_bad_table((enum fault)(i % FAULTS));
    for (int i = 0; i < TABLES; i++) {
        try_vectors();
        try_page();
        try_run();
    }
    for (int i = 0; i < PAGES; i++)
        try_sets();
}
