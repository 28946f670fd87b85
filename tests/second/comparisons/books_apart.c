/* Books on one table are apart: from empty books on, the bytes of a book and what is answered about it depend on the
   records alone that claim a place in it. So a page that takes all that arrives, and one that takes only what claims a
   place in the book, have the same book; and whatever the cells of the other books hold, the answers about it are the
   same. These pages have layouts of their own. The calls are held to each other here, and not to the program's own
   rules. See docs/RULES.md, "Books". */

#include "comparisons.h"

#include <stdio.h>
#include <string.h>

enum { TABLES = 260, ARRIVALS = 80, LATER = 16, FEW = 6, MOST_CELLS = 4 * MOST_ROWS, READ_ITEMS = 4 };

/* All that the calls answer about one book, in both modes. */
struct answers {
    uint64_t tally[MODES][ITEMS];
    uint64_t reads[MODES][MOST_CELLS][READ_ITEMS];
    uint64_t coefficients[MODES][MOST_CELLS][READ_ITEMS];
    uint64_t lines[MODES][READ_ITEMS];
    int32_t points[MODES][MOST_CELLS][MOST_LENGTH];
    float values[MODES][MOST_CELLS];
    uint8_t text[MODES][LINE_SPACE * MOST_CELLS];
};

static struct page all, alone, changed;
static struct answers of_all, of_alone, of_changed;
static const struct table *table;
static uint64_t book, further_takes;

static uint8_t *bytes_of(struct page *page)
{
    return page->lent[0] + GUARDS;
}

static void hold_same(const char *what, const void *one, const void *other, uint64_t size)
{
    if (memcmp(one, other, size) == 0)
        return;
    print_table("books on one table", table);
    printf(", %lu books, book %lu, %s", all.books, book, what);
    end("other books make a difference");
}

/* The cells of the book, cell by cell, in the copies that the calls are lent. */
static void hold_same_book(const char *what, const struct page *one, const struct page *other)
{
    const uint64_t first = one->places * book;
    uint8_t cells[2][CELL_SIZE];
    for (uint64_t number = first; number < first + one->places; number++) {
        copy_cell(one->lent[0] + GUARDS, one->layout, cells_of(one), number, cells[0]);
        copy_cell(other->lent[0] + GUARDS, other->layout, cells_of(other), number, cells[1]);
        hold_same(what, cells[0], cells[1], CELL_SIZE);
    }
}

/* Of one place, in a mode. */
static void answer_place(struct page *page, uint64_t mode, uint64_t place, struct answers *to)
{
    const uint64_t length = row_at(table, place)[AT_LENGTH], coordinate = place % length, size = page->size;
    const uint8_t *rows = table->bytes, *bytes = bytes_of(page);
    for (uint64_t item = 0; item < READ_ITEMS; item++) {
        to->reads[mode][place][item] = probe_read(mode, rows, table->size, page->books, book, page->layout, bytes, size,
                                                  place, to->points[mode][place], length, item);
        to->coefficients[mode][place][item] = probe_coefficient(mode, rows, table->size, page->books, book,
                                                                page->layout, bytes, size, place, coordinate, item);
    }
    to->values[mode][place] = probe_coefficient_value(mode, rows, table->size, page->books, book, page->layout, bytes,
                                                      size, place, coordinate);
    compared.calls_of_page += 2 * READ_ITEMS + 1;
}

/* Of all places in a mode. */
static void answer_in(struct page *page, uint64_t mode, struct answers *to)
{
    const uint8_t *rows = table->bytes, *bytes = bytes_of(page);
    for (uint64_t item = 0; item < ITEMS; item++)
        to->tally[mode][item] =
            probe_tally(mode, rows, table->size, page->books, book, page->layout, bytes, page->size, item);
    for (uint64_t item = 0; item < READ_ITEMS; item++)
        to->lines[mode][item] = probe_lines(mode, rows, table->size, page->books, book, page->layout, bytes, page->size,
                                            0, to->text[mode], sizeof to->text[mode], item);
    for (uint64_t place = 0; place < page->places; place++)
        answer_place(page, mode, place, to);
    compared.calls_of_page += ITEMS + READ_ITEMS;
}

static void answer_book(struct page *page, struct answers *to)
{
    __builtin_memset(to, 0, sizeof *to);
    for (uint64_t mode = 0; mode < MODES; mode++)
        answer_in(page, mode, to);
}

/* Whether what arrives claims a place in the book. */
static int claims_in_book(const struct arrival *arrival)
{
    const uint64_t field = field_in(arrival->bytes);
    if (arrival->length != RECORD_SIZE || !has_cell(&all, field) || book_in(field) != book)
        return 0;
    return !is_foreign(table, arrival->bytes);
}

/* What arrives for one of few places, in any book; its book, its place or its length may not be right. */
static struct arrival arrival_for(const uint64_t *places)
{
    const uint64_t of_book = chance_below(2) ? book : chance_below(all.filled);
    struct arrival arrival = arrival_by_chance(table, &all, place_field(of_book, places[chance_below(FEW)]));
    if (chance_below(8) == 0)
        change_book(arrival.bytes);
    if (chance_below(16) == 0)
        set_two_bytes(arrival.bytes + AT_PLACE, field_past_end(&all));
    if (chance_below(32) == 0)
        arrival.length = chance_below(RECORD_SIZE);
    return arrival;
}

/* Both pages grow: one from all arrivals, one from those alone that claim a place in the book. */
static void grow(const uint64_t *places)
{
    for (int i = 0; i < ARRIVALS; i++) {
        const struct arrival arrival = arrival_for(places);
        const uint64_t answer = compare_take(table, &all, &arrival).items[0];
        if (claims_in_book(&arrival))
            own_figure("answer of a take, others left out", compare_take(table, &alone, &arrival).items[0], answer);
    }
}

/* The other books get cells of any bytes, in the copy that the calls are lent. */
static void fill_other_books(void)
{
    copy_page(&changed, &all);
    lay_by_chance(&changed);
    for (uint64_t number = 0; number < cells_of(&changed); number++) {
        uint8_t cell[CELL_SIZE];
        for (uint64_t i = 0; i < CELL_SIZE; i++)
            cell[i] = (uint8_t)chance_below(chance_below(2) ? 4 : 256);
        if (number / changed.places != book)
            lay_cell(bytes_of(&changed), changed.layout, cells_of(&changed), number, cell);
    }
}

/* A further record for the book: each page answers the same, and then has the same book. */
static void take_later(const uint64_t *places)
{
    const struct arrival arrival = arrival_by_chance(table, &all, place_field(book, places[chance_below(FEW)]));
    struct page *pages[] = {&all, &alone, &changed};
    uint64_t answers[ENTRIES(pages)];
    for (uint64_t i = 0; i < ENTRIES(pages); i++)
        answers[i] = probe_take(table->bytes, table->size, pages[i]->books, pages[i]->layout, bytes_of(pages[i]),
                                pages[i]->size, arrival.bytes, arrival.length, 0);
    hold_same("a further take into the other page", answers, answers + 1, sizeof *answers);
    hold_same("a further take among cells of any bytes", answers, answers + 2, sizeof *answers);
    hold_same_book("its cells after a further take", &all, &alone);
    hold_same_book("its cells after a further take, among others", &all, &changed);
    compared.calls_of_page += ENTRIES(pages);
    further_takes++;
}

/* Both pages are empty, and all copies of them alike. */
static void begin_both(uint64_t places, uint64_t books)
{
    begin_books(&all, places, books);
    begin_books(&alone, places, books);
    lay_by_chance(&all);
    lay_by_chance(&alone);
}

static void compare_apart(uint64_t books)
{
    uint64_t places[FEW];
    for (int i = 0; i < FEW; i++)
        places[i] = some_place(table);
    begin_both(judge(table->bytes, table->size).places, books);
    book = chance_below(books);
    grow(places);
    fill_other_books();
    answer_book(&all, &of_all);
    answer_book(&alone, &of_alone);
    answer_book(&changed, &of_changed);
    hold_same_book("its cells in a page of all arrivals", &all, &alone);
    hold_same("the answers in a page of all arrivals", &of_all, &of_alone, sizeof of_all);
    hold_same("the answers among cells of any bytes", &of_all, &of_changed, sizeof of_all);
    for (int i = 0; i < LATER; i++)
        take_later(places);
    begin_both(all.places, books);
    compared.books_apart++;
}

void compare_books_apart(void)
{
    for (int i = 0; i < TABLES; i++) {
        const struct table drawn = small_table_by_chance();
        table = &drawn;
        compare_apart(2 + chance_below(chance_below(4) ? 3 : MOST_BOOKS - 1));
    }
    printf("books apart: %lu, from %d arrivals each, ", compared.books_apart, ARRIVALS);
    printf("with %lu further takes\n", further_takes);
}
