/* Books at their ends: one record that is written down here, and for 1, 2, 15 and 16 books of tables of few places and
   of 4,096 the first and the last book, places on both sides of 255, and the numbers just outside. All calls but send
   and collect are asked. So a book at bit 8, or a book and a place that are exchanged, is noticed. See docs/RULES.md,
   "Books". */

#include "comparisons.h"

#include <stdio.h>
#include <string.h>

enum { PLACES = 300, BOOK = 3, PLACE = 258, LENGTH = 3, CELL = BOOK * PLACES + PLACE, TABLES_OF_NUMBER = 4 };

static struct page page;
static uint64_t places_asked;

/* Place 258 of book 3, in the table of the whole case with 300 places: its record, and which cell has it. */
static const uint32_t coefficients[LENGTH] = {0x3fc00000, 0, 0xbf400000};
static const uint8_t written_down[RECORD_SIZE] = {0x31, 0x02, 0, 1, 0, 0, 0, 5};

/* The case holds the program's own rules to what is written down here, too. */
static void compare_written_down(uint64_t books)
{
    struct vector vector = {.table = pairing_bin, .books = books, .book = BOOK, .place = PLACE, .length = LENGTH};
    struct arrival arrival = {.length = RECORD_SIZE};
    set_two_bytes(vector.table.bytes + AT_PLACES, PLACES);
    vector.record_length = RECORD_SIZE;
    __builtin_memcpy(vector.coefficients, coefficients, sizeof coefficients);
    __builtin_memcpy(arrival.bytes, written_down, RECORD_SIZE);
    own_figure("refusal of the record of a book", compare_vector(&vector), 0);
    own_figure("record of a book", memcmp(quantize(&vector).answer.record, written_down, RECORD_SIZE) != 0, 0);
    begin_books(&page, PLACES, books);
    lay_by_chance(&page);
    own_figure("refusal of a take into a book", compare_take(&vector.table, &page, &arrival).items[0], 0);
    for (uint64_t i = 0; i < cells_of(&page); i++)
        own_figure("state of a cell", page.own[GUARDS + CELL_SIZE * i], i == CELL ? STATE_HELD : STATE_EMPTY);
    for (uint64_t book = 0; book < books; book++) {
        const struct question question = {MENDING_MODE, &vector.table, &page, book, PLACE, LENGTH};
        own_figure("answer of a place in a book", compare_read(&question).items[1], book == BOOK ? SOUND : MISSING);
        own_figure("sound places of a book", compare_tally(&question).items[1 + SOUND], book == BOOK);
    }
}

/* All calls about one place in a book, whatever there is of it. */
static void ask_all(const struct table *table, uint64_t book, uint64_t place)
{
    const uint64_t length = place < page.places ? row_at(table, place)[AT_LENGTH] : 1;
    struct vector vector = {.table = *table, .books = page.books, .book = book, .place = place};
    struct question question = {0, table, &page, book, place, length};
    vector.length = length;
    vector.record_length = RECORD_SIZE;
    for (uint64_t i = 0; i < length; i++)
        vector.coefficients[i] = BITS_OF_1 - (uint32_t)chance_below(1 << 24);
    compare_vector(&vector);
    compare_reads(&question);
    question.number = 0;
    compare_coefficients(&question);
    question.number = LINE_SPACE;
    compare_both_lines(&question);
    places_asked++;
}

/* A record for a place field, and all that is asked there then. */
static void compare_at(const struct table *table, uint64_t book, uint64_t place)
{
    struct arrival arrival = {.length = RECORD_SIZE};
    if (book < MOST_BOOKS && place < 1 << PLACE_BITS) {
        record_by_chance(table, place_field(book, place < page.places ? place : 0), arrival.bytes);
        set_two_bytes(arrival.bytes + AT_PLACE, place_field(book, place));
        compare_take(table, &page, &arrival);
    }
    ask_all(table, book, place);
}

/* The first book and the last one, the one behind it, and numbers that are right where they are cut. */
static void compare_books_of(const struct table *table)
{
    const uint64_t last = page.filled - 1;
    const uint64_t books[] = {0, last, page.filled, last + 256, last + TWO_TO_32, last + TWO_TO_63};
    const uint64_t places[] = {0, 1, 15, 16, 255, 256, 257, page.places - 1, page.places, some_place(table)};
    for (uint64_t i = 0; i < ENTRIES(books); i++) {
        for (uint64_t j = 0; j < ENTRIES(places); j++)
            compare_at(table, books[i], places[j]);
        compare_both_tallies(&(struct question){0, table, &page, books[i], 0, 0});
    }
}

/* A number of books that there may be, and those that there may not be. */
static void compare_number(const struct table *table, uint64_t books)
{
    begin_books(&page, judge(table->bytes, table->size).places, books);
    lay_by_chance(&page);
    compare_books_of(table);
    for (uint64_t i = 0; i < NO_BOOKS; i++) {
        page.books = no_books[i];
        compare_at(table, chance_below(2) ? 0 : books - 1, some_place(table));
        compare_both_tallies(&(struct question){0, table, &page, 0, 0, 0});
    }
}

void compare_books(void)
{
    const uint64_t numbers[] = {1, 2, MOST_BOOKS - 1, MOST_BOOKS};
    for (uint64_t books = BOOK + 1; books <= MOST_BOOKS; books++)
        compare_written_down(books);
    for (uint64_t i = 0; i < TABLES_OF_NUMBER * ENTRIES(numbers); i++) {
        const struct table table = i % TABLES_OF_NUMBER == 0 ? large_table_by_chance() : page_table_by_chance();
        compare_number(&table, numbers[i / TABLES_OF_NUMBER]);
    }
    printf("books: %lu places of 1 to 16 books, and just outside\n", places_asked);
}
