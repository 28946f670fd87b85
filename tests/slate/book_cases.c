/* What docs/RULES.md says of single takes into pages of one book and of several, as it stands there: none of the rules
   of tests/second comes between. See "Books", "The page", "Refusal numbers" and "Order of checks". */

#include "slate.h"

#include <stdio.h>

/* Records of a table of two places, of place 0 if nothing else is said: of the books 0, 1, 2 and 15; the first two with
   a bit of the codeword changed; one of another row; one of place 1; and two of place 2, which is not there in any
   book. */
static const uint8_t of_0[] = {0x00, 0, 0, 1, 0, 0, 0, 0x05}, of_1[] = {0x10, 0, 0, 1, 0, 0, 0, 0x05};
static const uint8_t of_2[] = {0x20, 0, 0, 1, 0, 0, 0, 0x05}, of_15[] = {0xf0, 0, 0, 1, 0, 0, 0, 0x05};
static const uint8_t other_of_0[] = {0x00, 0, 0, 1, 0, 0, 0, 0x07}, other_of_1[] = {0x10, 0, 0, 1, 0, 0, 0, 0x07};
static const uint8_t foreign_of_1[] = {0x10, 0, 1, 1, 0, 0, 0, 0x05}, place_1_of_1[] = {0x10, 1, 0, 1, 0, 0, 0, 0x05};
static const uint8_t past_0[] = {0x00, 2, 0, 1, 0, 0, 0, 0x05}, past_1[] = {0x10, 2, 0, 1, 0, 0, 0, 0x05};

/* The records in the page. */
#define ZEROS 0, 0, 0, 0, 0, 0, 0, 0
#define OF_0 0x00, 0, 0, 1, 0, 0, 0, 0x05
#define OF_1 0x10, 0, 0, 1, 0, 0, 0, 0x05

/* The pages of two books, four states and then four records: nothing, place 1 of book 1 alone, place 0 of book 1 alone,
   both books; a record of book 0 in the cell of book 1; a contested place. And two pages of one book. */
#define NOTHING {0}
#define PLACE_1 {0, 0, 0, 1, ZEROS, ZEROS, ZEROS, 0x10, 1, 0, 1, 0, 0, 0, 0x05}
#define BOOK_1 {0, 0, 1, 0, ZEROS, ZEROS, OF_1}
#define BOTH {1, 0, 1, 0, OF_0, ZEROS, OF_1}
#define OTHER_BOOK {1, 0, 1, 0, OF_0, ZEROS, OF_0}
#define CONTESTED_1 {1, 0, 2, 0, OF_0, ZEROS, ZEROS}
#define CONTESTED_0 {2, 0, 1, 0, ZEROS, ZEROS, OF_1}
#define ALONE {1, 0, OF_0}
#define CONTESTED_ALONE {2, 0, ZEROS}

/* The sizes of pages of one, two and three books; there is room for three. */
enum { TWO_PLACES = 2, ONE = TWO_PLACES * CELL_SIZE, TWO = 2 * ONE, THREE = 3 * ONE };

/* A page before the take, what is lent, and then the answer and the page. */
static const struct {
    uint8_t before[THREE];
    uint64_t books;
    uint64_t table_length;
    uint64_t page_length;
    const uint8_t *record;
    uint64_t length;
    uint32_t answer;
    uint8_t after[THREE];
} takes[] = {
    {NOTHING, 2, 16, TWO, place_1_of_1, 8, ALDRYNJA_TAKEN, PLACE_1},
    {NOTHING, 2, 16, TWO, of_1, 8, ALDRYNJA_TAKEN, BOOK_1},
    {BOOK_1, 2, 16, TWO, of_0, 8, ALDRYNJA_TAKEN, BOTH},
    {BOTH, 2, 16, TWO, of_1, 8, ALDRYNJA_TAKEN, BOTH},
    {BOTH, 2, 16, TWO, other_of_1, 8, ALDRYNJA_TAKEN, CONTESTED_1},
    {BOTH, 2, 16, TWO, other_of_0, 8, ALDRYNJA_TAKEN, CONTESTED_0},
    {BOTH, 2, 16, TWO, foreign_of_1, 8, ALDRYNJA_FOREIGN_ROW, BOTH},
    {BOTH, 2, 16, TWO, past_0, 8, ALDRYNJA_NO_SUCH_PLACE, BOTH},
    {BOTH, 2, 16, TWO, past_1, 8, ALDRYNJA_NO_SUCH_PLACE, BOTH},
    {BOTH, 2, 16, TWO, of_2, 8, ALDRYNJA_NO_SUCH_PLACE, BOTH},
    {BOTH, 2, 16, TWO, of_15, 8, ALDRYNJA_NO_SUCH_PLACE, BOTH},
    {ALONE, 1, 16, ONE, other_of_1, 8, ALDRYNJA_NO_SUCH_PLACE, ALONE},
    {ALONE, 1, 16, ONE, other_of_0, 8, ALDRYNJA_TAKEN, CONTESTED_ALONE},
    {OTHER_BOOK, 2, 16, TWO, of_1, 8, ALDRYNJA_BAD_CELL, OTHER_BOOK},
    {OTHER_BOOK, 2, 16, TWO, of_0, 8, ALDRYNJA_TAKEN, OTHER_BOOK},
    {BOTH, 1, 16, TWO, other_of_0, 8, ALDRYNJA_BUFFER_LENGTH, BOTH},
    {BOTH, 2, 16, ONE, other_of_0, 8, ALDRYNJA_BUFFER_LENGTH, BOTH},
    {BOTH, 2, 16, THREE, other_of_0, 8, ALDRYNJA_BUFFER_LENGTH, BOTH},
    {BOTH, 3, 16, TWO, other_of_0, 8, ALDRYNJA_BUFFER_LENGTH, BOTH},
    {BOTH, 2, 16, ONE, of_2, 8, ALDRYNJA_BUFFER_LENGTH, BOTH},
    {BOTH, 2, 15, TWO, other_of_0, 8, ALDRYNJA_BAD_TABLE, BOTH},
    {BOTH, 2, 15, ONE, of_2, 8, ALDRYNJA_BAD_TABLE, BOTH},
    {BOTH, 0, 16, TWO, other_of_0, 8, ALDRYNJA_BOOKS_OUTSIDE, BOTH},
    {BOTH, 0, 16, 0, other_of_0, 8, ALDRYNJA_BOOKS_OUTSIDE, BOTH},
    {BOTH, 17, 16, TWO, other_of_0, 8, ALDRYNJA_BOOKS_OUTSIDE, BOTH},
    {BOTH, 256 + 2, 16, TWO, other_of_0, 8, ALDRYNJA_BOOKS_OUTSIDE, BOTH},
    {BOTH, TWO_TO_32 + 1, 16, ONE, other_of_0, 8, ALDRYNJA_BOOKS_OUTSIDE, BOTH},
    {BOTH, TWO_TO_32 + 2, 16, TWO, other_of_0, 8, ALDRYNJA_BOOKS_OUTSIDE, BOTH},
    {BOTH, TWO_TO_63 + 2, 16, TWO, other_of_0, 8, ALDRYNJA_BOOKS_OUTSIDE, BOTH},
    {BOTH, UINT64_MAX, 16, TWO, other_of_0, 8, ALDRYNJA_BOOKS_OUTSIDE, BOTH},
    {BOTH, 17, 15, ONE, of_2, 7, ALDRYNJA_BOOKS_OUTSIDE, BOTH},
    {OTHER_BOOK, 0, 16, TWO, foreign_of_1, 8, ALDRYNJA_BOOKS_OUTSIDE, OTHER_BOOK},
};

static void compare_takes(void)
{
    for (uint64_t i = 0; i < ENTRIES(takes); i++) {
        uint8_t page[sizeof takes[i].before];
        for (uint64_t j = 0; j < sizeof page; j++)
            page[j] = takes[i].before[j];
        compare_case("aldrynja_take with books", i, takes[i].answer,
                     aldrynja_take(two_places, takes[i].table_length, takes[i].books, page, takes[i].page_length,
                                   takes[i].record, takes[i].length));
        for (uint64_t j = 0; j < sizeof page; j++)
            compare_case("the page of aldrynja_take with books", i, takes[i].after[j], page[j]);
    }
}

/* A record of one place of a book, into a new page of so many books. */
static void compare_book(uint64_t books, uint8_t book, uint8_t place)
{
    static const char of_page[] = "the page of aldrynja_take, a number of books";
    const uint8_t record[RECORD_SIZE] = {(uint8_t)(16 * book), place, 0, 1, 0, 0, 0, 0x05};
    uint8_t page[(MOST_BOOKS + 2) * ONE] = {0};
    const int is_number = 1 <= books && books <= MOST_BOOKS, is_there = book < books && place < TWO_PLACES;
    const uint64_t cell = (uint64_t)book * TWO_PLACES + place;
    const uint64_t of_book = is_there ? ALDRYNJA_TAKEN : ALDRYNJA_NO_SUCH_PLACE;
    compare_case("aldrynja_take, a number of books", books, is_number ? of_book : ALDRYNJA_BOOKS_OUTSIDE,
                 aldrynja_take(two_places, ROW_SIZE, books, page, ONE * books, record, RECORD_SIZE));
    for (uint64_t i = 0; i < sizeof page; i++) {
        const uint8_t held = held_alone(TWO_PLACES * books, cell, record, i);
        compare_case(of_page, books, is_number && is_there ? held : 0, page[i]);
    }
}

/* Each number of books from none to two too many, with each book that a record can name, and a place too many. */
void compare_book_cases(void)
{
    compare_takes();
    for (uint64_t books = 0; books <= MOST_BOOKS + 2; books++)
        for (uint8_t book = 0; book < MOST_BOOKS; book++)
            for (uint8_t place = 0; place <= TWO_PLACES; place++)
                compare_book(books, book, place);
    printf("cases of books: %lu takes, ", ENTRIES(takes));
    printf("%d numbers of books with each of %d books\n", MOST_BOOKS + 3, MOST_BOOKS);
}
