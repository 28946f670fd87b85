/* Numbers of books, books and place fields by chance: right ones, and such as there are not, often ones that are right
   where a number is cut. See docs/RULES.md, "Books". */

#include "page_draws.h"

/* A number of books that there may be, mostly a small one. */
uint64_t books_by_chance(void)
{
    const uint64_t books[] = {1, 1, 1, 1, 2, 2, 3, 1 + chance_below(MOST_BOOKS)};
    return chance_below(32) ? books[chance_below(ENTRIES(books))] : MOST_BOOKS;
}

/* For a page of a table: of many places mostly one or two. */
uint64_t books_for(const struct table *table)
{
    const int is_large = judge(table->bytes, table->size).places > 255;
    return is_large && chance_below(8) ? 1 + chance_below(2) : books_by_chance();
}

const uint64_t no_books[NO_BOOKS] = {0, 17, 32, 256, 257, 65537, TWO_TO_32, TWO_TO_32 + 1, TWO_TO_63, UINT64_MAX};

/* A number of books that there may not be. */
uint64_t no_books_by_chance(uint64_t right)
{
    const uint64_t cut[] = {MOST_BOOKS, 256, 65536, TWO_TO_32, TWO_TO_63};
    return chance_below(4) ? no_books[chance_below(NO_BOOKS)] : cut[chance_below(ENTRIES(cut))] + right;
}

/* A book that is not there. */
uint64_t wrong_book(uint64_t books)
{
    const uint64_t past[] = {books, books, books + 1, MOST_BOOKS, TWO_TO_32 - 1, UINT64_MAX};
    const uint64_t cut[] = {MOST_BOOKS, 256, 65536, TWO_TO_32, TWO_TO_63};
    return chance_below(2) ? past[chance_below(ENTRIES(past))] : cut[chance_below(ENTRIES(cut))] + chance_below(books);
}

/* The number of books and the book that a vector, or a page that is sent, has: such as there are. */
void give_books(uint64_t *books, uint64_t *book)
{
    *books = books_by_chance();
    *book = chance_below(*books);
}

/* A place of a good table in a book that a page has. */
uint64_t some_field(const struct page *page, const struct table *table)
{
    return place_field(chance_below(page->filled), some_place(table));
}

/* A place field whose place is not in the table or whose book is not 0, often one that is right where a number is cut
   or its bytes are exchanged. */
static uint64_t place_past_end(uint64_t places)
{
    const uint64_t place = chance_below(places), exchanged = place % 256 * 256 + place / 256;
    const uint64_t low_byte = place % 256 + 256 * chance_below(256);
    const uint64_t past[] = {places, places + 1, MOST_PLACES + place, 65535, exchanged, low_byte};
    const uint64_t choice = chance_below(ENTRIES(past) + 1);
    return choice < ENTRIES(past) && past[choice] >= places ? past[choice] : places + chance_below(65536 - places);
}

/* A place field whose cell a page has not, as far as there is one: of a book or of a place that is not there, or one
   that a slip would make of a right one, as by exchanged bytes or by a book at bit 8. */
uint64_t field_past_end(const struct page *page)
{
    const uint64_t all = (uint64_t)MOST_BOOKS << PLACE_BITS;
    uint64_t field;
    do {
        const uint64_t book = chance_below(page->filled), place = chance_below(page->places);
        const uint64_t right = place_field(book, place), exchanged = right % 256 * 256 + right / 256;
        const uint64_t past[] = {place_field(page->filled, place), place_field(book, page->places), exchanged,
                                 book * 256 + place, place * MOST_BOOKS + book, place_past_end(page->places),
                                 chance_below(all)};
        field = past[chance_below(ENTRIES(past))] % all;
    } while (has_cell(page, field) && cells_of(page) < all);
    return field;
}

/* Gives a record another book, and nothing else. */
void change_book(uint8_t *record)
{
    record[AT_PLACE] ^= (uint8_t)((1 + chance_below(MOST_BOOKS - 1)) * 16);
}
