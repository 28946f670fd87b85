/* Books, docs/RULES.md, "Books": how many there may be, and the place field, which numbers a book and a place in it. */

#include "rules.h"

/* 17: there are fewer than 1, or more than 16. */
int is_no_number_of_books(uint64_t books)
{
    return books == 0 || books > MOST_BOOKS;
}

/* The upper four bits are those of the book, and the lower twelve those of the place. */
uint64_t place_field(uint64_t book, uint64_t place)
{
    return (book << PLACE_BITS) + place;
}

uint64_t book_in(uint64_t field)
{
    return field >> PLACE_BITS;
}

uint64_t place_in(uint64_t field)
{
    return field % (1 << PLACE_BITS);
}

/* The place field of a record. */
uint64_t field_in(const uint8_t *record)
{
    return two_bytes(record + AT_PLACE);
}
