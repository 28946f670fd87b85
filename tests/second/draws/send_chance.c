/* Runs of coefficients by chance, for whole pages of good tables: right ones, and all that can be wrong with them.
   See docs/RULES.md, "Sending a page" and "Books". */

#include "send_draws.h"

static int has_unusable(const struct vector *vector)
{
    int is_there = 0;
    for (uint64_t i = 0; i < vector->length; i++)
        is_there |= is_unusable(vector->coefficients[i]);
    return is_there;
}

/* Puts the coefficients of a place where they stand in the run. */
void put_vector(struct sending *to, const struct vector *vector)
{
    uint32_t *coefficients = to->run + coordinates_before(&to->table, vector->place);
    for (uint64_t i = 0; i < vector->length; i++)
        coefficients[i] = vector->coefficients[i];
}

/* The lengths that are right for a good table, and one book. */
void make_right(struct sending *to)
{
    const uint64_t places = judge(to->table.bytes, to->table.size).places;
    to->run_length = coordinates_before(&to->table, places);
    to->buffer_length = RECORD_SIZE * places;
    to->books = 1;
    to->book = 0;
}

/* Usable coefficients for every place of a good table, and the right lengths. */
void send_by_chance(struct sending *to, const struct table *table)
{
    struct vector vector = {.table = *table};
    to->table = *table;
    make_right(to);
    for (vector.place = 0; vector.place < to->buffer_length / RECORD_SIZE; vector.place++) {
        do
            coefficients_by_chance(&vector);
        while (has_unusable(&vector));
        put_vector(to, &vector);
    }
}

/* Makes one coefficient of a place unusable, and maybe others behind it. */
void spoil_coefficients(struct sending *to, uint64_t place)
{
    struct vector vector = vector_at(to, place);
    spoil(&vector);
    put_vector(to, &vector);
}

/* Another length than the right one: near it, without or with the coordinates of a place, none, one a place, as if
   all rows were as long as the first one or as the longest that there can be, or right only where a number is cut.
   The last two the call may not look at. */
uint64_t wrong_run_length(const struct sending *right)
{
    const uint64_t places = right->buffer_length / RECORD_SIZE, run = right->run_length;
    const uint64_t last = row_at(&right->table, places - 1)[AT_LENGTH], shorter = chance_below(run);
    const uint64_t near[] = {run - 1, run + 1, run - last, run + last};
    const uint64_t other[] = {0, shorter, places, places * right->table.bytes[AT_LENGTH], places * MOST_LENGTH, run + 65536, run + TWO_TO_32};
    uint64_t length;
    do
        length = chance_below(2) ? near[chance_below(ENTRIES(near))] : other[chance_below(ENTRIES(other))];
    while (length == run);
    return length;
}

/* Another length than 8 bytes a place: near it, without or with a record, none, one a place, as long as a page, or
   right only where a number is cut. The last two the call may not look at. */
uint64_t wrong_buffer_length(const struct sending *right)
{
    const uint64_t buffer = right->buffer_length, places = buffer / RECORD_SIZE, shorter = chance_below(buffer);
    const uint64_t near[] = {buffer - 1, buffer + 1, buffer - RECORD_SIZE, buffer + RECORD_SIZE};
    const uint64_t other[] = {0, shorter, places, CELL_SIZE * places, buffer + 65536, buffer + TWO_TO_32};
    return chance_below(2) ? near[chance_below(ENTRIES(near))] : other[chance_below(ENTRIES(other))];
}

/* Makes wrong of a right call what the set says. At most three places get unusable coefficients. */
void make_wrong(struct sending *to, int set)
{
    const uint64_t run_length = wrong_run_length(to), buffer_length = wrong_buffer_length(to), books = to->books;
    for (uint64_t spoilt = 1 + chance_below(3); set & WRONG_COEFFICIENT && spoilt > 0; spoilt--)
        spoil_coefficients(to, some_place(&to->table));
    to->run_length = set & WRONG_RUN ? run_length : to->run_length;
    to->buffer_length = set & WRONG_BUFFER ? buffer_length : to->buffer_length;
    to->books = set & WRONG_BOOKS ? no_books_by_chance(books) : books;
    to->book = set & WRONG_BOOK ? wrong_book(books) : to->book;
    if (set & WRONG_TABLE)
        spoil_table(&to->table);
}
