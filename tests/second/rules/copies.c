/* A page in four copies: one that the program's own rules change, cell by cell, the same in the layout of the page, and
   two that the calls are lent and change. Whatever is drawn goes into all four, so that the last three must stay alike,
   with all that lies around them. */

#include "page.h"

/* Of all books together. */
uint64_t cells_of(const struct page *page)
{
    return page->places * page->filled;
}

uint64_t right_size(const struct page *page)
{
    return CELL_SIZE * cells_of(page);
}

/* The bytes of the room that a page uses: its cells and the guards, among them cells behind it. */
uint64_t room_used(const struct page *page)
{
    return GUARDS + right_size(page) + CELL_SIZE * CELLS_BEHIND + GUARDS;
}

/* In the copies that have the layout of the page. */
static void set_laid_byte(struct page *page, uint64_t at, uint8_t byte)
{
    page->wanted[at] = byte;
    page->lent[0][at] = byte;
    page->lent[1][at] = byte;
}

static uint8_t guard_at(uint64_t at)
{
    return (uint8_t)(0x91 + at);
}

/* "A new page is all zeros", in either layout. The books stand one after another. */
void begin_books(struct page *page, uint64_t places, uint64_t books)
{
    page->places = places;
    page->filled = books;
    page->books = books;
    page->size = right_size(page);
    for (uint64_t i = 0; i < room_used(page); i++) {
        page->own[i] = i < GUARDS || i >= GUARDS + page->size ? guard_at(i) : 0;
        set_laid_byte(page, i, page->own[i]);
    }
}

/* A page of one book. */
void begin_page(struct page *page, uint64_t places)
{
    begin_books(page, places, 1);
}

/* Gives a page these bytes, which have its layout. They may be part of a cell too few: guards make it a whole one. */
void fill_page(struct page *page, const uint8_t *bytes, uint64_t size)
{
    page->size = size;
    for (uint64_t i = GUARDS; i < GUARDS + right_size(page); i++)
        set_laid_byte(page, i, i < GUARDS + size ? bytes[i - GUARDS] : guard_at(i));
    for (uint64_t number = 0; number < cells_of(page); number++)
        copy_cell(page->wanted + GUARDS, page->layout, cells_of(page), number, page->own + GUARDS + CELL_SIZE * number);
}

/* Lays a cell of the program's own into a copy that has the layout of the page. */
static void lay_into(const struct page *page, uint8_t *copy, uint64_t number)
{
    lay_cell(copy + GUARDS, page->layout, cells_of(page), number, page->own + GUARDS + CELL_SIZE * number);
}

static void lay_everywhere(struct page *page, uint64_t number)
{
    lay_into(page, page->wanted, number);
    lay_into(page, page->lent[0], number);
    lay_into(page, page->lent[1], number);
}

/* Gives a page a layout. */
void lay_out(struct page *page, uint64_t layout)
{
    page->layout = layout;
    for (uint64_t number = 0; number < cells_of(page); number++)
        lay_everywhere(page, number);
}

/* A cell that the program's own rules have changed: the calls must change theirs. */
void lay_own_cell(struct page *page, uint64_t number)
{
    lay_into(page, page->wanted, number);
}

void copy_page(struct page *to, const struct page *from)
{
    to->places = from->places;
    to->filled = from->filled;
    to->books = from->books;
    to->size = from->size;
    to->layout = from->layout;
    for (uint64_t i = 0; i < room_used(from); i++) {
        to->own[i] = from->own[i];
        set_laid_byte(to, i, from->wanted[i]);
    }
}

/* Whether a place field names a cell that is there. */
int has_cell(const struct page *page, uint64_t field)
{
    return book_in(field) < page->filled && place_in(field) < page->places;
}

/* The number of the cell of a place field: behind those of the books before, and of the places before in its book. */
static uint64_t cell_number(const struct page *page, uint64_t field)
{
    return book_in(field) * page->places + place_in(field);
}

void set_cell(struct page *page, uint64_t field, const uint8_t *cell)
{
    const uint64_t number = cell_number(page, field);
    for (uint64_t i = 0; i < CELL_SIZE; i++)
        page->own[GUARDS + CELL_SIZE * number + i] = cell[i];
    lay_everywhere(page, number);
}

const uint8_t *cell_at(const struct page *page, uint64_t field)
{
    return page->own + GUARDS + CELL_SIZE * cell_number(page, field);
}
