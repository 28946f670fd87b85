/* What is drawn by chance for the calls of the page: records, cells and pages, good ones and faulty ones. */

#ifndef SECOND_PAGE_DRAWS_H
#define SECOND_PAGE_DRAWS_H

#include "../rules/page.h"
#include "draws.h"

/* What is wrong with a call, as the bits of a set. The length is that of the record, or of the output; the row is that
   of the record alone. */
enum {
    WRONG_TABLE = 1,
    WRONG_BOOKS = 2, /* their number */
    WRONG_BOOK = 4,
    WRONG_PLACE = 8,
    WRONG_PAGE = 16,
    WRONG_LENGTH = 32,
    WRONG_COORDINATE = 64,
    WRONG_CELL = 128,
    WRONG_ROW = 256,
    SETS = 512
};

/* All that the calls are asked about one place in a book. */
struct case_of_page {
    struct table table;
    uint64_t book;
    uint64_t place;
    struct arrival arrival;
    uint64_t out_length;
    uint64_t coordinate;
};

/* books.c: numbers of books, books, and place fields */
enum { NO_BOOKS = 10 };
extern const uint64_t no_books[NO_BOOKS];
uint64_t books_by_chance(void);
uint64_t books_for(const struct table *table);
uint64_t no_books_by_chance(uint64_t right);
uint64_t wrong_book(uint64_t books);
void give_books(uint64_t *books, uint64_t *book);
uint64_t some_field(const struct page *page, const struct table *table);
uint64_t field_past_end(const struct page *page);
void change_book(uint8_t *record);

/* layouts.c: numbers for the layouts, and pages of any bytes */
enum { LAYOUT_NUMBERS = 9 };
extern const uint64_t layouts[LAYOUT_NUMBERS];
uint64_t layout_by_chance(void);
void lay_by_chance(struct page *page);
void cells_of_any_bytes(struct page *page);

/* page_chance.c: tables, cells, pages and records; a cell is named by a place field */
struct table small_table_by_chance(void);
struct table page_table_by_chance(void);
struct table large_table_by_chance(void);
struct table bad_table_by_chance(enum fault fault);
void plant_shell(struct table *table, uint64_t row, struct shell shell);
enum { CODEWORDS_BESIDE = 8 };
uint64_t codeword_beside(struct shell shell, uint64_t number);
uint64_t empty_codeword(struct shell shell);
uint64_t mended_codeword(struct shell shell);
void record_by_chance(const struct table *table, uint64_t field, uint8_t *record);
void set_place(const struct table *table, uint64_t field, uint8_t *record);
uint8_t foreign_row(const struct table *table, uint64_t field);
void cell_by_chance(const struct table *table, uint64_t field, uint8_t *cell);
void spoil_cell(const struct table *table, uint64_t field, uint8_t *cell);
void draw_cell(struct page *page, const struct table *table, uint64_t field, uint64_t one_bad_in);
void pages_by_chance(struct page *page, const struct table *table, uint64_t books, uint64_t one_bad_in);
struct arrival arrival_by_chance(const struct table *table, const struct page *page, uint64_t field);
uint64_t wrong_page_size(const struct page *page);

/* page_faults.c: calls with several faults at once, and with every state at one place */
enum { SET_TABLES = 64 }; /* how often each set of faults is tried */
typedef void visit_set(const struct case_of_page *wrong, int set);
typedef void visit_case(const struct case_of_page *of);
uint64_t field_of_case(const struct case_of_page *of);
struct case_of_page right_case(struct page *page, struct table table);
void for_each_set(struct page *page, visit_set *visit);
void for_each_state(struct page *page, visit_case *visit);
uint64_t refusal_of_take(int set);

#endif
