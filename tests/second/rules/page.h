/* The rules of the page: what the calls of the page must answer, and what take makes of a cell;
   docs/RULES.md, "The page". */

#ifndef SECOND_PAGE_H
#define SECOND_PAGE_H

#include "rules.h"

enum {
    CELL_SIZE = 9,
    GUARDS = 8,       /* how many guards lie before what a call is lent, and how many behind it */
    CELLS_BEHIND = 2, /* cells that lie behind a page, so that it can be lent too long */
    PAGE_ROOM = GUARDS + CELL_SIZE * (MOST_BOOKS * MOST_PLACES + CELLS_BEHIND) + GUARDS,
    MOST_TAKEN = 17,    /* the bytes of the longest record that is lent, but for those right where a number is cut */
    MOST_OUTPUT = 20,   /* the numbers of the longest output that is lent, but for the same */
    MOST_RUN = 200,     /* the bytes of the longest run, but for the long ones */
    MOST_ARRIVAL = 208  /* the room for what arrives */
};

/* Where the fields of a cell begin, and its states. */
enum { AT_STATE = 0, AT_RECORD = 1 };
enum { STATE_EMPTY = 0, STATE_HELD = 1, STATE_CONTESTED = 2 };

/* The layouts, in either of which a page may be kept. A call may be given any number: all above 0 are states first. */
enum { CELL_BY_CELL, STATES_FIRST, LAYOUTS };

/* The modes: whether what is past the end is mended. A call may be given any number, and refuses the others. */
enum { PLAIN_MODE, MENDING_MODE, MODES };

/* The five answers. */
enum reading_word { SOUND, MENDED, MISSING, CONTESTED, UNREADABLE, READINGS };

/* A page in four copies: what it must hold, cell by cell, and again in the layout of the page; and two that the calls
   are lent, which have that layout too. Each begins behind the guards. */
struct page {
    uint64_t places; /* of each book */
    uint64_t filled; /* how many books have cells */
    uint64_t books;  /* how many there are, as the calls are told it; it may be any number */
    uint64_t size;   /* in bytes, as the calls are told it; it may be any number */
    uint64_t layout; /* as the calls are told it; a new page keeps that of the page before */
    uint8_t own[PAGE_ROOM];
    uint8_t wanted[PAGE_ROOM];
    uint8_t lent[2][PAGE_ROOM];
};

/* What arrives: a record for take, a run of bytes for collect. The length may be any number. */
struct arrival {
    uint64_t length;
    uint8_t bytes[MOST_ARRIVAL];
};

/* What read, coefficient, the tally or lines is asked; the tally has neither a place nor a number. */
struct question {
    uint64_t mode;
    const struct table *table;
    const struct page *page;
    uint64_t book;
    uint64_t place;  /* in the book */
    uint64_t number; /* read: the length of the output; coefficient: the coordinate; lines: the length of the buffer */
};

/* What a conversion is asked: a page, and the length of the buffer for it in the other layout, which may be any
   number. */
struct conversion {
    const struct table *table;
    const struct page *page;
    uint64_t length;
};

/* The text that lines writes. */
enum { LINE_SPACE = 256 /* the room that is asked for each line */, TEXT_ROOM = LINE_SPACE * MOST_PLACES };
struct written {
    uint64_t size;
    uint8_t bytes[TEXT_ROOM];
};

/* How a cell is read. */
struct reading {
    enum reading_word word;
    uint64_t reason;    /* of an unreadable one, else 0 */
    struct shell shell; /* of a sound or mended one, and the index in it */
    uint64_t index;
    uint64_t distance; /* of the codeword of a mended one, or of one that is unreadable for reason 6, else 0 */
};

/* layouts.c: where a cell stands in a page of so many cells, by its number; and what the conversions must answer, and
   make of a page */
void lay_cell(uint8_t *page, uint64_t layout, uint64_t cells, uint64_t number, const uint8_t *cell);
void copy_cell(const uint8_t *page, uint64_t layout, uint64_t cells, uint64_t number, uint8_t *cell);
struct list convert(const struct conversion *asked, uint8_t *converted);

/* copies.c: a page in four copies, of one book or of several; a cell is named by a place field */
uint64_t cells_of(const struct page *page);
uint64_t right_size(const struct page *page);
uint64_t room_used(const struct page *page);
void begin_books(struct page *page, uint64_t places, uint64_t books);
void begin_page(struct page *page, uint64_t places);
void fill_page(struct page *page, const uint8_t *bytes, uint64_t size);
void lay_out(struct page *page, uint64_t layout);
void lay_own_cell(struct page *page, uint64_t number);
void copy_page(struct page *to, const struct page *from);
int has_cell(const struct page *page, uint64_t field);
void set_cell(struct page *page, uint64_t field, const uint8_t *cell);
const uint8_t *cell_at(const struct page *page, uint64_t field);

/* page.c: how a cell is read in a mode that there is, and what take and collect must answer, and make of a page */
extern const char *const reading_words[READINGS];
uint64_t codeword_of(const uint8_t *record);
int is_foreign(const struct table *table, const uint8_t *record);
int is_at_fault(const struct table *table, uint64_t field, const uint8_t *cell);
int is_overflowing(const struct table *table, uint64_t field, const uint8_t *cell);
struct reading read_cell(uint64_t mode, const struct table *table, uint64_t field, const uint8_t *cell);
int is_any_mended(struct shell shell);
struct list take(const struct table *table, struct page *page, const struct arrival *arrival);
uint64_t collect_bytes(const struct table *table, struct page *page, const uint8_t *bytes, uint64_t size);
uint64_t collect(const struct table *table, struct page *page, const struct arrival *run);

/* asking.c: what read, coefficient and the tally must answer; the checks, the cell and the point of the calls that
   look */
struct list check_question(const struct question *question);
const uint8_t *cell_asked(const struct question *question, uint64_t place);
int is_fault_at(const struct question *question, uint64_t place);
struct reading reading_at(const struct question *question, uint64_t place);
void write_point(struct reading reading, int32_t *point);
struct list read_place(const struct question *question, int32_t *point);
struct list coefficient(const struct question *question, uint32_t *bits);
struct list tally(const struct question *question);

/* lines.c: what lines must answer, and write */
uint64_t lines_asked(const struct question *question);
struct list lines_from(const struct question *question, struct written *written);

#endif
