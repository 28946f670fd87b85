/* The parts of the test that holds the calls of the page to stored cases; cases.txt tells what a line of them has. */

#ifndef PAGE_PAGE_H
#define PAGE_PAGE_H

#include "../fields/fields.h"

/* The calls that there are cases of. */
enum of_call { OF_TAKE, OF_READ, OF_COEFFICIENT, OF_TALLY, OF_TO_STATES_FIRST, OF_TO_CELL_BY_CELL, CALLS };

/* What a case lends, and what it expects. */
struct page_case {
    enum of_call call;
    uint64_t mode; /* of those that look */
    struct table table;
    struct page page;       /* as it is before the call, with the number of books that the call is told */
    struct arrival arrival; /* what take is lent */
    uint64_t book;          /* of those that look */
    uint64_t place;         /* for read and coefficient */
    uint64_t number;        /* read, conversions: the length of the output; coefficient: the coordinate */
    struct list expected;
    uint8_t after[CELL_SIZE * MOST_PLACES]; /* what the page must hold then, on a refusal too; or the converted one */
    int32_t point[MOST_LENGTH];             /* read: what the output must hold, where there is no refusal */
    uint32_t bits;                          /* coefficient: those of the value, 0 where there is none */
};

/* cases.c: a line of the text, which is a case */
extern const char *const call_words[CALLS];
void read_case(struct text *text, struct page_case *to);

#endif
