/* The rules of the call send: a run of coefficients for a whole page into the records of all its places;
   docs/RULES.md, "Sending a page". */

#ifndef SECOND_SENDING_H
#define SECOND_SENDING_H

#include "page.h"

enum {
    MOST_SENT = MOST_LENGTH * MOST_PLACES, /* the coefficients of the longest run that can be right */
    MOST_BUFFER = CELL_SIZE * MOST_PLACES, /* the bytes of a buffer as long as a page: too long for the records */
    SPARE = 2 * MOST_LENGTH,               /* how much longer than these a run, or a buffer, may really be lent */
    SENT_ITEMS = 3                         /* the most items of the list that send answers */
};

/* What send is lent, and the book. The numbers and the lengths may be any; of the room for the coefficients some may be
   unused. */
struct sending {
    struct table table;
    uint64_t books;                  /* how many there are */
    uint64_t book;
    uint64_t run_length;             /* in coefficients */
    uint64_t buffer_length;          /* in bytes */
    uint32_t run[MOST_SENT + SPARE]; /* the bits of each f32 */
};

/* What send must answer, and what the buffer must then hold; after a refusal nothing is said of the records. */
struct sent {
    struct list list; /* 0; or 17; or 7 and the row; or 8; or 4; or 11, the place in the book and the coordinate */
    uint8_t records[RECORD_SIZE * MOST_PLACES];
};

/* sending.c: where the coordinates of a place stand in a run, and what the call must answer */
uint64_t coordinates_before(const struct table *table, uint64_t place);
struct vector vector_at(const struct sending *sending, uint64_t place);
void send_page(const struct sending *sending, struct sent *sent);

#endif
