/* The parts of the lister and of the maker of cases. Both are written from docs/RULES.md, "Listing program", "Sender
   program" and "The page", on top of the second program's rules of a table, a record, a run, a cell and a point; they
   share nothing with the programs that they test. The lister is linked with text/ and those rules alone. */

#ifndef LISTING_LISTING_H
#define LISTING_LISTING_H

#include "../second/draws/draws.h"
#include "../second/kinds/lent.h"
#include "../second/rules/page.h"

enum {
    MOST_CAPTURE = 300000, /* the bytes of the longest capture that is made */
    F32_SIZE = 4,          /* the bytes of a coefficient in a file */
    ONE_BOOK = 1           /* the books of a page that is sent or listed: so the field of a place is the place */
};

/* What came for each place, and how many takes are refused. */
struct gathering {
    uint64_t places; /* in the table */
    uint64_t refused;
    struct {
        uint64_t row; /* of the place */
        uint64_t claims;
        int is_contested; /* two that claim the place differ */
        uint8_t first[RECORD_SIZE];
    } came[MOST_PLACES];
};

/* All that is received: the bytes of records.bin. */
struct capture {
    uint64_t size;
    uint8_t bytes[MOST_CAPTURE];
};

/* text/gathering.c: what came for each place, in whatever order */
void begin_gathering(struct gathering *to, const struct table *table);
void gather(struct gathering *to, const uint8_t *part, uint64_t size);
void gather_run(struct gathering *to, const uint8_t *run, uint64_t size);
void cell_of(const struct gathering *from, uint64_t place, uint8_t *cell);
struct reading reading_of(const struct table *table, const struct gathering *from, uint64_t place);

/* text/reading.c: the bytes of a file */
uint64_t read_file(const char *path, uint8_t *to, uint64_t room);

/* text/lines.c: the listing */
void print_listing(const struct table *table, const struct gathering *from);

/* cases/sender.c: a table of 4,096 places, and what is sent for a place of it */
struct table full_table(void);
struct quantizing send_for(const struct table *table, uint64_t place);

/* making/channel.c: what it makes of what is sent */
void put(struct capture *to, const uint8_t *bytes, uint64_t size);
void carry(const struct quantizing *sent, struct capture *to);
void put_strangers(struct capture *to);
void shuffle(struct capture *records);

/* cases/taking.c: an error of the test itself if the second program's take makes another page of a capture */
void hold_to_take(const struct table *table, const struct capture *capture, const struct gathering *gathering);

/* cases/contents.c: an error of the test itself if a capture lacks something that it must hold */
void require_contents(const struct table *table, const struct capture *capture);

/* making/run.c: the bytes of a run of coefficients */
void put_run(uint8_t *to, const uint32_t *run, uint64_t length);

/* making/files.c: the files of a case */
struct bytes {
    const uint8_t *bytes; /* none: no file */
    uint64_t size;
};
struct stored_case {
    const char *name;
    struct bytes pairing;
    struct bytes records;
    const char *text; /* the listing; none: not known here */
};
struct sent_case {
    struct stored_case listed; /* as a case of the listing; its records are what a sender must write */
    struct bytes coefficients;
    const char *refused; /* what a sender must print; none: nothing */
};
void write_file(const char *folder, const char *name, struct bytes bytes);
void write_text(const char *folder, const char *name, const char *text);
void write_case(const char *folder, const struct stored_case *stored);
void write_cases(const char *folder, const struct stored_case *cases, uint64_t number);
void write_sent_case(const char *folder, const struct sent_case *sent);

/* What is written down of a case: a file that has the bytes of an array, a number of four bytes, the bits of an f32,
   and a record. */
#define BYTES(array) {array, sizeof(array)}
#define FOUR_BYTES(number)                                                                                                                 \
    (uint8_t)((number) >> 24), (uint8_t)((number) >> 16), (uint8_t)((number) >> 8), (uint8_t)(number) /* high byte first */
#define F32(bits) FOUR_BYTES(bits)
#define RECORD(place, row, number, codeword) (uint8_t)((place) >> 8), (uint8_t)(place), row, number, FOUR_BYTES(codeword)

/* Cases of a few bytes, with their listings. Those of the files and of what is taken are in cases/small_cases.c, those
   of bad tables in cases/table_cases.c, those of what a place shows in cases/place_cases.c, by the selector of its row
   in cases/selector_cases.c and with selector 2 in cases/field_cases.c, and those of a sender in cases/sent_cases.c. */
void make_small_cases(const char *folder);
void make_table_cases(const char *folder);
void make_place_cases(const char *folder);
void make_every_codeword(const char *folder, const char *name, uint8_t selector, const char *text);
void make_selector_cases(const char *folder);
void make_field_cases(const char *folder);
void make_sent_cases(const char *folder);

/* cases/sent_full.c: the case `sent_full` */
void make_sent_full(const char *folder);

#endif
