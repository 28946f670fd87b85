/* What a call is lent among guards, the words for a difference, and the errors of a test that compared too little.
   Nothing here calls what is under test, so that every test can use it. */

#ifndef SECOND_LENT_H
#define SECOND_LENT_H

#include "../rules/page.h"

/* A lent table among guards; what of `bytes` is beyond its size guards it too. */
struct table_room {
    uint8_t front[GUARDS];
    uint8_t bytes[ROW_SIZE * MOST_LENT_ROWS];
    uint8_t back[GUARDS];
};

/* A lent point among guards: it begins at cells + GUARDS. */
struct point_room {
    int32_t cells[GUARDS + MOST_LENT + GUARDS];
};

/* What arrives, among guards; what of `bytes` is beyond its length guards it too. */
struct arrival_room {
    uint8_t front[GUARDS];
    uint8_t bytes[MOST_ARRIVAL];
    uint8_t back[GUARDS];
};

/* A comparison of take, or of collect, under way. */
struct taking {
    const struct table *table;
    struct page *page;
    const struct arrival *arrival;
    const uint8_t *before; /* the cell that take looks at, as it was; null for collect */
    struct list expected;
};

/* lent.c: a table among guards, and the words */
void set_guards(uint8_t *front, uint8_t *back);
struct table_room table_among_guards(const struct table *table);
int same_table(const struct table_room *one, const struct table_room *other);
int64_t first_other_byte(const void *one, const void *other);
uint64_t as_answer(uint32_t number);
void print_bytes(const char *what, const uint8_t *bytes, uint64_t size);
void print_table(const char *call, const struct table *table);
_Noreturn void differ(uint64_t expected, uint64_t got);
_Noreturn void end(const char *last_words);

/* lent_list.c: an item of what a call answers, and a wrong one */
uint64_t any_item(void);
uint64_t item_of(struct list list, uint64_t which);
_Noreturn void wrong_item(struct list expected, uint64_t which, uint64_t got);

/* lent_point.c: a point among guards */
struct point_room garbage(void);
struct point_room garbage_around(const int32_t *point, uint64_t length);
int same_points(const struct point_room *one, const struct point_room *other);
void print_point(const char *what, const int32_t *point, uint64_t length);
_Noreturn void wrong_output(const struct point_room *room, const int32_t *point, uint64_t length);

/* lent_page.c: a page after a call */
int is_page_as_it_must_be(const struct page *page, int lent);
_Noreturn void wrong_page(const struct page *page, int lent);

/* lent_take.c: what take, or collect, is lent, and what it must be afterwards */
struct arrival_room arrival_among_guards(const struct arrival *arrival);
void copy_named(const struct page *page, const struct arrival *arrival, uint8_t *cell);
void print_taking(const char *call, const struct taking *taking);
void compare_taking(const char *call, const struct taking *taking, int lent, const struct table_room *table,
                    const struct arrival_room *arrival);

/* lent_question.c: what is lent, by a null pointer where that is asked for and it has no elements; what was asked; and
   the table and the page after calls that may not write there */
const uint8_t *lent_table(const struct table *table, const struct table_room *room, int by_null);
const uint8_t *lent_page(const struct page *page, int by_null);
void print_book_asked(const char *name, const struct question *question);
void print_question(const char *name, const struct question *question, const char *what);
void compare_lent(const char *name, const struct question *question, const struct table_room *table);

/* required.c: an error of the test itself where too few of anything were compared */
void require(uint64_t counted, uint64_t least, const char *things, const char *what);
void require_number(uint64_t counted, uint64_t least, const char *what, uint64_t number);
void require_shell(uint64_t counted, uint64_t least, const char *what, struct shell shell);

#endif
