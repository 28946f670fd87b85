/* The comparisons of the second program: these files alone call what is under test, by probe.h. */

#ifndef SECOND_COMPARISONS_H
#define SECOND_COMPARISONS_H

#include "../draws/page_draws.h"
#include "../kinds/lent.h"
#include "../probe.h"
#include "../rules/sending.h"

/* compare.c: one comparison each; an expected answer may be REFUSED and a refusal number */
struct comparisons {
    uint64_t counts;
    uint64_t indices;
    uint64_t points;
    uint64_t tables;
    uint64_t vectors;
    uint64_t takes;
    uint64_t runs;
    uint64_t places;
    uint64_t coefficients;
    uint64_t tallies;
    uint64_t lines;         /* calls of lines that are answered */
    uint64_t conversions;
    uint64_t modes;         /* questions in both modes that are answered */
    uint64_t books_apart;   /* books that are held apart from the others of their page */
    uint64_t layouts;       /* calls that are held to each other in both layouts */
    uint64_t calls_of_page; /* how many calls the last ten took */
    uint64_t sends;
    uint64_t refusals[MOST_REFUSAL + 1];
    uint64_t of_index[MOST_REFUSAL + 1]; /* of these those of index, and 0 for what it answers */
    uint64_t of_point[MOST_REFUSAL + 1]; /* of these those of point */
};
extern struct comparisons compared;
void expect_count(struct shell shell, uint64_t expected);
void expect_index(struct shell shell, const int32_t *point, uint64_t point_length, uint64_t expected);
void expect_point(struct shell shell, uint64_t index, const int32_t *expected);
void expect_point_refused(struct shell shell, uint64_t index, uint64_t out_length, uint32_t refusal);
void expect_refused_without_buffer(struct shell shell, uint64_t index, uint32_t refusal);
void expect_check(const struct table *table, uint32_t refusal, uint64_t value);
void expect_check_without_table(void);
void expect_quantize(const struct vector *vector, const struct answer *expected);
void require_refusals(void);
void read_point(struct shell shell, uint64_t index, int32_t *point);
_Noreturn void wrong_point(struct shell shell, uint64_t index, const int32_t *point, const char *what);
void note(uint64_t expected, uint64_t *kind);

/* compare_page.c: one comparison of take, of collect or of a conversion, of which the layout of the page says which,
   with the rules of the page, whose answer is returned */
struct list compare_take(const struct table *table, struct page *page, const struct arrival *arrival);
uint64_t compare_run(const struct table *table, struct page *page, const struct arrival *run);
struct list compare_conversion(const struct conversion *asked);

/* compare_reading.c: one comparison of read, coefficient, the tally or lines */
struct list compare_read(const struct question *question);
struct list compare_coefficient(const struct question *question);
struct list compare_tally(const struct question *question);
struct list compare_lines(const struct question *question);

/* modes.c: the same in both modes, whatever mode the question has, and held against each other; and lengths of a buffer
   for lines */
void compare_reads(const struct question *question);
void compare_coefficients(const struct question *question);
void compare_both_tallies(const struct question *question);
void compare_both_lines(const struct question *question);
uint64_t text_length_by_chance(void);

/* compare_send.c: one comparison of send with the rules, whose refusal is returned; and of a page that is not
   refused, with what its receiver has */
uint64_t compare_send(const struct sending *sending);
void compare_send_received(const struct sending *sending);

/* tables.c: the table of the whole case; docs/RULES.md, "Worked cases" */
extern const struct table pairing_bin;

/* vectors.c: any vector, held to the program's own quantizer, whose refusal is returned */
uint32_t compare_vector(const struct vector *vector);

/* All that is compared, each in the file that its name says; first without the page, then of the page, then whole
   pages that are sent */
void compare_examples(void);
void compare_listing(void);
void compare_ends(void);
void compare_random(void);
void compare_refusals(void);
void compare_sums(void);
void compare_tables(void);
void compare_vectors(void);
void compare_nearest(void);
void compare_checks(void);
void compare_pages(void);
void compare_empty_shapes(void);
void compare_small_shells(void);
void compare_takes(void);
void compare_runs(void);
void compare_places(void);
void compare_tallies(void);
void compare_page_checks(void);
void compare_books(void);
void compare_books_apart(void);
void compare_conversions(void);
void compare_layouts(void);
void compare_sends(void);

#endif
