/* The parts of the benchmark: the calls of tests/second/probe.h and the listing program, ours, against plain
   C of the same. */

#ifndef BENCH_BENCH_H
#define BENCH_BENCH_H

#include "../tests/second/draws/draws.h"
#include "../tests/second/probe.h"
#include "../tests/second/rules/sending.h"
#include "plain/plain.h"

enum {
    INPUTS = 4096, /* of each workload, compared and timed: too many for the processor to know the next by heart */
    COUNTED = 64,  /* those of them that are run step by step, but for runs and whole pages */
    NAME = 80,     /* the room for the name of a line */
    LENT_PAGE = CELL_SIZE * (MOST_PLACES * (MOST_BOOKS + 1) + 1) /* that for a page of a wrong length, too */
};

/* A call, whatever its type; what runs it knows the type. */
typedef void any_call(void);

/* Runs a call once with each of the first inputs. */
typedef void run_call(any_call *call, uint64_t inputs);

/* A call that is measured, and an empty one that is run in the same way. */
struct side {
    run_call *run;
    any_call *call;
    any_call *empty;
};

/* A call as ours and as plain C. */
struct rivals {
    const char *what;
    struct side ours;
    struct side plain;
    uint64_t counted; /* how many inputs are run step by step */
};

/* A vector that is quantized. */
struct coefficients {
    uint64_t place;
    uint64_t length;
    float values[MOST_LENGTH];
};

/* A record that arrives. */
struct record {
    uint64_t length;
    uint8_t bytes[RECORD_SIZE];
};

struct figures {
    double instructions; /* UNCOUNTED where no process can be stepped through */
    double nanoseconds;
};
#define UNCOUNTED (-1.0)

/* What the calls are measured with: a table, how many places it has, how many books share it, and the layout of the
   page. */
struct setting {
    const char *name;
    struct table table;
    uint64_t places;
    uint64_t books;
    uint64_t layout;
};

/* What the calls that are compared are given of a table: its books, and one of them, which take and collect are not
   asked for; and the layout of the page, where there is one. All three may be any numbers. */
struct sharing {
    const struct table *table;
    uint64_t books;
    uint64_t book;
    uint64_t layout;
};

/* tracing.c: how many instructions a process takes, counted one by one; UNCOUNTED where that is not possible */
double steps_of_run(run_call *run, any_call *call, uint64_t inputs);
double steps_of_program(char *const *words, const char *folder, const char *output);
int start(char *const *words, const char *folder, const char *output, int is_traced);
void wait_for(int process);

/* measuring.c: a line of the table; none unless measuring has begun */
double nanoseconds_now(void);
void begin_measuring(void);
void measure(struct rivals rivals);

/* report.c: the tables as Markdown */
void print_head(void);
void print_figures(const char *what, struct figures ours, struct figures plain);
void print_count(double count);
void print_ratio(const char *what, const char *of, double ours, double other);
void print_slow_lines(void);
_Noreturn void fail(const char *what, const char *why);

/* agreeing.c: one comparison each; their answer is returned. And how many there were. */
uint64_t agree_on_index(struct shell shell, const int32_t *point, uint64_t point_length);
uint64_t agree_on_point(struct shell shell, uint64_t index, uint64_t out_length);
uint32_t agree_on_quantize(struct sharing with, const struct coefficients *in, uint64_t record_length);
uint64_t agree_on_take(struct sharing with, uint8_t *page, uint8_t *page_of_plain, uint64_t size,
                       const struct record *in);
uint64_t agree_on_collect(struct sharing with, uint8_t *page, uint8_t *page_of_plain, uint64_t size, const uint8_t *run,
                          uint64_t length);
uint64_t agree_on_read(uint64_t mode, struct sharing with, const uint8_t *page, uint64_t size, uint64_t place,
                       uint64_t out_length);
uint64_t agree_on_conversion(struct sharing with, const uint8_t *page, uint64_t size, uint64_t other_size);
uint64_t agree_on_send(struct sharing with, const float *run, uint64_t run_length, uint64_t buffer_length);
void print_compared(void);

/* draws.c: calls with what the second program draws */
void compare_draws(void);

/* refusals.c: calls by chance, right and wrong */
void compare_calls(void);

/* empty.c: a call of each type that does nothing */
uint64_t empty_index(uint64_t selector, uint64_t length, uint64_t radius, const int32_t *point, uint64_t point_length);
struct plain_pointing empty_point(uint64_t selector, uint64_t length, uint64_t radius, uint64_t index, int32_t *out,
                                  uint64_t out_length);
uint64_t empty_point_item(uint64_t selector, uint64_t length, uint64_t radius, uint64_t index, int32_t *out, uint64_t out_length,
                          uint64_t which);
uint32_t empty_quantize(const uint8_t *table, uint64_t table_length, uint64_t books, uint64_t book, uint64_t place,
                        const float *coefficients, uint64_t coefficients_length, uint8_t *record,
                        uint64_t record_length);
uint32_t empty_take(const uint8_t *table, uint64_t table_length, uint64_t books, uint64_t layout, uint8_t *page,
                    uint64_t page_length, const uint8_t *record, uint64_t record_length);
uint64_t empty_take_item(const uint8_t *table, uint64_t table_length, uint64_t books, uint64_t layout, uint8_t *page,
                         uint64_t page_length, const uint8_t *record, uint64_t record_length, uint64_t which);
uint64_t empty_collect(const uint8_t *table, uint64_t table_length, uint64_t books, uint64_t layout, uint8_t *page,
                       uint64_t page_length, const uint8_t *bytes, uint64_t bytes_length);
struct plain_reading empty_read(uint64_t mode, const uint8_t *table, uint64_t table_length, uint64_t books,
                                uint64_t book, uint64_t layout, const uint8_t *page, uint64_t page_length,
                                uint64_t place, int32_t *out, uint64_t out_length);
uint64_t empty_read_item(uint64_t mode, const uint8_t *table, uint64_t table_length, uint64_t books, uint64_t book,
                         uint64_t layout, const uint8_t *page, uint64_t page_length, uint64_t place, int32_t *out,
                         uint64_t out_length, uint64_t which);
uint32_t empty_convert(const uint8_t *table, uint64_t table_length, uint64_t books, const uint8_t *page,
                       uint64_t page_length, uint8_t *other, uint64_t other_length);
uint64_t empty_convert_item(const uint8_t *table, uint64_t table_length, uint64_t books, const uint8_t *page,
                            uint64_t page_length, uint8_t *other, uint64_t other_length, uint64_t which);
struct plain_sending empty_send(const uint8_t *table, uint64_t table_length, uint64_t books, uint64_t book,
                                const float *run, uint64_t run_length, uint8_t *buffer, uint64_t buffer_length);
uint64_t empty_send_item(const uint8_t *table, uint64_t table_length, uint64_t books, uint64_t book, const float *run,
                         uint64_t run_length, uint8_t *buffer, uint64_t buffer_length, uint64_t which);

/* settings.c: the two tables, of one row and of 32; a table of one row for whole pages alone; those of a row with
   another enumeration than the product enumeration; a table of one row that 16 books share, while the others have one
   book; the table of one row, and that with 16 books, for pages that are kept states first, while the others are kept
   cell by cell; a table for the largest page there is; a setting with fewer places; the bytes of a page; and of a cell
   of it, but not of one of the whole pages, the place field and a record of chance */
enum { SETTINGS = 2, OTHER_ROWS = 2, MOST_CELLS = MOST_PLACES /* of the page of a setting, but for the largest */ };
extern struct setting settings[SETTINGS], long_page, other_rows[OTHER_ROWS], many_books;
extern struct setting states_first, many_books_states_first, largest_page;
void begin_settings(void);
struct setting with_places(const struct setting *with, uint64_t places);
uint64_t page_size(const struct setting *setting);
struct sharing sharing_of(const struct setting *setting, uint64_t book);
const uint8_t *row_for(const struct setting *setting, uint64_t place);
uint64_t named_index(struct shell shell);
uint64_t field_of(const struct setting *setting, uint64_t cell);
void sound_record(const struct setting *setting, uint64_t cell, uint8_t *record);

/* vectors.c: a vector for a place */
struct coefficients vector_for(const struct setting *setting, uint64_t place);

/* The workloads, each in the file that its name says: their inputs are drawn, the answers compared, and the
   calls measured */
void bench_points(void);
void bench_vectors(const struct setting *with);
void bench_takes(const struct setting *with);
void bench_reads(const struct setting *with);
void bench_overflowing_reads(const struct setting *with);
void bench_sends(const struct setting *with);
void bench_conversions(const struct setting *with);
void bench_programs(char **arguments);

#endif
