/* Taking: records for a page that has heard of every place, one by one, and all of them as a run. Of 16 records 13 are
   for places by chance, in any of the books, of which every fourth is contested and the others hold this very record;
   one is for no place of the table or no book of the page, one is of a foreign row, and one is a byte short. In a run
   only the last one is short. So each take leaves the page as it is, however often it is run. That a place is held or
   contested comes about before, and is compared. */

#include "bench.h"

#include <stdio.h>

typedef uint32_t take_call(const uint8_t *table, uint64_t table_length, uint64_t books, uint64_t layout, uint8_t *page,
                           uint64_t page_length, const uint8_t *record, uint64_t record_length);
typedef uint64_t take_item_call(const uint8_t *table, uint64_t table_length, uint64_t books, uint64_t layout,
                                uint8_t *page, uint64_t page_length, const uint8_t *record, uint64_t record_length,
                                uint64_t which);
typedef uint64_t collect_call(const uint8_t *table, uint64_t table_length, uint64_t books, uint64_t layout,
                              uint8_t *page, uint64_t page_length, const uint8_t *bytes, uint64_t bytes_length);

/* What is wrong with a record; nothing with most of them. */
enum { NO_PLACE, FOREIGN_ROW, SHORT, RIGHT, KINDS = 16, CONTESTED_IN = 4 };

static const struct setting *setting; /* the one that is measured */
static struct record arrivals[INPUTS];
static uint8_t run[RECORD_SIZE * INPUTS]; /* their bytes */
static struct record first[MOST_CELLS];          /* the first that comes for each cell */
static uint8_t pages[2][MOST_CELLS * CELL_SIZE]; /* ours, and that of plain C */

static void run_take(any_call *call, uint64_t inputs)
{
    take_call *const take_it = (take_call *)call;
    const uint64_t size = page_size(setting);
    for (const struct record *in = arrivals; in < arrivals + inputs; in++)
        take_it(setting->table.bytes, setting->table.size, setting->books, setting->layout, pages[1], size, in->bytes,
                in->length);
}

static void run_take_item(any_call *call, uint64_t inputs)
{
    take_item_call *const take_it = (take_item_call *)call;
    const uint64_t size = page_size(setting);
    for (const struct record *in = arrivals; in < arrivals + inputs; in++)
        take_it(setting->table.bytes, setting->table.size, setting->books, setting->layout, pages[0], size, in->bytes,
                in->length, 0);
}

static void run_collect(any_call *call, uint64_t inputs)
{
    collect_call *const collect_it = (collect_call *)call;
    collect_it(setting->table.bytes, setting->table.size, setting->books, setting->layout, pages[0],
               page_size(setting), run, RECORD_SIZE * inputs - 1);
}

static uint64_t agree(const struct record *in)
{
    return agree_on_take(sharing_of(setting, 0), pages[0], pages[1], page_size(setting), in);
}

/* The first record for each place of each book; then another one where the place is to be contested. */
static void fill_pages(void)
{
    __builtin_memset(pages, 0, sizeof pages);
    for (uint64_t cell = 0; cell < setting->places * setting->books; cell++) {
        first[cell].length = RECORD_SIZE;
        sound_record(setting, cell, first[cell].bytes);
        struct record other = first[cell];
        other.bytes[AT_CODEWORD]++;
        if (agree(&first[cell]) != 0 || (cell % CONTESTED_IN == 0 && agree(&other) != 0))
            fail("take", "refused");
    }
}

/* A place field of no cell: its book is not below the number of books, or its place is not in the table. */
static uint64_t no_field(void)
{
    uint64_t field;
    do
        field = chance_below(MOST_BOOKS * MOST_PLACES);
    while (book_in(field) < setting->books && place_in(field) < setting->places);
    return field;
}

static struct record record_of_kind(uint64_t kind)
{
    struct record in = first[chance_below(setting->places * setting->books)];
    if (kind == NO_PLACE)
        set_two_bytes(in.bytes + AT_PLACE, no_field());
    if (kind == FOREIGN_ROW)
        in.bytes[AT_ROW]++;
    if (kind == SHORT)
        in.length = RECORD_SIZE - 1;
    return in;
}

static void draw_arrivals(void)
{
    const uint64_t refusals[] = {[NO_PLACE] = 8, [FOREIGN_ROW] = 9, [SHORT] = 4, [RIGHT] = 0};
    for (uint64_t i = 0; i < INPUTS; i++) {
        const uint64_t kind = i % KINDS;
        arrivals[i] = record_of_kind(kind);
        if (agree(&arrivals[i]) != refusals[kind < RIGHT ? kind : RIGHT])
            fail("take", "refused or not, as was not meant");
        __builtin_memcpy(run + RECORD_SIZE * i, arrivals[i].bytes, RECORD_SIZE);
    }
}

/* Of each 16 records those without a place and of a foreign row are refused, and so is the last one, which is short. */
static void compare_run(void)
{
    const uint64_t size = page_size(setting), refused = 2 * (INPUTS / KINDS) + 1;
    if (agree_on_collect(sharing_of(setting, 0), pages[0], pages[1], size, run, sizeof run - 1) != refused)
        fail("collect", "others refused than was meant");
}

/* The figures are those of one record, with its part of what is done once for the run. */
static void measure_collect(void)
{
    char what[NAME];
    snprintf(what, sizeof what, "collect, %s, a record", setting->name);
    measure((struct rivals){what,
                            {run_collect, (any_call *)probe_collect, (any_call *)empty_collect},
                            {run_collect, (any_call *)plain_collect, (any_call *)empty_collect},
                            INPUTS});
}

/* A run is measured into one book alone. */
void bench_takes(const struct setting *with)
{
    char what[NAME];
    setting = with;
    fill_pages();
    draw_arrivals();
    compare_run();
    snprintf(what, sizeof what, "take, %s", setting->name);
    measure((struct rivals){what,
                            {run_take_item, (any_call *)probe_take, (any_call *)empty_take_item},
                            {run_take, (any_call *)plain_take, (any_call *)empty_take},
                            COUNTED});
    if (setting->books == 1)
        measure_collect();
}
