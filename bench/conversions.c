/* Converting: whole pages of any bytes, from cell by cell to states first and back. The figures are those of one place
   in all books: of a page they are as many times more as each book has places. */

#include "bench.h"

#include <stdio.h>

typedef uint32_t convert_call(const uint8_t *table, uint64_t table_length, uint64_t books, const uint8_t *page,
                              uint64_t page_length, uint8_t *other, uint64_t other_length);
typedef uint64_t convert_item_call(const uint8_t *table, uint64_t table_length, uint64_t books, const uint8_t *page,
                                   uint64_t page_length, uint8_t *other, uint64_t other_length, uint64_t which);

enum { MOST_BYTES = CELL_SIZE * MOST_BOOKS * MOST_PLACES };

static struct setting whole, part; /* the page that is timed, and one of fewer places that is run step by step */
static uint8_t page[MOST_BYTES], other[MOST_BYTES];

/* The whole page, as often as it has so many places; or the part of it, if there are fewer. */
static void run_convert(any_call *call, uint64_t places)
{
    convert_call *const convert_it = (convert_call *)call;
    const struct setting *of = places < whole.places ? &part : &whole;
    for (uint64_t done = 0; done < places; done += of->places)
        convert_it(of->table.bytes, of->table.size, of->books, page, page_size(of), other, page_size(of));
}

static void run_convert_item(any_call *call, uint64_t places)
{
    convert_item_call *const convert_it = (convert_item_call *)call;
    const struct setting *of = places < whole.places ? &part : &whole;
    for (uint64_t done = 0; done < places; done += of->places)
        convert_it(of->table.bytes, of->table.size, of->books, page, page_size(of), other, page_size(of), 0);
}

/* The same bytes, as a page of the one layout and of the other. */
static void compare_pages(struct setting setting)
{
    for (setting.layout = 0; setting.layout < LAYOUTS; setting.layout++)
        if (agree_on_conversion(sharing_of(&setting, 0), page, page_size(&setting), page_size(&setting)) != 0)
            fail("conversion", "refused");
}

static void measure_conversion(const char *way, any_call *ours, any_call *plain)
{
    char what[NAME];
    snprintf(what, sizeof what, "%s, %s, %lu cells", way, whole.name, whole.books);
    measure((struct rivals){what,
                            {run_convert_item, ours, (any_call *)empty_convert_item},
                            {run_convert, plain, (any_call *)empty_convert},
                            COUNTED});
}

void bench_conversions(const struct setting *with)
{
    whole = *with;
    part = with_places(with, COUNTED);
    for (uint64_t i = 0; i < page_size(&whole); i++)
        page[i] = (uint8_t)chance_below(256);
    compare_pages(whole);
    compare_pages(part);
    measure_conversion("to states first", (any_call *)probe_to_states_first, (any_call *)plain_to_states_first);
    measure_conversion("to cell by cell", (any_call *)probe_to_cell_by_cell, (any_call *)plain_to_cell_by_cell);
}
