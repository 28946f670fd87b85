/* Reading: places by chance, in any of the books. Of 16 places one is missing, one contested and one unreadable, two
   are mended where a shell of the row has a codeword past the end, and the others are sound. The two are read in
   mending mode, and the others in plain mode. Then the two alone, in plain mode. */

#include "bench.h"

#include <stdio.h>

typedef struct plain_reading read_call(uint64_t mode, const uint8_t *table, uint64_t table_length, uint64_t books,
                                       uint64_t book, uint64_t layout, const uint8_t *page, uint64_t page_length,
                                       uint64_t place, int32_t *out, uint64_t out_length);
typedef uint64_t read_item_call(uint64_t mode, const uint8_t *table, uint64_t table_length, uint64_t books,
                                uint64_t book, uint64_t layout, const uint8_t *page, uint64_t page_length,
                                uint64_t place, int32_t *out, uint64_t out_length, uint64_t which);

enum { KINDS = 16, ITEM_ANSWER = 1 };

static const struct setting *setting; /* the one that is measured */
static uint64_t books[INPUTS], places[INPUTS], modes[INPUTS];
static uint8_t cells[MOST_CELLS][CELL_SIZE];
static uint8_t page[MOST_CELLS * CELL_SIZE]; /* the same in the layout of the setting */

static void run_read(any_call *call, uint64_t inputs)
{
    static int32_t out[MOST_LENGTH];
    read_call *const read_it = (read_call *)call;
    const uint64_t size = page_size(setting);
    for (uint64_t i = 0; i < inputs; i++)
        read_it(modes[i], setting->table.bytes, setting->table.size, setting->books, books[i], setting->layout, page,
                size, places[i], out, row_for(setting, places[i])[AT_LENGTH]);
}

static void run_read_item(any_call *call, uint64_t inputs)
{
    static int32_t out[MOST_LENGTH];
    read_item_call *const read_it = (read_item_call *)call;
    const uint64_t size = page_size(setting);
    for (uint64_t i = 0; i < inputs; i++)
        read_it(modes[i], setting->table.bytes, setting->table.size, setting->books, books[i], setting->layout, page,
                size, places[i], out, row_for(setting, places[i])[AT_LENGTH], ITEM_ANSWER);
}

/* The last codeword that shows a point, which is past the end but for totals of a power of two. */
static void mend(const uint8_t *row, uint8_t *record)
{
    const struct shell shell = shell_of(row, record[AT_RADIUS_NUMBER]);
    const uint64_t total = total_of(shell), power = least_power_from(total);
    uint64_t last = power - 1;
    while (last >= total && !names_point(shell, last - power / 2))
        last--;
    set_two_bytes(record + AT_CODEWORD, last >> 16);
    set_two_bytes(record + AT_CODEWORD + 2, last & 0xffff);
}

static int is_mended(uint64_t number)
{
    return number % KINDS == 3 || number % KINDS == 4;
}

static void fill_cell(uint64_t number)
{
    const uint64_t kind = number % KINDS;
    const uint64_t all = setting->places * setting->books;
    uint8_t *cell = cells[number];
    __builtin_memset(cell, 0, CELL_SIZE);
    cell[AT_STATE] = kind == 0 ? STATE_EMPTY : kind == 1 ? STATE_CONTESTED : STATE_HELD;
    if (kind > 1)
        sound_record(setting, number, cell + AT_RECORD);
    if (kind == 2)
        cell[AT_RECORD + AT_RADIUS_NUMBER] = MOST_RADII;
    if (is_mended(number))
        mend(row_for(setting, number % setting->places), cell + AT_RECORD);
    lay_cell(page, setting->layout, all, number, cell);
}

/* What is read of a cell agrees in both modes. */
static void agree_on_cell(uint64_t number)
{
    const uint64_t field = field_of(setting, number), length = row_for(setting, place_in(field))[AT_LENGTH];
    const struct sharing sharing = sharing_of(setting, book_in(field));
    for (uint64_t mode = 0; mode < MODES; mode++)
        if (agree_on_read(mode, sharing, page, page_size(setting), place_in(field), length) != 0)
            fail("read", "refused");
}

static void fill_page_of(const struct setting *with)
{
    setting = with;
    for (uint64_t number = 0; number < setting->places * setting->books; number++)
        fill_cell(number);
    for (uint64_t number = 0; number < setting->places * setting->books; number++)
        agree_on_cell(number);
}

/* The input of that number: any cell; its number is returned. */
static uint64_t draw_input(uint64_t input)
{
    const uint64_t number = chance_below(setting->places * setting->books), field = field_of(setting, number);
    books[input] = book_in(field);
    places[input] = place_in(field);
    return number;
}

static void measure_reads(const char *what)
{
    char name[NAME];
    snprintf(name, sizeof name, "%s, %s", what, setting->name);
    measure((struct rivals){name,
                            {run_read_item, (any_call *)probe_read, (any_call *)empty_read_item},
                            {run_read, (any_call *)plain_read, (any_call *)empty_read},
                            COUNTED});
}

void bench_reads(const struct setting *with)
{
    fill_page_of(with);
    for (uint64_t i = 0; i < INPUTS; i++)
        modes[i] = is_mended(draw_input(i)) ? MENDING_MODE : PLAIN_MODE;
    measure_reads("read");
}

/* Places that overflow, in plain mode. */
void bench_overflowing_reads(const struct setting *with)
{
    fill_page_of(with);
    for (uint64_t i = 0; i < INPUTS; i++) {
        uint64_t number;
        do
            number = draw_input(i);
        while (!is_overflowing(&setting->table, field_of(setting, number), cells[number]));
        modes[i] = PLAIN_MODE;
    }
    measure_reads("read past the end");
}
