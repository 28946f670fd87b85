/* Calls by chance, many of them refused: plain C makes every check that ours makes, in the same order. */

#include "../tests/second/draws/page_draws.h"
#include "bench.h"

enum { CALLS = 20000, MOST_RECORDS = 3, CONVERTED_IN = 4 /* one page of so many is converted */ };

/* A table, its books, a place of one of them that a call is asked about, and the layout of the page. */
struct asked {
    struct table table;
    uint64_t places; /* of a good table */
    uint64_t books;
    uint64_t book;
    uint64_t place;
    uint64_t row;    /* of the place, where there is one */
    uint64_t length; /* of that row */
    uint64_t layout;
};

static uint8_t pages[2][LENT_PAGE];

/* The right number, or one beside it. */
static uint64_t beside(uint64_t right)
{
    return chance_below(8) ? right : right - 1 + chance_below(3);
}

/* Mostly the right number; else one beside it, or one that is right only where a number is cut. */
static uint64_t beside_or_cut(uint64_t right)
{
    const uint64_t cut[] = {256, 65536, TWO_TO_32, TWO_TO_63};
    return chance_below(8) ? beside(right) : right + cut[chance_below(ENTRIES(cut))];
}

/* A shell, usable or not, a vector whose magnitudes often sum to its radius, and indices, one of them far past the
   end. */
static void try_points(void)
{
    const struct shell shell = {chance_below(MOST_LENGTH + 2), chance_below(MOST_RADIUS + 2),
                                beside_or_cut(chance_below(SELECTORS))};
    const uint64_t total = shell.length <= MOST_LENGTH && shell.radius <= MOST_RADIUS ? total_of(shell) : 0;
    int32_t point[MOST_LENGTH + 2] = {0};
    for (uint64_t left = beside(shell.radius); left > 0 && left <= MOST_RADIUS; left--)
        point[chance_below(shell.length + 1)]++;
    for (uint64_t i = 0; i < shell.length; i++)
        point[i] = chance_below(2) ? -point[i] : point[i];
    if (chance_below(16) == 0)
        point[chance_below(shell.length + 1)] = INT32_MIN;
    agree_on_index(shell, point, beside(shell.length));
    agree_on_point(shell, chance_below(2) ? beside(total) : chance_below(total + 1), beside(shell.length));
    agree_on_point(shell, UINT64_MAX - total, shell.length);
}

static struct asked asked_by_chance(void)
{
    struct asked asked = {.table = chance_below(4) ? good_table_by_chance() : table_by_chance(),
                          .layout = layout_by_chance()};
    const struct table *table = &asked.table;
    const uint64_t books = 1 + chance_below(MOST_BOOKS);
    asked.places = plain_survey(table->bytes, table->size, 0).places;
    asked.books = beside_or_cut(books);
    asked.book = beside_or_cut(chance_below(books));
    asked.place = beside(chance_below(asked.places + 1));
    if (asked.place < asked.places) {
        asked.row = plain_survey(table->bytes, table->size, asked.place).row;
        asked.length = table->bytes[asked.row * ROW_SIZE + AT_LENGTH];
    }
    return asked;
}

/* Many in the middle of two whole numbers, some at the first unusable one. */
static float coefficient_by_chance(void)
{
    const float sign = chance_below(2) ? -1 : 1;
    const uint32_t bits = BITS_BELOW_32768 + (uint32_t)chance_below(2);
    float edge;
    __builtin_memcpy(&edge, &bits, sizeof bits);
    return sign * (chance_below(64) ? (float)chance_below(4096) / 512 : edge);
}

static struct sharing sharing_asked(const struct asked *asked)
{
    return (struct sharing){&asked->table, asked->books, asked->book, asked->layout};
}

static void try_vector(const struct asked *asked)
{
    struct coefficients in = {.place = asked->place, .length = beside(asked->length)};
    for (int i = 0; i < MOST_LENGTH; i++)
        in.values[i] = coefficient_by_chance();
    agree_on_quantize(sharing_asked(asked), &in, beside(RECORD_SIZE));
}

/* The same record again and again, and at times a part of it at the end. */
static void try_run(const struct asked *asked, uint64_t size, const struct record *in)
{
    uint8_t run[MOST_RECORDS * RECORD_SIZE];
    for (uint64_t i = 0; i < sizeof run; i++)
        run[i] = in->bytes[i % RECORD_SIZE];
    agree_on_collect(sharing_asked(asked), pages[0], pages[1], size, run, chance_below(sizeof run + 1));
}

/* The right size, or one beside it: also for no book, and for one more than there may be. For more books than that the
   page has one. */
static uint64_t size_by_chance(const struct asked *asked)
{
    const uint64_t places = asked->places > 0 ? asked->places : 1;
    const uint64_t books = asked->books <= MOST_BOOKS + 1 ? asked->books : 1;
    return books > 0 ? beside(CELL_SIZE * places * books) : 0;
}

/* The cell that is asked for: any state, and a record that is the cell's own or one of a place, a book or a row beside
   it. The same record arrives. */
static void fill_cell(const struct asked *asked, struct record *in)
{
    const uint64_t cells = asked->places * asked->books, number = asked->book * asked->places + asked->place;
    const uint64_t field = place_field(beside(asked->book), beside(asked->place)) & 0xffff;
    uint8_t cell[CELL_SIZE] = {[AT_STATE] = (uint8_t)chance_below(4)};
    write_record(cell + AT_RECORD, field, beside(asked->row) & 0xff, chance_below(4), chance_below(64));
    __builtin_memcpy(in->bytes, cell + AT_RECORD, RECORD_SIZE);
    lay_cell(pages[0], asked->layout, cells, number, cell);
    lay_cell(pages[1], asked->layout, cells, number, cell);
}

/* A cell of any state, a record for it that is the one that it holds or another, alone and in a run, and what is then
   read there. */
static void try_cell(const struct asked *asked)
{
    const uint64_t size = size_by_chance(asked), mode = chance_below(8) ? chance_below(MODES) : no_mode_by_chance();
    struct record in = {.length = beside(RECORD_SIZE)};
    set_two_bytes(in.bytes + AT_PLACE, place_field(asked->book, asked->place) & 0xffff);
    if (asked->place < asked->places && asked->book < MOST_BOOKS && asked->books <= MOST_BOOKS + 1)
        fill_cell(asked, &in);
    in.bytes[chance_below(RECORD_SIZE)] ^= (uint8_t)chance_below(2);
    agree_on_take(sharing_asked(asked), pages[0], pages[1], size, &in);
    try_run(asked, size, &in);
    agree_on_read(mode, sharing_asked(asked), pages[0], size, asked->place, beside(asked->length));
}

/* With what the calls before have left in the page. Either page may have a wrong size. */
static void try_conversion(const struct asked *asked)
{
    const uint64_t size = size_by_chance(asked), other_size = size_by_chance(asked);
    agree_on_conversion(sharing_asked(asked), pages[0], size, other_size);
}

void compare_calls(void)
{
    for (int i = 0; i < CALLS; i++) {
        const struct asked asked = asked_by_chance();
        try_points();
        try_vector(&asked);
        try_cell(&asked);
        if (i % CONVERTED_IN == 0)
            try_conversion(&asked);
    }
}
