/* Ours and plain C are asked the same. A difference, in the answer or in what a call is lent, is an error; else the
   answer is returned, of point, quantize, take, read, send and a conversion the refusal number, of collect how many
   takes are refused. */

#include "bench.h"

#include <stdio.h>
#include <string.h>

enum { ROOM = MOST_LENGTH + 1, GARBAGE = 0x5a }; /* the room for an output, or a record, that is too long */
enum { LEAST = 300 }; /* with each refusal of take and of a conversion, with empty shapes, modes, books, and layouts */
enum { ITEM_REFUSAL, ITEM_ANSWER, ITEM_REASON, ITEM_DISTANCE, ITEM_NAMED = 1 };

/* How often each call was compared, and how many of these comparisons were of refusals. */
static struct {
    uint64_t indices;
    uint64_t points;
    uint64_t vectors;
    uint64_t takes;
    uint64_t runs;
    uint64_t places;
    uint64_t conversions;
    uint64_t pages;
    uint64_t refused;
    uint64_t takes_refused[MOST_REFUSAL + 1];       /* with each number */
    uint64_t conversions_refused[MOST_REFUSAL + 1]; /* the same */
    uint64_t empty_points;                          /* refused with 15 */
    uint64_t empty_places;                          /* with the reason 15 */
    uint64_t overflowing_places;                    /* with the reason 6 */
    uint64_t no_modes;                              /* refused with 16 */
} compared;

/* And of the calls that are given a book, or a record that has one: how many had several books and were not refused,
   were refused with 17, and were refused with 8 for the book. */
enum call { QUANTIZE, TAKE, READ, SEND, CALLS };
static struct {
    uint64_t several;
    uint64_t outside;
    uint64_t no_book;
} shared[CALLS];

/* And of the calls that are lent a page: how many had it in each layout and were not refused, or not altogether. */
enum page_call { TAKING, COLLECTING, READING, CONVERTING, PAGE_CALLS };
static uint64_t kept[PAGE_CALLS][LAYOUTS];

static void note(uint64_t *calls, int is_refused)
{
    ++*calls;
    compared.refused += is_refused != 0;
}

static void note_books(enum call call, uint64_t books, uint64_t book, uint64_t refusal)
{
    shared[call].several += books > 1 && refusal == 0;
    shared[call].outside += refusal == 17;
    shared[call].no_book += refusal == 8 && book >= books;
}

/* Any layout but the first is states first. */
static void note_layout(enum page_call call, uint64_t layout, int is_refused)
{
    kept[call][layout == CELL_BY_CELL ? CELL_BY_CELL : STATES_FIRST] += !is_refused;
}

static void require_books(void)
{
    for (enum call call = 0; call < CALLS; call++)
        if (shared[call].several < LEAST || shared[call].outside < LEAST || shared[call].no_book < LEAST)
            fail("quantize, take, read or send", "books that are hardly compared");
}

static void require_layouts(void)
{
    for (enum page_call call = 0; call < PAGE_CALLS; call++)
        if (kept[call][CELL_BY_CELL] < LEAST || kept[call][STATES_FIRST] < LEAST)
            fail("take, collect, read or a conversion", "a layout that is hardly compared");
}

/* Each of so many refusals, by how often there was each number. */
static void require_refusals(const char *call, const uint64_t *refused, const uint64_t *refusals, uint64_t number)
{
    for (uint64_t i = 0; i < number; i++)
        if (refused[refusals[i]] < LEAST)
            fail(call, "a refusal that is hardly compared");
}

/* Every refusal of take and of a conversion must be among them, 15 of point and of read, 6 and 16 of read, all that
   books bring, and both layouts. */
void print_compared(void)
{
    const uint64_t of_take[] = {17, 7, 4, 8, 9, 12}, of_conversion[] = {17, 7, 4};
    require_refusals("take", compared.takes_refused, of_take, ENTRIES(of_take));
    require_refusals("conversion", compared.conversions_refused, of_conversion, ENTRIES(of_conversion));
    require_books();
    require_layouts();
    if (compared.empty_points < LEAST || compared.empty_places < LEAST)
        fail("point or read", "empty shapes that are hardly compared");
    if (compared.overflowing_places < LEAST || compared.no_modes < LEAST)
        fail("read", "modes that are hardly compared");
    printf("%lu indices, %lu points, %lu vectors, ", compared.indices, compared.points, compared.vectors);
    printf("%lu takes, %lu runs, %lu places, ", compared.takes, compared.runs, compared.places);
    printf("%lu conversions, %lu sent pages, ", compared.conversions, compared.pages);
    printf("%lu of all these refused, or with a refused take\n", compared.refused);
}

static void hold(const char *call, uint64_t ours, uint64_t plain, int are_same)
{
    if (ours != plain || !are_same)
        fail(call, "ours and plain C differ");
}

uint64_t agree_on_index(struct shell shell, const int32_t *point, uint64_t point_length)
{
    const uint64_t ours = probe_index(shell.selector, shell.length, shell.radius, point, point_length);
    hold("index", ours, plain_index(shell.selector, shell.length, shell.radius, point, point_length), 1);
    note(&compared.indices, ours >= REFUSED);
    return ours;
}

/* Of refusal 6 the distance is compared too. */
uint64_t agree_on_point(struct shell shell, uint64_t index, uint64_t out_length)
{
    int32_t one[ROOM], other[ROOM];
    uint64_t ours[ITEM_NAMED + 1];
    __builtin_memset(one, GARBAGE, sizeof one);
    __builtin_memset(other, GARBAGE, sizeof other);
    const struct plain_pointing plain = plain_point(shell.selector, shell.length, shell.radius, index, other, out_length);
    for (uint64_t item = ITEM_REFUSAL; item <= ITEM_NAMED; item++)
        ours[item] = probe_point(shell.selector, shell.length, shell.radius, index, one, out_length, item);
    hold("point", ours[ITEM_REFUSAL], plain.refusal, memcmp(one, other, sizeof one) == 0);
    hold("distance that point names", ours[ITEM_NAMED], plain.distance, 1);
    note(&compared.points, plain.refusal != 0);
    compared.empty_points += plain.refusal == 15;
    return plain.refusal;
}

uint32_t agree_on_quantize(struct sharing with, const struct coefficients *in, uint64_t record_length)
{
    const struct table *table = with.table;
    uint8_t one[ROOM], other[ROOM];
    __builtin_memset(one, GARBAGE, sizeof one);
    __builtin_memset(other, GARBAGE, sizeof other);
    const uint32_t ours = probe_quantize(table->bytes, table->size, with.books, with.book, in->place, in->values,
                                         in->length, one, record_length);
    const uint32_t plain = plain_quantize(table->bytes, table->size, with.books, with.book, in->place, in->values,
                                          in->length, other, record_length);
    hold("quantize", ours, plain, memcmp(one, other, sizeof one) == 0);
    note(&compared.vectors, ours != 0);
    note_books(QUANTIZE, with.books, with.book, ours);
    return ours;
}

/* Each takes the record into its own page. */
uint64_t agree_on_take(struct sharing with, uint8_t *page, uint8_t *page_of_plain, uint64_t size,
                       const struct record *in)
{
    const struct table *table = with.table;
    const uint64_t ours = probe_take(table->bytes, table->size, with.books, with.layout, page, size, in->bytes,
                                     in->length, ITEM_REFUSAL);
    const uint32_t plain = plain_take(table->bytes, table->size, with.books, with.layout, page_of_plain, size,
                                      in->bytes, in->length);
    hold("take", ours, plain, memcmp(page, page_of_plain, size) == 0);
    note(&compared.takes, ours != 0);
    note_books(TAKE, with.books, book_in(field_in(in->bytes)), ours);
    note_layout(TAKING, with.layout, ours != 0);
    compared.takes_refused[ours]++;
    return ours;
}

/* Each takes the run into its own page. */
uint64_t agree_on_collect(struct sharing with, uint8_t *page, uint8_t *page_of_plain, uint64_t size, const uint8_t *run,
                          uint64_t length)
{
    const struct table *table = with.table;
    const uint64_t ours = probe_collect(table->bytes, table->size, with.books, with.layout, page, size, run, length);
    const uint64_t plain =
        plain_collect(table->bytes, table->size, with.books, with.layout, page_of_plain, size, run, length);
    hold("collect", ours, plain, memcmp(page, page_of_plain, size) == 0);
    note(&compared.runs, ours != 0);
    note_layout(COLLECTING, with.layout, ours * RECORD_SIZE >= length);
    return ours;
}

/* Of an answer the number, the reason and the distance are compared too. */
uint64_t agree_on_read(uint64_t mode, struct sharing with, const uint8_t *page, uint64_t size, uint64_t place,
                       uint64_t out_length)
{
    const struct table *table = with.table;
    int32_t one[ROOM], other[ROOM];
    uint64_t ours[ITEM_DISTANCE + 1];
    __builtin_memset(one, GARBAGE, sizeof one);
    __builtin_memset(other, GARBAGE, sizeof other);
    const struct plain_reading plain = plain_read(mode, table->bytes, table->size, with.books, with.book, with.layout,
                                                  page, size, place, other, out_length);
    for (uint64_t item = ITEM_REFUSAL; item <= ITEM_DISTANCE; item++)
        ours[item] = probe_read(mode, table->bytes, table->size, with.books, with.book, with.layout, page, size, place,
                                one, out_length, item);
    hold("read", ours[ITEM_REFUSAL], plain.refusal, memcmp(one, other, sizeof one) == 0);
    if (plain.refusal == 0) {
        hold("answer of read", ours[ITEM_ANSWER], plain.answer, 1);
        hold("reason of read", ours[ITEM_REASON], plain.reason, 1);
        hold("distance of read", ours[ITEM_DISTANCE], plain.distance, 1);
    }
    note(&compared.places, plain.refusal != 0);
    note_books(READ, with.books, with.book, plain.refusal);
    note_layout(READING, with.layout, plain.refusal != 0);
    compared.no_modes += plain.refusal == 16;
    compared.empty_places += plain.refusal == 0 && plain.reason == 15;
    compared.overflowing_places += plain.refusal == 0 && plain.reason == 6;
    return plain.refusal;
}

/* A page into the layout that it does not have. */
uint64_t agree_on_conversion(struct sharing with, const uint8_t *page, uint64_t size, uint64_t other_size)
{
    static uint8_t one[LENT_PAGE + SPARE], other[LENT_PAGE + SPARE];
    const struct table *table = with.table;
    const int is_first = with.layout == CELL_BY_CELL;
    __builtin_memset(one, GARBAGE, other_size + SPARE);
    __builtin_memset(other, GARBAGE, other_size + SPARE);
    const uint64_t ours = (is_first ? probe_to_states_first : probe_to_cell_by_cell)(
        table->bytes, table->size, with.books, page, size, one, other_size, ITEM_REFUSAL);
    const uint32_t plain = (is_first ? plain_to_states_first : plain_to_cell_by_cell)(
        table->bytes, table->size, with.books, page, size, other, other_size);
    hold("conversion", ours, plain, memcmp(one, other, other_size + SPARE) == 0);
    note(&compared.conversions, ours != 0);
    note_layout(CONVERTING, with.layout, ours != 0);
    compared.conversions_refused[ours]++;
    return ours;
}

/* Of refusal 11 the place and the coordinate are compared too. */
uint64_t agree_on_send(struct sharing with, const float *run, uint64_t run_length, uint64_t buffer_length)
{
    static uint8_t one[MOST_BUFFER + SPARE], other[MOST_BUFFER + SPARE];
    const struct table *table = with.table;
    uint64_t ours[SENT_ITEMS];
    __builtin_memset(one, GARBAGE, sizeof one);
    __builtin_memset(other, GARBAGE, sizeof other);
    const struct plain_sending plain =
        plain_send(table->bytes, table->size, with.books, with.book, run, run_length, other, buffer_length);
    for (uint64_t item = 0; item < SENT_ITEMS; item++)
        ours[item] =
            probe_send(table->bytes, table->size, with.books, with.book, run, run_length, one, buffer_length, item);
    hold("send", ours[0], plain.refusal, memcmp(one, other, sizeof one) == 0);
    if (plain.refusal == 11) {
        hold("place that send names", ours[1], plain.place, 1);
        hold("coordinate that send names", ours[2], plain.coordinate, 1);
    }
    note(&compared.pages, plain.refusal != 0);
    note_books(SEND, with.books, with.book, plain.refusal);
    return plain.refusal;
}
