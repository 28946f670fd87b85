/* The page: the whole case of docs/RULES.md, "Worked cases", in each layout, also with codeword 20, and the same in
   rows of the other selectors, in both modes; empty shapes; every codeword of small shells; and then all that is
   compared by chance, of one book and of several and in each layout, in the files that are named so. The draws begin
   anew here, so that they do not depend on the comparisons before. */

#include "../kinds/page_kinds.h"
#include "comparisons.h"

#include <stdio.h>
#include <string.h>

enum { SEED = 4096, LEAST_IN_BOTH_MODES = 1500000, LEAST_LINES = 150000 };

/* `records.bin`, what the page holds then, and how its places are read by each selector in mending mode; last place 1
   with codeword 20. In plain mode the mended ones are unreadable 6. */
static const uint8_t records_bin[] = {0, 0, 0, 1, 0, 0, 0, 0x05, 0, 1, 0, 1, 0, 0, 0, 0x12};
static const uint8_t page_wanted[LAYOUTS][18] = {
    [CELL_BY_CELL] = {1, 0, 0, 0, 1, 0, 0, 0, 0x05, 1, 0, 1, 0, 1, 0, 0, 0, 0x12},
    [STATES_FIRST] = {1, 1, 0, 0, 0, 1, 0, 0, 0, 0x05, 0, 1, 0, 1, 0, 0, 0, 0x12},
};
static const uint64_t tally_wanted[MODES][ITEMS] = {[PLAIN_MODE] = {0, 1, 0, 0, 0, 1}, [MENDING_MODE] = {0, 1, 1, 0, 0, 0}};
static const struct {
    struct list list;
    int32_t point[3];
    uint32_t values[3];
} wanted[SELECTORS][3] = {
    [PRODUCT] = {{{{0, SOUND}}, {1, 0, -1}, {BITS_OF_1, 0, MINUS(BITS_OF_1)}},
                 {{{0, MENDED}}, {0, -1, 1}, {0, MINUS(BITS_OF_1), BITS_OF_1}},
                 {{{0, MENDED, 0, 2}}, {1, 0, 1}, {BITS_OF_1, 0, BITS_OF_1}}},
    [MAGNITUDE] = {{{{0, SOUND}}, {0, -1, -1}, {0, MINUS(BITS_OF_1), MINUS(BITS_OF_1)}},
                   {{{0, MENDED}}, {0, 1, 1}, {0, BITS_OF_1, BITS_OF_1}},
                   {{{0, MENDED, 0, 2}}, {0, -1, 1}, {0, MINUS(BITS_OF_1), BITS_OF_1}}},
    [PRODUCT_PRODUCT] = {{{{0, SOUND}}, {1, 0, -1}, {BITS_OF_1, 0, MINUS(BITS_OF_1)}},
                         {{{0, MENDED}}, {0, -1, 1}, {0, MINUS(BITS_OF_1), BITS_OF_1}},
                         {{{0, MENDED, 0, 2}}, {1, 0, 1}, {BITS_OF_1, 0, BITS_OF_1}}},
};
enum { PLACES = 2, WITH_CODEWORD_20 = 2, LENGTH = 3 };

static struct page page;
static struct table table; /* of the whole case, with a selector */

/* What is wanted in a mode. */
static struct list wanted_in(uint64_t mode, uint64_t number)
{
    const struct list mending = wanted[table.bytes[AT_SELECTOR]][number].list;
    if (mode == PLAIN_MODE && mending.items[1] == MENDED)
        return (struct list){{0, UNREADABLE, 6, mending.items[3]}};
    return mending;
}

static void hold_list(const char *what, uint64_t mode, struct list list, uint64_t number)
{
    const struct list in_mode = wanted_in(mode, number);
    own_figure(what, memcmp(&list, &in_mode, sizeof list) != 0, 0);
}

/* One place of the whole case in one mode, by the program's own rules: it is read as what has this number. */
static void hold_place(uint64_t mode, uint64_t place, uint64_t number)
{
    const uint8_t selector = table.bytes[AT_SELECTOR];
    const int is_shown = wanted_in(mode, number).items[1] != UNREADABLE;
    struct question question = {mode, &table, &page, 0, place, LENGTH};
    int32_t point[MOST_LENGTH];
    uint32_t bits;
    hold_list("answer of the whole case", mode, read_place(&question, point), number);
    for (question.number = 0; question.number < LENGTH; question.number++) {
        const uint64_t coordinate = (uint64_t)wanted[selector][number].point[question.number];
        own_figure("point of the whole case", (uint64_t)point[question.number], is_shown ? coordinate : 0);
        hold_list("answer of a coefficient of the whole case", mode, coefficient(&question, &bits), number);
        own_figure("value of a coefficient of the whole case", bits,
                   is_shown ? wanted[selector][number].values[question.number] : 0);
    }
    own_figure("refusal at the length in the whole case", coefficient(&question, &bits).items[0], 13);
}

/* As a whole and by its coefficients, one past the last of these too. */
static void compare_whole_place(uint64_t place, uint64_t number)
{
    struct question question = {0, &table, &page, 0, place, LENGTH};
    for (uint64_t mode = 0; mode < MODES; mode++)
        hold_place(mode, place, number);
    compare_reads(&question);
    for (question.number = 0; question.number <= LENGTH; question.number++)
        compare_coefficients(&question);
    question.number = LINE_SPACE;
    compare_both_lines(&question);
}

/* The page of the whole case in its layout, and the other one, which is its conversion. */
static void hold_page(void)
{
    const struct conversion asked = {&table, &page, sizeof *page_wanted};
    uint8_t converted[sizeof *page_wanted];
    own_figure("page of the whole case",
               memcmp(page.wanted + GUARDS, page_wanted[page.layout], sizeof *page_wanted) != 0, 0);
    own_figure("refusal of its conversion", compare_conversion(&asked).items[0], 0);
    convert(&asked, converted);
    own_figure("its conversion", memcmp(converted, page_wanted[1 - page.layout], sizeof *page_wanted) != 0, 0);
}

/* The bytes cell by cell, as if the states were first: the cell of place 0 has row 1. */
static void compare_wrong_layout(void)
{
    struct arrival first = {.length = RECORD_SIZE};
    __builtin_memcpy(first.bytes, records_bin, RECORD_SIZE);
    page.layout = STATES_FIRST;
    begin_page(&page, PLACES);
    fill_page(&page, page_wanted[CELL_BY_CELL], sizeof *page_wanted);
    own_figure("refusal in the wrong layout", compare_take(&table, &page, &first).items[0], 12);
}

/* The whole case holds the program's own rules to docs/RULES.md too. */
static void compare_whole_case(void)
{
    struct arrival run = {.length = sizeof records_bin};
    for (uint64_t i = 0; i < sizeof records_bin; i++)
        run.bytes[i] = records_bin[i];
    begin_page(&page, PLACES);
    own_figure("refused takes of the whole case", compare_run(&table, &page, &run), 0);
    hold_page();
    run.length = RECORD_SIZE;
    own_figure("refusal of the first record again", compare_take(&table, &page, &run).items[0], 0);
    hold_page();
    for (uint64_t place = 0; place < PLACES; place++)
        compare_whole_place(place, place);
    for (uint64_t mode = 0; mode < MODES; mode++) {
        const struct list list = compare_tally(&(struct question){mode, &table, &page, 0, 0, 0});
        own_figure("tally of the whole case", memcmp(list.items, tally_wanted[mode], sizeof list.items) != 0, 0);
    }
}

static void compare_codeword_20(void)
{
    struct arrival run = {.length = RECORD_SIZE};
    write_record(run.bytes, 1, 0, 1, 20);
    begin_page(&page, PLACES);
    own_figure("refused takes of codeword 20", compare_run(&table, &page, &run), 0);
    compare_whole_place(1, WITH_CODEWORD_20);
}

void compare_pages(void)
{
    chance_from(SEED);
    table = pairing_bin;
    for (uint8_t i = 0; i < SELECTORS * LAYOUTS; i++) {
        table.bytes[AT_SELECTOR] = i / LAYOUTS;
        page.layout = i % LAYOUTS;
        compare_whole_case();
        compare_codeword_20();
    }
    compare_wrong_layout();
    compare_empty_shapes();
    compare_small_shells();
    compare_takes();
    compare_runs();
    compare_places();
    compare_tallies();
    compare_page_checks();
    compare_books();
    compare_books_apart();
    compare_conversions();
    compare_layouts();
    require_page_kinds();
    require(compared.modes, LEAST_IN_BOTH_MODES, "answers of a reader", "in both modes");
    require(compared.lines, LEAST_LINES, "calls of lines", "that are answered");
    printf("pages: %lu takes, %lu runs, %lu places, ", compared.takes, compared.runs, compared.places);
    printf("%lu coefficients, %lu tallies and %lu calls of lines answered, by %lu calls; ", compared.coefficients,
           compared.tallies, compared.lines, compared.calls_of_page);
    printf("%lu answers of a reader in both modes\n", compared.modes);
}
