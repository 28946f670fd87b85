/* The refusals of the calls of the page, each alone and together with others, so that the order of checks is compared
   too; every state; and bad tables of every kind. See docs/RULES.md, "Books", "Refusal numbers" and "Order of
   checks". */

#include "../draws/page_draws.h"
#include "comparisons.h"

#include <stdio.h>

enum { BAD_TABLES = 400, LENGTH_TABLES = 40 };
enum { MOST_SIZE = 600, FEW_CELLS = 64 };

static struct page page;

static uint64_t take_of(const struct case_of_page *of)
{
    return compare_take(&of->table, &page, &of->arrival).items[0];
}

static uint64_t read_of(uint64_t mode, const struct case_of_page *of)
{
    return compare_read(&(struct question){mode, &of->table, &page, of->book, of->place, of->out_length}).items[0];
}

static uint64_t coefficient_of(uint64_t mode, const struct case_of_page *of)
{
    const struct question question = {mode, &of->table, &page, of->book, of->place, of->coordinate};
    return compare_coefficient(&question).items[0];
}

static uint64_t tally_of(uint64_t mode, const struct case_of_page *of)
{
    return compare_tally(&(struct question){mode, &of->table, &page, of->book, 0, 0}).items[0];
}

static uint64_t lines_of(uint64_t mode, const struct case_of_page *of, uint64_t length)
{
    return compare_lines(&(struct question){mode, &of->table, &page, of->book, of->place, length}).items[0];
}

/* Each call in both modes, and without one. */
static const uint64_t any_mode[] = {PLAIN_MODE, MENDING_MODE, MODES};

static uint64_t mode_at(uint64_t number)
{
    return any_mode[number] < MODES ? any_mode[number] : no_mode_by_chance();
}

/* Where there is no mode, 16 comes first; then 17 and 7, whatever the call. */
static uint64_t first_of(uint64_t mode, int set, uint64_t rest)
{
    if (mode >= MODES)
        return 16;
    return set & WRONG_BOOKS ? 17 : set & WRONG_TABLE ? 7 : rest;
}

/* The order of each call but take, as "tally | 16, 17, 7, 8, 4, 12". */
static void compare_set_in(uint64_t mode, const struct case_of_page *wrong, int set)
{
    const uint64_t cell = set & WRONG_CELL ? 12 : 0, cell_or_13 = set & WRONG_COORDINATE ? 13 : cell;
    const uint64_t lengths = set & (WRONG_PAGE | WRONG_LENGTH) ? 4 : cell, outside = set & (WRONG_BOOK | WRONG_PLACE);
    const uint64_t of_read = outside ? 8 : lengths, of_coefficient = outside ? 8 : set & WRONG_PAGE ? 4 : cell_or_13;
    const uint64_t of_tally = set & WRONG_BOOK ? 8 : set & WRONG_PAGE ? 4 : cell;
    const uint64_t text = set & WRONG_LENGTH ? chance_below(LINE_SPACE) : LINE_SPACE + chance_below(LINE_SPACE);
    own_figure("refusal of a reading with faults", read_of(mode, wrong), first_of(mode, set, of_read));
    own_figure("refusal of a coefficient with faults", coefficient_of(mode, wrong),
               first_of(mode, set, of_coefficient));
    own_figure("refusal of a tally with faults", tally_of(mode, wrong), first_of(mode, set, of_tally));
    own_figure("refusal of lines with faults", lines_of(mode, wrong, text), first_of(mode, set, of_read));
}

/* Take is last: it may change the page. */
static void compare_set(const struct case_of_page *wrong, int set)
{
    lay_by_chance(&page);
    for (uint64_t i = 0; i < ENTRIES(any_mode); i++)
        compare_set_in(mode_at(i), wrong, set);
    own_figure("refusal of a take with faults", take_of(wrong), refusal_of_take(set));
}

static void compare_modes(const struct case_of_page *of, uint64_t text_length)
{
    for (uint64_t i = 0; i < ENTRIES(any_mode); i++) {
        const uint64_t mode = mode_at(i);
        read_of(mode, of);
        coefficient_of(mode, of);
        tally_of(mode, of);
        lines_of(mode, of, text_length);
    }
}

/* Take is last here too. */
static void compare_state(const struct case_of_page *right)
{
    lay_by_chance(&page);
    compare_modes(right, LINE_SPACE * (1 + chance_below(2)));
    take_of(right);
}

static void compare_all_calls(const struct case_of_page *of)
{
    struct arrival run = {.length = chance_below(MOST_RUN + 1)};
    for (uint64_t i = 0; i < run.length; i++)
        run.bytes[i] = of->arrival.bytes[i % RECORD_SIZE];
    compare_modes(of, text_length_by_chance());
    take_of(of);
    compare_run(&of->table, &page, &run);
}

/* Bad tables with a page as large as the rows would have it, as far as there is room, or of a wrong size; the rest
   right or wrong. */
static void compare_bad_tables(void)
{
    const struct table good = small_table_by_chance();
    struct case_of_page of = right_case(&page, good);
    begin_page(&page, MOST_PLACES);
    for (int i = 0; i < BAD_TABLES * FAULTS; i++) {
        const int is_wrong = i % 2;
        uint64_t places = 0;
        of.table = bad_table_by_chance((enum fault)(i / BAD_TABLES));
        for (uint64_t row = 0; row < of.table.size / ROW_SIZE; row++)
            places += two_bytes(of.table.bytes + row * ROW_SIZE + AT_PLACES);
        page.books = books_by_chance();
        page.layout = layout_by_chance();
        page.size = CELL_SIZE * page.books * (places < MOST_PLACES ? places : MOST_PLACES);
        of.book = is_wrong ? wrong_book(page.books) : chance_below(page.books);
        if (is_wrong)
            page.size = chance_below(2) ? 0 : chance_below(CELL_SIZE * MOST_PLACES);
        of.place = is_wrong ? wrong_place(MOST_PLACES) : chance_below(places < MOST_PLACES && places > 0 ? places : MOST_PLACES);
        of.out_length = is_wrong ? chance_below(MOST_OUTPUT + 1) : of.table.bytes[AT_LENGTH] % (MOST_LENGTH + 1);
        of.coordinate = is_wrong ? wrong_place(MOST_LENGTH) : 0;
        of.arrival.length = is_wrong ? chance_below(MOST_TAKEN + 1) : RECORD_SIZE;
        set_place(&of.table, place_field(of.book, of.place) % 65536, of.arrival.bytes);
        if (i % 4 > 1)
            of.arrival.bytes[AT_ROW] = (uint8_t)chance_below(256);
        compare_all_calls(&of);
    }
}

/* Every size of a table of good rows, and sizes that are good only where a number is cut. The page fits where the
   table is good, and has one book. */
static void compare_sizes(void)
{
    const uint64_t cut[] = {65536 + 16, 65536 + 512, TWO_TO_32 + 16, TWO_TO_32 + 512};
    struct case_of_page of = right_case(&page, rows_by_chance(MOST_ROWS, 3));
    of.table = rows_by_chance(MOST_LENT_ROWS, 3);
    of.book = 0;
    set_place(&of.table, of.place, of.arrival.bytes);
    for (uint64_t i = 0; i <= MOST_SIZE + ENTRIES(cut); i++) {
        of.table.size = i <= MOST_SIZE ? i : cut[i - MOST_SIZE - 1];
        const struct judgment judgment = judge(of.table.bytes, of.table.size);
        begin_page(&page, judgment.faults ? FEW_CELLS : judgment.places);
        lay_by_chance(&page);
        compare_all_calls(&of);
    }
}

/* Every length of the record and of the output, and lengths that are right only where a number is cut: the calls may
   look at nothing, since the lengths alone are wrong. */
static void compare_lengths(void)
{
    const uint64_t cut[] = {256, 65536, TWO_TO_32};
    for (int i = 0; i < LENGTH_TABLES; i++) {
        const struct case_of_page right = right_case(&page, small_table_by_chance());
        struct case_of_page of = right;
        lay_by_chance(&page);
        for (uint64_t length = 0; length <= MOST_OUTPUT + ENTRIES(cut); length++) {
            const uint64_t more = length > MOST_OUTPUT ? cut[length - MOST_OUTPUT - 1] : 0;
            of.out_length = more ? right.out_length + more : length;
            of.arrival.length = more ? RECORD_SIZE + more : length;
            read_of(length % MODES, &of);
            take_of(&of);
        }
    }
}

void compare_page_checks(void)
{
    for_each_set(&page, compare_set);
    for_each_state(&page, compare_state);
    compare_bad_tables();
    compare_sizes();
    compare_lengths();
    printf("checks of the page: %d sets of faults together, each %d times; %d bad tables\n", SETS, SET_TABLES,
           BAD_TABLES * FAULTS);
}
