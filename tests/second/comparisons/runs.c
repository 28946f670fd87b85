/* Collecting runs of bytes by chance into pages of one book or of several: records that are taken or refused, repeated,
   nearly repeated and reordered, and a shorter last part. A run in another order must leave the same page, and as many
   refused takes. See docs/RULES.md, "The page", "Books" and "Order of checks". */

#include "../draws/page_draws.h"
#include "../kinds/page_kinds.h"
#include "comparisons.h"

#include <stdio.h>
#include <string.h>

enum { TABLES = 1600, RUNS_OF_TABLE = 8, FEW = 3, MOST_CHECKED = 200, LONG_RUNS = 2, PIECES = 2700 };

/* What the parts of a run are. */
enum manner { CLEAN, MIXED, OUTSIDE, OF_OTHER_ROWS, MANNERS };

static struct page page, start, first;

/* The part at the end of a run: one that was there before, the same but for one byte behind the row, one whose place or
   book is not there, any bytes, one of another row, one of another book, or a record that claims one of few places. */
static void part_by_chance(const struct table *table, const uint64_t *fields, enum manner manner, uint8_t *run,
                           uint64_t at)
{
    const uint64_t clean = chance_below(6), mixed = chance_below(11);
    const uint64_t choices[MANNERS] = {[CLEAN] = clean, [MIXED] = mixed, [OUTSIDE] = 6, [OF_OTHER_ROWS] = 8};
    const uint64_t choice = choices[manner], field = fields[chance_below(FEW)];
    const uint64_t before = at > 0 ? chance_below(at / RECORD_SIZE) * RECORD_SIZE : 0;
    record_by_chance(table, field, run + at);
    for (uint64_t i = 0; i < RECORD_SIZE && at > 0 && choice < 3; i++)
        run[at + i] = run[before + i];
    if (at > 0 && choice == 0)
        run[at + AT_RADIUS_NUMBER + chance_below(RECORD_SIZE - AT_RADIUS_NUMBER)] ^= (uint8_t)(1 + chance_below(255));
    if (choice == 6)
        set_two_bytes(run + at + AT_PLACE, field_past_end(&page));
    for (uint64_t i = 0; i < RECORD_SIZE && choice == 7; i++)
        run[at + i] = (uint8_t)chance_below(256);
    if (choice == 8 || choice == 9)
        run[at + AT_ROW] = foreign_row(table, field);
    if (choice == 10)
        change_book(run + at);
}

/* The bytes are drawn up to the next whole part. */
static struct arrival run_of(const struct table *table, enum manner manner, uint64_t length)
{
    struct arrival run = {.length = length};
    uint64_t fields[FEW];
    for (int i = 0; i < FEW; i++)
        fields[i] = some_field(&page, table);
    for (uint64_t at = 0; at < run.length; at += RECORD_SIZE)
        part_by_chance(table, fields, manner, run.bytes, at);
    return run;
}

/* A clean run has whole parts alone, and so has one of other rows. */
static struct arrival run_by_chance(const struct table *table)
{
    const enum manner manner = (enum manner)chance_below(MANNERS);
    const uint64_t length = chance_below(8) ? chance_below(MOST_RUN + 1) : chance_below(2 * RECORD_SIZE + 1);
    const int is_whole = manner == CLEAN || manner == OF_OTHER_ROWS;
    return run_of(table, manner, is_whole ? length - length % RECORD_SIZE : length);
}

/* The whole parts in another order, the shorter last one where it was. */
static struct arrival in_another_order(const struct arrival *run)
{
    struct arrival other = *run;
    for (uint64_t part = run->length / RECORD_SIZE; part > 1; part--) {
        uint8_t *one = other.bytes + (part - 1) * RECORD_SIZE, *with = other.bytes + chance_below(part) * RECORD_SIZE;
        for (int i = 0; i < RECORD_SIZE; i++) {
            const uint8_t byte = one[i];
            one[i] = with[i];
            with[i] = byte;
        }
    }
    return other;
}

/* What a run makes of an empty place in a book, by all that claim it together: nothing claims it; all that do are
   equal; or two differ. The program's own rules are held to it. */
static void check_place(const struct table *table, const struct arrival *run, uint64_t book, uint64_t place)
{
    const uint8_t *got = page.own + GUARDS + CELL_SIZE * (book * page.places + place);
    const uint8_t *claims = 0;
    uint8_t cell[CELL_SIZE] = {0};
    int differ = 0;
    for (const uint8_t *part = run->bytes; part + RECORD_SIZE <= run->bytes + run->length; part += RECORD_SIZE)
        if (two_bytes(part + AT_PLACE) == 4096 * book + place && part[AT_ROW] == row_of(table, place)) {
            claims = claims ? claims : part;
            differ |= memcmp(claims, part, RECORD_SIZE) != 0;
        }
    cell[AT_STATE] = !claims ? STATE_EMPTY : differ ? STATE_CONTESTED : STATE_HELD;
    for (uint64_t i = 0; i < RECORD_SIZE && claims && !differ; i++)
        cell[AT_RECORD + i] = claims[i];
    own_figure("cells that all claims together would make another", memcmp(cell, got, CELL_SIZE) != 0, 0);
}

/* A run, and then the same parts in another order from the same page. */
static void compare_both_orders(const struct table *table, const struct arrival *run, int is_from_empty)
{
    copy_page(&page, &start);
    const uint64_t refusals = compare_run(table, &page, run);
    for (uint64_t cell = 0; is_from_empty && cell < cells_of(&page) && cells_of(&page) <= MOST_CHECKED; cell++)
        check_place(table, run, cell / page.places, cell % page.places);
    copy_page(&first, &page);
    copy_page(&page, &start);
    const struct arrival other = in_another_order(run);
    own_figure("refused takes of a run in another order", compare_run(table, &page, &other), refusals);
    own_figure("pages that a run in another order makes another",
               memcmp(cell_at(&page, 0), cell_at(&first, 0), right_size(&page)) != 0, 0);
    note_page(COLLECT, RUN_PERMUTED, memcmp(run->bytes, other.bytes, MOST_ARRIVAL) != 0);
}

/* A wrong size, a number of books that there may not be, or both. */
static void compare_wrong_page(const struct table *table, const struct arrival *run)
{
    const uint64_t choice = chance_below(8);
    copy_page(&page, &start);
    if (choice < 7)
        page.size = wrong_page_size(&page);
    if (choice > 5)
        page.books = no_books_by_chance(page.filled);
    own_figure("parts of a run that are refused with a wrong page", compare_run(table, &page, run),
               (run->length + RECORD_SIZE - 1) / RECORD_SIZE);
}

static void compare_runs_of(const struct table *table, int is_from_empty, int has_faults)
{
    pages_by_chance(&start, table, books_by_chance(), has_faults ? 4 : 0);
    if (is_from_empty)
        begin_books(&start, start.places, start.filled);
    lay_by_chance(&start);
    copy_page(&page, &start);
    for (int i = 0; i < RUNS_OF_TABLE; i++) {
        const struct arrival run = run_by_chance(table);
        compare_both_orders(table, &run, is_from_empty);
        if (i % 2 == 0)
            compare_wrong_page(table, &run);
    }
}

/* A run of so many takes that their number needs more than two bytes, by one call with each copy of the page. It is
   made of pieces, of which the program's own rules take one after the other. */
static void compare_long_run(uint64_t books, uint64_t layout)
{
    static uint8_t bytes[PIECES * MOST_RUN];
    const struct table table = small_table_by_chance();
    uint64_t refusals = 0;
    begin_books(&page, judge(table.bytes, table.size).places, books);
    lay_out(&page, layout);
    for (int i = 0; i < PIECES; i++) {
        const struct arrival piece = run_of(&table, i % 64 == 0 ? CLEAN : i % 2 ? OUTSIDE : OF_OTHER_ROWS, MOST_RUN);
        refusals += collect(&table, &page, &piece);
        for (int j = 0; j < MOST_RUN; j++)
            bytes[i * MOST_RUN + j] = piece.bytes[j];
    }
    for (int lent = 0; lent < 2; lent++) {
        const uint64_t got = probe_collect(table.bytes, table.size, books, layout, page.lent[lent] + GUARDS, page.size,
                                           bytes, sizeof bytes);
        const int is_page_right = is_page_as_it_must_be(&page, lent);
        if (got == refusals && is_page_right)
            continue;
        print_table("probe_collect of a long run", &table);
        if (is_page_right)
            differ(refusals, got);
        wrong_page(&page, lent);
    }
    compared.calls_of_page += 2;
    compared.runs++;
}

void compare_runs(void)
{
    for (int i = 0; i < TABLES; i++) {
        const struct table table = chance_below(8) ? small_table_by_chance() : good_table_by_chance();
        compare_runs_of(&table, i % 3 == 0, i % 3 == 1);
    }
    for (uint64_t i = 0; i < LONG_RUNS; i++)
        compare_long_run(1 + i, i % LAYOUTS);
    printf("runs: %d by chance, each in two orders, and %d long ones\n", TABLES * RUNS_OF_TABLE, LONG_RUNS);
}
