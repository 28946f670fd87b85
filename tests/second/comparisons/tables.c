/* The check of a pairing table, held to rules/pairing.c: every size, every value of every byte of good tables, and
   tables by chance that are good or nearly so; docs/RULES.md, "Pairing table" and, for refusal 7, "Refusal numbers". */

#include "comparisons.h"

#include <stdio.h>
#include <stdlib.h>

enum { MOST_SIZE = 600, RUNS = 8, CHANGED_TABLES = 4, CHANCE_TABLES = 1000000 };

/* What must have occurred among the tables by chance: each fault alone in a table, by its own number, and these. */
enum { GOOD = FAULTS, EVERY_SELECTOR, LOST_RADIUS, TOTAL_OF_4096, TOTAL_OF_4097, ROW_ABOVE_0, LAST_ROW, MORE_BAD_ROWS, SORTS };

static const char *const sorts[SORTS] = {
    [NO_BYTES] = "of no bytes",
    [PART_OF_A_ROW] = "that only ends within a row",
    [MORE_THAN_32_ROWS] = "that only has too many rows",
    [BAD_LENGTH] = "with only a bad length",
    [BAD_NUMBER_OF_RADII] = "with only a bad number of radii",
    [FIRST_RADIUS_NOT_0] = "with only a first radius that is not 0",
    [RADIUS_NOT_LARGER] = "with only a radius that is not larger than the one before",
    [RADIUS_ABOVE_32] = "with only a radius above 32",
    [RADIUS_NOT_USABLE] = "with only a radius that is not usable",
    [BEYOND_NOT_0] = "with only a position beyond the number that is not 0",
    [NO_STEP] = "with only a step of 0",
    [NO_PLACES] = "with only a row of no places",
    [BAD_SELECTOR] = "with only a selector above 2",
    [BYTE_15_NOT_0] = "with only a byte 15 that is not 0",
    [TOTAL_PASSED] = "with only a total above 4,096",
    [GOOD] = "that is good",
    [EVERY_SELECTOR] = "that is good with rows of each selector",
    [LOST_RADIUS] = "with only a radius that is not usable, but would be with selector 0",
    [TOTAL_OF_4096] = "that is good with 4,096 places",
    [TOTAL_OF_4097] = "that is bad only because the total passes 4,096 by 1",
    [ROW_ABOVE_0] = "whose first bad row is above 0",
    [LAST_ROW] = "whose first bad row is the last one and above 0",
    [MORE_BAD_ROWS] = "with more than one bad row",
};

/* The table of the whole case. */
const struct table pairing_bin = {16, {3, 2, 0, 2, [AT_STEP] = 1, 0, [AT_PLACES] = 0, 2}};

static uint64_t occurred[SORTS], good, refused;

static struct judgment compare_table(const struct table *table)
{
    const struct judgment judgment = judge(table->bytes, table->size);
    if (judgment.faults) {
        expect_check(table, 7, judgment.row);
        refused++;
    } else {
        expect_check(table, 0, judgment.places);
        good++;
    }
    return judgment;
}

/* The whole case holds the program's own rules to docs/RULES.md too. */
static void compare_whole_case(void)
{
    const struct judgment judgment = compare_table(&pairing_bin);
    own_figure("faults of the table of the whole case", judgment.faults, 0);
    own_figure("places of the table of the whole case", judgment.places, 2);
}

/* No table; every size of runs of good rows, every other run with a bad row above 0: a wrong size is judged
   before any row. */
static void compare_sizes(void)
{
    expect_check_without_table();
    refused++;
    for (int run = 0; run < RUNS; run++) {
        struct table table = rows_by_chance(MOST_LENT_ROWS, MOST_PLACES / MOST_LENT_ROWS);
        if (run % 2)
            table.bytes[ROW_SIZE * (1 + chance_below(MOST_ROWS - 1)) + AT_15] = 1;
        for (table.size = 0; table.size <= MOST_SIZE; table.size++)
            compare_table(&table);
    }
}

/* Sizes that are good where a number is cut to 16 or 32 bits: the call may look at no byte, since the size
   alone is wrong. */
static void compare_cut_sizes(void)
{
    const uint64_t sizes[] = {65536 + 16, 65536 + 512, TWO_TO_32 + 16, TWO_TO_32 + 512};
    struct table table = rows_by_chance(MOST_ROWS, MOST_PLACES / MOST_ROWS);
    for (uint64_t i = 0; i < ENTRIES(sizes); i++) {
        table.size = sizes[i];
        compare_table(&table);
    }
}

/* Every byte of good tables, changed to each value; every other table has 4,096 places. */
static void compare_changed_bytes(uint64_t rows)
{
    for (int i = 0; i < CHANGED_TABLES; i++) {
        struct table table = rows_by_chance(rows, MOST_PLACES / rows);
        if (i % 2)
            aim_total(&table, rows - 1, MOST_PLACES);
        own_figure("faults of a table of good rows", compare_table(&table).faults, 0);
        for (uint64_t at = 0; at < table.size; at++) {
            const uint8_t kept = table.bytes[at];
            for (int value = 0; value < 256; value++) {
                table.bytes[at] = (uint8_t)value;
                compare_table(&table);
            }
            table.bytes[at] = kept;
        }
    }
}

/* All values of two bytes of the whole case with a selector; returns how many of these tables are good. */
static uint64_t compare_two_bytes(uint64_t one, uint64_t other, uint8_t selector)
{
    struct table table = pairing_bin;
    const uint64_t good_before = good;
    table.bytes[AT_SELECTOR] = selector;
    for (uint64_t values = 0; values < 65536; values++) {
        table.bytes[one] = (uint8_t)(values / 256);
        table.bytes[other] = (uint8_t)(values % 256);
        compare_table(&table);
    }
    return good - good_before;
}

/* Whether the first bad row is bad by its selector's own total alone. */
static int has_lost_radius(struct table table, struct judgment judgment)
{
    uint8_t *selector = table.bytes + judgment.row * ROW_SIZE + AT_SELECTOR;
    if (judgment.faults != (uint32_t)1 << RADIUS_NOT_USABLE || *selector != PRODUCT_PRODUCT || judgment.bad_rows != 1)
        return 0;
    *selector = PRODUCT;
    return judge(table.bytes, table.size).faults == 0;
}

static void note_sorts(const struct table *table, struct judgment judgment)
{
    const int is_total_alone = judgment.faults == (uint32_t)1 << TOTAL_PASSED && judgment.bad_rows == 1;
    for (int fault = 0; fault < FAULTS; fault++)
        occurred[fault] += judgment.faults == (uint32_t)1 << fault && judgment.bad_rows <= 1;
    occurred[GOOD] += judgment.faults == 0;
    occurred[EVERY_SELECTOR] += judgment.faults == 0 && has_every_selector(table);
    occurred[LOST_RADIUS] += has_lost_radius(*table, judgment) != 0;
    occurred[TOTAL_OF_4096] += judgment.faults == 0 && judgment.places == MOST_PLACES;
    occurred[TOTAL_OF_4097] += is_total_alone && judgment.places == MOST_PLACES + 1;
    occurred[ROW_ABOVE_0] += judgment.row > 0;
    occurred[LAST_ROW] += judgment.row > 0 && judgment.row == table->size / ROW_SIZE - 1;
    occurred[MORE_BAD_ROWS] += judgment.bad_rows > 1;
}

static void compare_tables_by_chance(void)
{
    for (int i = 0; i < CHANCE_TABLES; i++) {
        const struct table table = table_by_chance();
        note_sorts(&table, compare_table(&table));
    }
    for (int sort = 0; sort < SORTS; sort++)
        if (occurred[sort] == 0) {
            printf("the test itself, tables by chance: none %s\n", sorts[sort]);
            exit(1);
        }
}

void compare_tables(void)
{
    const uint64_t rows[] = {1, 2, 16, 32}, usable[SELECTORS + 1] = {407 - 16, 407 - 16, 403 - 16, 0};
    compare_whole_case();
    compare_sizes();
    compare_cut_sizes();
    for (uint64_t i = 0; i < ENTRIES(rows); i++)
        compare_changed_bytes(rows[i]);
    for (uint8_t selector = 0; selector <= SELECTORS; selector++)
        own_figure("usable shells of a radius above 0", compare_two_bytes(AT_LENGTH, AT_RADII + 1, selector), usable[selector]);
    own_figure("steps", compare_two_bytes(AT_STEP, AT_STEP + 1, PRODUCT), 65535);
    own_figure("numbers of places of a table", compare_two_bytes(AT_PLACES, AT_PLACES + 1, PRODUCT), MOST_PLACES);
    own_figure("selectors, and values of byte 15", compare_two_bytes(AT_SELECTOR, AT_15, PRODUCT), SELECTORS);
    compare_tables_by_chance();
    printf("tables: %lu compared, %lu good, %lu refused\n", good + refused, good, refused);
}
