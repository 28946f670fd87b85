/* Numbers, signs, points, rows and pairing tables by chance, the same ones in every run. */

#include "draws.h"

static uint64_t state = 1;

/* Begins anew with a number, so that what is drawn from here on does not depend on what was drawn before. */
void chance_from(uint64_t seed)
{
    state = seed;
}

/* The generator splitmix64. */
static uint64_t chance(void)
{
    state += 0x9e3779b97f4a7c15;
    uint64_t z = state;
    z = (z ^ (z >> 30)) * 0xbf58476d1ce4e5b9;
    z = (z ^ (z >> 27)) * 0x94d049bb133111eb;
    return z ^ (z >> 31);
}

/* A number below the bound, which is above 0. */
uint64_t chance_below(uint64_t bound)
{
    return chance() % bound;
}

/* Gives each magnitude, at most 2^31, a sign by chance; 2^31 can only be negative. */
void sign_by_chance(const uint64_t *magnitudes, uint64_t length, int32_t *point)
{
    for (uint64_t i = 0; i < length; i++) {
        int64_t magnitude = (int64_t)magnitudes[i];
        point[i] = (int32_t)(magnitude > INT32_MAX || chance_below(2) ? -magnitude : magnitude);
    }
}

/* A point of a shell, radius above 0: how many coordinates are nonzero, which, their magnitudes in lumps,
   and the signs. */
void point_by_chance(struct shell shell, int32_t *point)
{
    uint64_t magnitudes[MOST_LENGTH] = {0}, chosen[MOST_LENGTH], have = 0;
    uint64_t s = 1 + chance_below(most_nonzero(shell));
    for (uint64_t i = 0; i < shell.length; i++)
        if (chance_below(shell.length - i) < s - have)
            chosen[have++] = i;
    for (uint64_t i = 0; i < s; i++)
        magnitudes[chosen[i]] = 1;
    for (uint64_t left = shell.radius - s; left > 0;) {
        uint64_t lump = 1 + chance_below(left);
        magnitudes[chosen[chance_below(s)]] += lump;
        left -= lump;
    }
    sign_by_chance(magnitudes, shell.length, point);
}

/* An index of an empty shape; the shell must have one. */
uint64_t empty_by_chance(struct shell shell)
{
    struct range range;
    uint64_t s;
    do {
        s = 1 + chance_below(most_nonzero(shell));
        range = range_of(shell, s);
    } while (range.shapes == range.field);
    const uint64_t pattern = chance_below(range.patterns), shape = range.shapes + chance_below(range.field - range.shapes);
    return range.start + ((pattern * range.field + shape) << s) + chance_below((uint64_t)1 << s);
}

/* Radii of a row: 0, then others, each larger than the one before and usable, often the largest usable
   one as the last. */
static void radii_by_chance(uint8_t *row)
{
    const uint64_t largest = largest_radius(row[AT_LENGTH], row[AT_SELECTOR]), number = row[AT_NUMBER_OF_RADII];
    uint8_t *radii = row + AT_RADII;
    radii[0] = 0;
    for (uint64_t i = 1, spare = largest - (number - 1); i < number; i++) {
        const uint64_t left_out = chance_below(spare + 1);
        radii[i] = (uint8_t)(radii[i - 1] + left_out + 1);
        spare -= left_out;
    }
    if (number > 1 && chance_below(2))
        radii[number - 1] = (uint8_t)largest;
}

/* A row that is good once it has places; the step is often at an end, or where the high byte begins to count. */
static void row_by_chance(uint8_t *row)
{
    const uint64_t steps[] = {1, 255, 256, 65535};
    for (int i = 0; i < ROW_SIZE; i++)
        row[i] = 0;
    row[AT_LENGTH] = (uint8_t)(1 + chance_below(MOST_LENGTH));
    row[AT_NUMBER_OF_RADII] = (uint8_t)(1 + chance_below(MOST_RADII));
    row[AT_SELECTOR] = (uint8_t)chance_below(SELECTORS);
    radii_by_chance(row);
    set_two_bytes(row + AT_STEP, chance_below(2) ? steps[chance_below(ENTRIES(steps))] : 1 + chance_below(65535));
}

/* Good rows of at most `most` places each, often 1, 255 or 256 where `most` allows all of these. */
struct table rows_by_chance(uint64_t rows, uint64_t most)
{
    const uint64_t ends[] = {1, 255, 256};
    struct table table = {.size = rows * ROW_SIZE};
    for (uint64_t number = 0; number < rows; number++) {
        uint8_t *row = table.bytes + number * ROW_SIZE;
        row_by_chance(row);
        set_two_bytes(row + AT_PLACES, most >= 256 && chance_below(2) ? ends[chance_below(ENTRIES(ends))] : 1 + chance_below(most));
    }
    return table;
}

/* Gives one row so many places that the running total there is `total`, if a row can have so many. */
void aim_total(struct table *table, uint64_t number, uint64_t total)
{
    uint8_t *aimed = table->bytes + number * ROW_SIZE;
    uint64_t before = 0;
    for (const uint8_t *row = table->bytes; row < aimed; row += ROW_SIZE)
        before += two_bytes(row + AT_PLACES);
    if (before < total && total - before <= 65535)
        set_two_bytes(aimed + AT_PLACES, total - before);
}

/* Gives a row a selector above 2, often 3 or 255. */
void spoil_selector(struct table *table)
{
    const uint64_t row = chance_below(table->size / ROW_SIZE);
    const uint64_t selectors[] = {SELECTORS, 255, SELECTORS + chance_below(256 - SELECTORS)};
    table->bytes[row * ROW_SIZE + AT_SELECTOR] = (uint8_t)selectors[chance_below(ENTRIES(selectors))];
}

/* Makes a good table bad, by the selector or by byte 15 of a row. */
void spoil_table(struct table *table)
{
    if (chance_below(2))
        spoil_selector(table);
    else
        table->bytes[chance_below(table->size / ROW_SIZE) * ROW_SIZE + AT_15] = 1;
}

/* One byte, changed to the value above or below, or to any. */
static void change_byte(struct table *table)
{
    const uint64_t change[] = {1, 255, chance_below(256), chance_below(256)};
    uint8_t *byte = table->bytes + chance_below(table->size);
    *byte = (uint8_t)(*byte + change[chance_below(ENTRIES(change))]);
}

/* Good rows, the total often aimed at 4,096 or a little off it, or at what is below it where a number is cut
   to 16 bits; then none, one or two bytes changed, and at times the size, by at most a row. A good row lies
   beyond the last one. */
struct table table_by_chance(void)
{
    const uint64_t many[] = {1, 2, 16, 17, 31, 32}, totals[] = {4095, 4096, 4097, 4098, 65536, 65537, 65536 + 4095};
    const uint64_t rows = chance_below(4) ? 1 + chance_below(MOST_ROWS) : many[chance_below(ENTRIES(many))];
    struct table table = rows_by_chance(rows + 1, chance_below(2) ? MOST_PLACES / rows : 256);
    table.size -= ROW_SIZE;
    if (chance_below(2))
        aim_total(&table, chance_below(4) ? rows - 1 : chance_below(rows), totals[chance_below(ENTRIES(totals))]);
    for (uint64_t changes = chance_below(3); changes > 0; changes--)
        change_byte(&table);
    if (chance_below(8) == 0) {
        const uint64_t by = 1 + chance_below(ROW_SIZE);
        table.size = chance_below(2) ? table.size + by : table.size - by;
    }
    return table;
}

/* Gives a row other radii behind the first one: any usable ones, all equally likely, or those from 1 on. */
static void spread_radii(uint8_t *row)
{
    const uint64_t number = row[AT_NUMBER_OF_RADII], largest = largest_radius(row[AT_LENGTH], row[AT_SELECTOR]);
    const uint64_t most = chance_below(2) ? largest : number - 1;
    uint64_t have = 1;
    for (uint64_t radius = 1; radius <= most; radius++)
        if (chance_below(most - radius + 1) < number - have)
            row[AT_RADII + have++] = (uint8_t)radius;
}

/* Good rows, and often 4,096 places. */
struct table good_table_by_chance(void)
{
    const uint64_t rows = 1 + chance_below(MOST_ROWS);
    struct table table = rows_by_chance(rows, MOST_PLACES / rows);
    for (uint64_t number = 0; number < rows; number++)
        if (chance_below(2))
            spread_radii(table.bytes + number * ROW_SIZE);
    if (chance_below(2))
        aim_total(&table, rows - 1, MOST_PLACES);
    own_figure("faults of a table of good rows", judge(table.bytes, table.size).faults, 0);
    return table;
}
