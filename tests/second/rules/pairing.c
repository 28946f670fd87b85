/* The rules of a pairing table, docs/RULES.md, "Pairing table". Every fault of every row is found, not only the first
   one, so that comparisons/tables.c can tell which faults it compared alone. */

#include "rules.h"

static uint32_t fault_if(int is_there, enum fault fault)
{
    return is_there ? (uint32_t)1 << fault : 0;
}

/* A number of two bytes, high byte first. */
uint64_t two_bytes(const uint8_t *high)
{
    return (uint64_t)high[0] * 256 + high[1];
}

void set_two_bytes(uint8_t *high, uint64_t number)
{
    high[0] = (uint8_t)(number / 256);
    high[1] = (uint8_t)(number % 256);
}

static int is_between(uint64_t number, uint64_t least, uint64_t most)
{
    return least <= number && number <= most;
}

/* "A table is 1 to 32 rows of 16 bytes, without a header". */
static uint32_t faults_of_size(uint64_t size)
{
    return fault_if(size == 0, NO_BYTES) | fault_if(size % ROW_SIZE != 0, PART_OF_A_ROW) |
           fault_if(size > ROW_SIZE * MOST_ROWS, MORE_THAN_32_ROWS);
}

/* "the first n: 0, then each larger than the one before, each usable with l": the radius at a position within the
   number. With a bad length no shell is there to be usable or not. With a bad selector N alone is looked at. */
static uint32_t faults_of_radius(const uint8_t *row, uint64_t position)
{
    const uint8_t *radius = row + AT_RADII + position;
    const struct shell shell = shell_of(row, position);
    uint32_t faults = position == 0 ? fault_if(*radius != 0, FIRST_RADIUS_NOT_0) : fault_if(*radius <= radius[-1], RADIUS_NOT_LARGER);
    if (shell.radius > MOST_RADIUS)
        return faults | fault_if(1, RADIUS_ABOVE_32);
    return faults | fault_if(is_between(shell.length, 1, MOST_LENGTH) && !is_usable(shell), RADIUS_NOT_USABLE);
}

/* "the others 0". With a bad number it is open which positions those are, and the row is
   bad without them. */
static uint32_t faults_of_radii(const uint8_t *row)
{
    const uint64_t number = row[AT_NUMBER_OF_RADII];
    uint32_t faults = 0;
    if (!is_between(number, 1, MOST_RADII))
        return fault_if(1, BAD_NUMBER_OF_RADII);
    for (uint64_t position = 0; position < MOST_RADII; position++)
        faults |= position < number ? faults_of_radius(row, position) : fault_if(row[AT_RADII + position] != 0, BEYOND_NOT_0);
    return faults;
}

/* The faults that a row has by itself. */
static uint32_t faults_of_row(const uint8_t *row)
{
    return fault_if(!is_between(row[AT_LENGTH], 1, MOST_LENGTH), BAD_LENGTH) | faults_of_radii(row) |
           fault_if(two_bytes(row + AT_STEP) == 0, NO_STEP) | fault_if(two_bytes(row + AT_PLACES) == 0, NO_PLACES) |
           fault_if(row[AT_SELECTOR] >= SELECTORS, BAD_SELECTOR) | fault_if(row[AT_15] != 0, BYTE_15_NOT_0);
}

/* "its places and those of the rows before sum to more than 4,096": that row alone, not those after it. */
struct judgment judge(const uint8_t *bytes, uint64_t size)
{
    struct judgment judgment = {.faults = faults_of_size(size)};
    if (judgment.faults)
        return judgment;
    uint64_t total = 0;
    for (uint64_t number = 0; number < size / ROW_SIZE; number++) {
        const uint8_t *row = bytes + number * ROW_SIZE;
        const uint64_t before = total;
        total += two_bytes(row + AT_PLACES);
        const uint32_t faults = faults_of_row(row) | fault_if(before <= MOST_PLACES && total > MOST_PLACES, TOTAL_PASSED);
        if (judgment.bad_rows == 0) {
            judgment.faults = faults;
            judgment.row = faults ? number : 0;
            judgment.places = total;
        }
        judgment.bad_rows += faults != 0;
    }
    return judgment;
}

/* "Places are numbered through the rows": the number of rows for a place that is not in the table. */
uint64_t row_of(const struct table *table, uint64_t place)
{
    uint64_t row = 0, end = 0;
    for (; row < table->size / ROW_SIZE; row++) {
        end += two_bytes(table->bytes + row * ROW_SIZE + AT_PLACES);
        if (place < end)
            break;
    }
    return row;
}

/* The bytes of that row. */
const uint8_t *row_at(const struct table *table, uint64_t place)
{
    return table->bytes + row_of(table, place) * ROW_SIZE;
}

/* Whether not all rows have the same byte there. */
int do_rows_differ(const struct table *table, uint64_t at)
{
    int is_other = 0;
    for (uint64_t row = 0; row < table->size; row += ROW_SIZE)
        is_other |= table->bytes[row + at] != table->bytes[at];
    return is_other;
}

/* Whether each selector is that of a row of a good table. */
int has_every_selector(const struct table *table)
{
    int has[SELECTORS] = {0}, has_all = 1;
    for (uint64_t row = 0; row < table->size; row += ROW_SIZE)
        has[table->bytes[row + AT_SELECTOR]] = 1;
    for (uint64_t selector = 0; selector < SELECTORS; selector++)
        has_all &= has[selector];
    return has_all;
}

/* The shell of the row's radius with that number, and the row's selector. */
struct shell shell_of(const uint8_t *row, uint64_t number)
{
    return (struct shell){row[AT_LENGTH], row[AT_RADII + number], row[AT_SELECTOR]};
}
