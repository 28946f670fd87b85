/* The sender of the case `full_page`: a pairing table that is full, and the record of a vector by chance for each
   place. See docs/RULES.md, "Pairing table" and "Quantizing into a record". */

#include "../listing.h"

/* Radii of a row behind the first one, from 1 to the largest usable one, as evenly as may be. */
static void spread_evenly(uint8_t *row, uint64_t largest)
{
    for (uint64_t i = 1; i < MOST_RADII; i++)
        row[AT_RADII + i] = (uint8_t)(1 + (i - 1) * (largest - 1) / (MOST_RADII - 2));
}

/* Any usable radii, all equally likely. */
static void spread_by_chance(uint8_t *row, uint64_t largest)
{
    uint64_t have = 1;
    for (uint64_t radius = 1; radius <= largest; radius++)
        if (chance_below(largest - radius + 1) < row[AT_NUMBER_OF_RADII] - have)
            row[AT_RADII + have++] = (uint8_t)radius;
}

/* 32 rows. The first 16 have every length and 8 radii; the others have every length again, in another order, and 8 to 1
   radii. Of the two rows of a length each has another selector. Two rows share 256 places, the first two as 1 and
   255. */
struct table full_table(void)
{
    const uint64_t steps[] = {1, 255, 256, 65535};
    struct table table = {.size = ROW_SIZE * MOST_ROWS};
    uint64_t places = 1;
    for (uint64_t number = 0; number < MOST_ROWS; number++) {
        uint8_t *row = table.bytes + number * ROW_SIZE;
        const int is_even = number < MOST_LENGTH;
        row[AT_LENGTH] = (uint8_t)(1 + (is_even ? 5 : 3) * number % MOST_LENGTH);
        row[AT_NUMBER_OF_RADII] = (uint8_t)(is_even ? MOST_RADII : MOST_RADII - number % MOST_RADII);
        row[AT_SELECTOR] = (uint8_t)((row[AT_LENGTH] + !is_even) % SELECTORS);
        (is_even ? spread_evenly : spread_by_chance)(row, largest_radius(row[AT_LENGTH], row[AT_SELECTOR]));
        set_two_bytes(row + AT_STEP, number % 4 == 0 ? steps[number / 4 % ENTRIES(steps)] : 1 + chance_below(65535));
        set_two_bytes(row + AT_PLACES, places);
        places = number % 2 == 0 ? 256 - places : 64 + chance_below(128);
    }
    own_figure("faults of the full table", judge(table.bytes, table.size).faults, 0);
    own_figure("places of the full table", judge(table.bytes, table.size).places, MOST_PLACES);
    return table;
}

/* A vector that is not refused, quantized. */
struct quantizing send_for(const struct table *table, uint64_t place)
{
    struct vector vector = {.table = *table, .books = ONE_BOOK, .place = place};
    struct quantizing made;
    do {
        coefficients_by_chance(&vector);
        made = quantize(&vector);
    } while (made.answer.refusal == 11);
    own_figure("refusal of a vector that is sent", made.answer.refusal, 0);
    return made;
}
