/* Small cases again: pairing tables that are bad, each by one fault alone, and a good one. */

#include "../listing.h"

/* Row 2 is bad, in its last byte alone; the records are of places before it and behind it. */
static const uint8_t bad_table[] = {
    3, 2, 0, 2, 0, 0, 0, 0, 0, 0, 1, 0,    0, 2, 0, 0, /* places 0 and 1 */
    2, 2, 0, 3, 0, 0, 0, 0, 0, 0, 0, 0x80, 0, 1, 0, 0, /* place 2 */
    4, 1, 0, 0, 0, 0, 0, 0, 0, 0, 1, 0,    0, 2, 0, 1, /* places 3 and 4 */
    1, 2, 0, 5, 0, 0, 0, 0, 0, 0, 1, 0,    0, 1, 0, 0, /* place 5 */
};
static const uint8_t bad_table_records[] = {0, 0, 0, 1, 0, 0, 0, 0x05, 0, 2, 1, 1, 0, 0, 0, 0x05, 0, 5, 3, 1, 0, 0, 0, 1};

static const uint8_t one_place[ROW_SIZE] = {1, 1, 0, 0, 0, 0, 0, 0, 0, 0, 1, 0, 0, 1, 0, 0};
static const uint8_t one_record[] = {0, 0, 0, 0, 0, 0, 0, 0};

/* 4,097 places in all; and 65,536, which are 0 in two bytes. */
static const uint8_t total_passed[] = {
    1, 1, 0, 0, 0, 0, 0, 0, 0, 0, 1, 0, 0x0f, 0xa0, 0, 0, /* 4,000 places */
    1, 1, 0, 0, 0, 0, 0, 0, 0, 0, 1, 0, 0,    97,   0, 0, /* 97 */
};
static const uint8_t total_wraps[] = {
    1, 1, 0, 0, 0, 0, 0, 0, 0, 0, 1, 0, 0,    1,    0, 0, /* 1 place */
    1, 1, 0, 0, 0, 0, 0, 0, 0, 0, 1, 0, 0xff, 0xff, 0, 0, /* 65,535 */
};

/* A good table with numbers at the ends of their ranges. A row has one place, and its record the last point of the
   row's last radius. */
static const uint8_t good_table[] = {
    1,  8, 0, 1,  2,  3, 4, 5, 6, 31, 32,   0,    0, 1, 0, 0, /* the step's high byte would do as a ninth radius */
    16, 2, 0, 12, 0,  0, 0, 0, 0, 0,  0xff, 0xff, 0, 1, 0, 0, /* the largest radius that is usable with length 16 */
    2,  3, 0, 2,  32, 0, 0, 0, 0, 0,  1,    0,    0, 1, 0, 0, /* the largest radius that there is */
    16, 1, 0, 0,  0,  0, 0, 0, 0, 0,  0,    1,    0, 1, 0, 0,
};
static const uint8_t good_records[] = {RECORD(0, 0, 7, 1), RECORD(1, 1, 1, 3575055359), RECORD(2, 2, 2, 127), RECORD(3, 3, 0, 0)};
static const char good_text[] = "0 sound 0 -31\n"
                                "1 sound 0 -12 0 0 0 0 0 0 0 0 0 0 0 0 0 0 0\n"
                                "2 sound 0 -32 0\n"
                                "3 sound 0 0 0 0 0 0 0 0 0 0 0 0 0 0 0 0 0\n"
                                "tally 4 0 0 0 0 0\n";

/* What makes it bad: one byte of a row. */
static const struct {
    const char *name;
    uint64_t row;
    uint64_t at;
    uint8_t byte;
    enum fault fault;
} changes[] = {
    {"bad_length_0", 3, AT_LENGTH, 0, BAD_LENGTH},
    {"bad_length_17", 3, AT_LENGTH, 17, BAD_LENGTH},
    {"bad_number_0", 3, AT_NUMBER_OF_RADII, 0, BAD_NUMBER_OF_RADII},
    {"bad_number_9", 0, AT_NUMBER_OF_RADII, 9, BAD_NUMBER_OF_RADII},
    {"bad_first_radius", 3, AT_RADII, 1, FIRST_RADIUS_NOT_0},
    {"bad_equal_radii", 2, AT_RADII + 1, 32, RADIUS_NOT_LARGER},
    {"bad_radius_33", 2, AT_RADII + 2, 33, RADIUS_ABOVE_32},
    {"bad_total", 1, AT_SELECTOR, PRODUCT_PRODUCT, RADIUS_NOT_USABLE},
    {"bad_unusable", 1, AT_RADII + 1, 13, RADIUS_NOT_USABLE},
    {"bad_beyond", 3, AT_RADII + 7, 12, BEYOND_NOT_0},
    {"bad_step", 3, AT_STEP + 1, 0, NO_STEP},
    {"bad_places", 3, AT_PLACES + 1, 0, NO_PLACES},
    {"bad_byte_14", 3, AT_SELECTOR, 3, BAD_SELECTOR},
};

static uint32_t faults_made; /* the bit 1 << fault for each */

static void make_bad(const char *folder, const char *name, enum fault fault, struct bytes pairing, struct bytes records)
{
    own_figure(name, judge(pairing.bytes, pairing.size).faults, (uint64_t)1 << fault);
    faults_made |= (uint32_t)1 << fault;
    write_case(folder, &(struct stored_case){name, pairing, records, "refused 7\n"});
}

static void make_changed(const char *folder)
{
    uint8_t table[sizeof good_table];
    for (uint64_t i = 0; i < ENTRIES(changes); i++) {
        for (uint64_t at = 0; at < sizeof table; at++)
            table[at] = good_table[at];
        table[ROW_SIZE * changes[i].row + changes[i].at] = changes[i].byte;
        make_bad(folder, changes[i].name, changes[i].fault, (struct bytes)BYTES(table), (struct bytes)BYTES(good_records));
    }
}

/* 33 good rows of one place; the first 32 alone would be a good table. */
static void make_long_table(const char *folder)
{
    uint8_t table[ROW_SIZE * (MOST_ROWS + 1)];
    for (uint64_t i = 0; i < sizeof table; i++)
        table[i] = one_place[i % ROW_SIZE];
    own_figure("faults of the long table without its last row", judge(table, sizeof table - ROW_SIZE).faults, 0);
    make_bad(folder, "long_table", MORE_THAN_32_ROWS, (struct bytes)BYTES(table), (struct bytes)BYTES(one_record));
}

/* Of the last row of `part_of_a_row` the last byte is not there. Each fault that a table can have is made. */
void make_table_cases(const char *folder)
{
    const struct bytes records = BYTES(one_record);
    own_figure("faults of the good table", judge(good_table, sizeof good_table).faults, 0);
    write_case(folder, &(struct stored_case){"good_table", BYTES(good_table), BYTES(good_records), good_text});
    make_changed(folder);
    make_bad(folder, "bad_table", BYTE_15_NOT_0, (struct bytes)BYTES(bad_table), (struct bytes)BYTES(bad_table_records));
    make_bad(folder, "no_files", NO_BYTES, (struct bytes){0}, (struct bytes){0});
    make_bad(folder, "part_of_a_row", PART_OF_A_ROW, (struct bytes){good_table, sizeof good_table - 1}, (struct bytes)BYTES(good_records));
    make_long_table(folder);
    make_bad(folder, "total_passed", TOTAL_PASSED, (struct bytes)BYTES(total_passed), records);
    make_bad(folder, "total_wraps", TOTAL_PASSED, (struct bytes)BYTES(total_wraps), records);
    own_figure("faults of bad tables", faults_made, ((uint64_t)1 << FAULTS) - 1);
}
