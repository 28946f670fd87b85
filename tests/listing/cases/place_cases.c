/* Small cases again: what a place shows of the record that it holds. */

#include "../listing.h"

/* Each of the five answers and of the two reasons, in row 0; the two records of place 3 come twice each. At place 9
   both reasons hold. The records of places 4, 7, 8, 10 and 11 are refused: they have another row, that of place 11 one
   that is not in the table. At 4 and 11 nothing else is wrong; at 7 both reasons would hold, at 8 the reason 14, at 10
   the reason 10. The radius number that is not in the row is 2, where a 0 stands behind the radii, but for place 12:
   there it is 8, where the step stands. */
static const uint8_t answers_table[] = {
    3, 2, 0, 2, 0, 0, 0, 0, 0, 0, 1, 0, 0, 8, 0, 0, /* places 0 to 7: N = 18, b = 5 */
    2, 2, 0, 3, 0, 0, 0, 0, 0, 0, 1, 0, 0, 6, 0, 0, /* places 8 to 13: N = 12, b = 4 */
};
static const uint8_t answers_records[] = {
    RECORD(0, 0, 1, 17),         RECORD(1, 0, 1, 31), RECORD(3, 0, 1, 5),          RECORD(3, 0, 1, 7),
    RECORD(4, 1, 1, 5),          RECORD(5, 0, 2, 0),  RECORD(6, 0, 1, 32),         RECORD(3, 0, 1, 5),
    RECORD(7, 1, 2, 0xffffffff), RECORD(8, 0, 1, 17), RECORD(9, 1, 2, 0xffffffff), RECORD(10, 0, 2, 0),
    RECORD(11, 255, 1, 11),      RECORD(3, 0, 1, 7),  RECORD(12, 1, 8, 0),         RECORD(13, 1, 1, 11),
};
static const char answers_text[] = "0 sound 0 -2 0 0\n"
                                   "1 mended 13 0 -2 0\n"
                                   "2 missing 0 0 0 0\n"
                                   "3 contested 0 0 0 0\n"
                                   "4 missing 0 0 0 0\n"
                                   "5 unreadable 10 0 0 0\n"
                                   "6 unreadable 14 0 0 0\n"
                                   "7 missing 0 0 0 0\n"
                                   "8 missing 0 0 0\n"
                                   "9 unreadable 10 0 0\n"
                                   "10 missing 0 0 0\n"
                                   "11 missing 0 0 0\n"
                                   "12 unreadable 10 0 0\n"
                                   "13 sound 0 -3 0\n"
                                   "tally 2 1 6 1 4 5\n";

/* The first and the last place of each row. In rows 0 to 2 the records have the place's row; then that of a neighbour,
   with which they are refused, but for the last place of all. Codeword 1 is a point in every row. */
static const uint8_t six_rows[] = {
    1, 2, 0, 5, 0, 0, 0, 0, 0, 0, 1, 0, 0, 2, 0, 0, /* places 0 and 1 */
    2, 2, 0, 3, 0, 0, 0, 0, 0, 0, 1, 0, 0, 3, 0, 0, /* places 2 to 4 */
    3, 2, 0, 2, 0, 0, 0, 0, 0, 0, 1, 0, 0, 1, 0, 0, /* place 5 */
    1, 2, 0, 5, 0, 0, 0, 0, 0, 0, 1, 0, 0, 1, 0, 0, /* place 6 */
    2, 2, 0, 3, 0, 0, 0, 0, 0, 0, 1, 0, 0, 2, 0, 0, /* places 7 and 8 */
    3, 2, 0, 2, 0, 0, 0, 0, 0, 0, 1, 0, 0, 2, 0, 0, /* places 9 and 10 */
};
static const uint8_t ends_records[] = {
    RECORD(0, 0, 1, 1), RECORD(1, 0, 1, 1), RECORD(2, 1, 1, 1), RECORD(4, 1, 1, 1), RECORD(5, 2, 1, 1),
    RECORD(6, 2, 1, 1), RECORD(7, 3, 1, 1), RECORD(8, 5, 1, 1), RECORD(9, 4, 1, 1), RECORD(10, 5, 1, 1),
};
static const char ends_text[] = "0 sound 0 -5\n"
                                "1 sound 0 -5\n"
                                "2 sound 0 1 -2\n"
                                "3 missing 0 0 0\n"
                                "4 sound 0 1 -2\n"
                                "5 sound 0 0 1 -1\n"
                                "6 missing 0 0\n"
                                "7 missing 0 0 0\n"
                                "8 missing 0 0 0\n"
                                "9 missing 0 0 0 0\n"
                                "10 sound 0 0 1 -1\n"
                                "tally 6 0 5 0 0 4\n";

/* Each N is a power of two, so that nothing is mended. */
static const uint8_t powers_table[] = {
    1, 3, 0, 5, 32, 0, 0, 0, 0, 0, 1, 0, 0, 5, 0, 0, /* places 0 to 4 */
    2, 3, 0, 1, 2,  0, 0, 0, 0, 0, 1, 0, 0, 8, 0, 0, /* places 5 to 12 */
};
static const uint8_t powers_records[] = {
    RECORD(0, 0, 1, 0), RECORD(1, 0, 1, 1),  RECORD(2, 0, 1, 2),  RECORD(3, 0, 1, 3),   /* N = 2 */
    RECORD(4, 0, 2, 1),                                                                 /* and with radius 32 */
    RECORD(5, 1, 1, 0), RECORD(6, 1, 1, 3),  RECORD(7, 1, 1, 4),  RECORD(8, 1, 1, 7),   /* N = 4 */
    RECORD(9, 1, 2, 3), RECORD(10, 1, 2, 7), RECORD(11, 1, 2, 8), RECORD(12, 1, 2, 15), /* N = 8 */
};
static const char powers_text[] = "0 sound 0 5\n"
                                  "1 sound 0 -5\n"
                                  "2 unreadable 14 0\n"
                                  "3 unreadable 14 0\n"
                                  "4 sound 0 -32\n"
                                  "5 sound 0 0 1\n"
                                  "6 sound 0 -1 0\n"
                                  "7 unreadable 14 0 0\n"
                                  "8 unreadable 14 0 0\n"
                                  "9 sound 0 -1 -1\n"
                                  "10 sound 0 -2 0\n"
                                  "11 unreadable 14 0 0\n"
                                  "12 unreadable 14 0 0\n"
                                  "tally 7 0 0 0 6 0\n";

/* Radius 0 alone: N = 1 and b = 0. */
static const uint8_t radius_0_table[] = {4, 1, 0, 0, 0, 0, 0, 0, 0, 0, 1, 0, 0, 4, 0, 0};
static const uint8_t radius_0_records[] = {RECORD(0, 0, 0, 1), RECORD(1, 0, 0, 0), RECORD(2, 0, 0, 0x80000000),
                                           RECORD(3, 0, 0, 0xffffffff)};
static const char radius_0_text[] = "0 unreadable 14 0 0 0 0\n"
                                    "1 sound 0 0 0 0 0\n"
                                    "2 unreadable 14 0 0 0 0\n"
                                    "3 unreadable 14 0 0 0 0\n"
                                    "tally 1 0 0 0 3 0\n";

/* Length 16 and radius 12, b = 32: codewords 0, 2^31, N - 1, N and 2^32 - 1. The ranges for s = 12, 11, 10, 9 and 8
   start at 0, 7,454,720, 105,857,024, 556,867,584 and 1,523,318,784. Index 2^31 has s = 8, pattern 7,388, shape 104,
   sign 0; N - 2^31, which is 1,427,571,712, has s = 9, pattern 10,306, shape 104, sign 0; 2^31 - 1 has s = 8, pattern
   7,388, shape 103, sign 255. */
static const uint8_t widest_table[] = {16, 2, 0, 12, 0, 0, 0, 0, 0, 0, 1, 0, 0, 5, 0, 0};
static const uint8_t widest_records[] = {
    RECORD(0, 0, 1, 0), RECORD(1, 0, 1, 0x80000000), RECORD(2, 0, 1, 3575055359), RECORD(3, 0, 1, 3575055360), RECORD(4, 0, 1, 0xffffffff),
};
static const char widest_text[] = "0 sound 0 0 0 0 0 1 1 1 1 1 1 1 1 1 1 1 1\n"
                                  "1 sound 0 1 0 0 1 0 0 2 4 0 1 0 1 0 1 1 0\n"
                                  "2 sound 0 -12 0 0 0 0 0 0 0 0 0 0 0 0 0 0 0\n"
                                  "3 mended 0 1 2 1 0 3 0 0 1 1 1 0 1 1 0 0 0\n"
                                  "4 mended 719911935 -1 0 0 -1 0 0 -2 -3 0 -2 0 -1 0 -1 -1 0\n"
                                  "tally 3 2 0 0 0 0\n";

/* Length 3 and radius 4, N = 66 and b = 7: every pattern with each of its shapes, the signs in turn. The ranges for
   s = 3, 2 and 1 start at 0, 24 and 60. The last place is mended, to index 63; its distance is 61. */
static const uint8_t shapes_table[] = {3, 2, 0, 4, 0, 0, 0, 0, 0, 0, 1, 0, 0, 16, 0, 0};
static const uint8_t shapes_records[] = {
    RECORD(0, 0, 1, 1),    RECORD(1, 0, 1, 10),  RECORD(2, 0, 1, 20),  /* s = 3 */
    RECORD(3, 0, 1, 25),   RECORD(4, 0, 1, 30),  RECORD(5, 0, 1, 35),  /* s = 2, pattern 0 */
    RECORD(6, 0, 1, 36),   RECORD(7, 0, 1, 41),  RECORD(8, 0, 1, 46),  /* pattern 1 */
    RECORD(9, 0, 1, 51),   RECORD(10, 0, 1, 52), RECORD(11, 0, 1, 57), /* pattern 2 */
    RECORD(12, 0, 1, 61),  RECORD(13, 0, 1, 62), RECORD(14, 0, 1, 65), /* s = 1 */
    RECORD(15, 0, 1, 127),
};
static const char shapes_text[] = "0 sound 0 1 1 -2\n"
                                  "1 sound 0 1 -2 1\n"
                                  "2 sound 0 -2 1 1\n"
                                  "3 sound 0 0 1 -3\n"
                                  "4 sound 0 0 -2 2\n"
                                  "5 sound 0 0 -3 -1\n"
                                  "6 sound 0 1 0 3\n"
                                  "7 sound 0 2 0 -2\n"
                                  "8 sound 0 -3 0 1\n"
                                  "9 sound 0 -1 -3 0\n"
                                  "10 sound 0 2 2 0\n"
                                  "11 sound 0 3 -1 0\n"
                                  "12 sound 0 0 0 -4\n"
                                  "13 sound 0 0 4 0\n"
                                  "14 sound 0 -4 0 0\n"
                                  "15 mended 61 0 -4 0\n"
                                  "tally 15 1 0 0 0 0\n";

/* Mended places with distances of one to ten digits, some of them beside what 8, 16 and 24 bits hold. Row 0 has two
   shells: N = 18 and b = 5, then N = 66 and b = 7. In rows 1 and 2 b = 32, and N is 2,556,801,700, then 3,575,055,360.
   In no shell is a distance larger than that of place 13. */
static const uint8_t distances_table[] = {
    3,  3, 0, 2,  4, 0, 0, 0, 0, 0, 1, 0, 0, 5, 0, 0, /* places 0 to 4 */
    10, 2, 0, 21, 0, 0, 0, 0, 0, 0, 1, 0, 0, 9, 0, 0, /* places 5 to 13 */
    16, 2, 0, 12, 0, 0, 0, 0, 0, 0, 1, 0, 0, 2, 0, 0, /* places 14 and 15 */
};
static const uint8_t distances_records[] = {
    RECORD(0, 0, 1, 19),          RECORD(1, 0, 1, 31),          RECORD(2, 0, 2, 66),          RECORD(3, 0, 2, 100),
    RECORD(4, 0, 2, 127),         RECORD(5, 1, 1, 2556801709),  RECORD(6, 1, 1, 2556801955),  RECORD(7, 1, 1, 2556801956),
    RECORD(8, 1, 1, 2556867235),  RECORD(9, 1, 1, 2556867236),  RECORD(10, 1, 1, 2556901699), RECORD(11, 1, 1, 2573578916),
    RECORD(12, 1, 1, 3556801700), RECORD(13, 1, 1, 0xffffffff), RECORD(14, 2, 1, 3575055361), RECORD(15, 2, 1, 0xffffffff),
};
static const char distances_text[] = "0 mended 1 0 -1 -1\n"
                                     "1 mended 13 0 -2 0\n"
                                     "2 mended 0 1 -1 2\n"
                                     "3 mended 34 1 0 3\n"
                                     "4 mended 61 0 -4 0\n"
                                     "5 mended 9 3 -1 2 0 -1 3 -1 -3 5 -2\n"
                                     "6 mended 255 -3 -1 2 0 -1 3 1 3 -5 -2\n"
                                     "7 mended 256 -3 -1 2 0 -1 3 1 -3 5 2\n"
                                     "8 mended 65535 3 -1 2 0 -1 4 1 7 -1 -1\n"
                                     "9 mended 65536 3 -1 2 0 -1 4 1 -7 1 1\n"
                                     "10 mended 99999 -3 1 -2 0 1 5 1 2 -5 -1\n"
                                     "11 mended 16777216 5 -3 2 0 -1 3 2 -3 1 1\n"
                                     "12 mended 1000000000 -4 6 -3 0 1 2 -2 2 1 0\n"
                                     "13 mended 1738165595 -1 -3 -7 0 0 -1 -1 -6 0 -2\n"
                                     "14 mended 1 1 2 1 0 3 0 0 1 1 1 0 1 -1 0 0 0\n"
                                     "15 mended 719911935 -1 0 0 -1 0 0 -2 -3 0 -2 0 -1 0 -1 -1 0\n"
                                     "tally 0 16 0 0 0 0\n";

static const struct stored_case cases[] = {
    {"every_answer", BYTES(answers_table), BYTES(answers_records), answers_text},
    {"ends_of_rows", BYTES(six_rows), BYTES(ends_records), ends_text},
    {"powers_of_two", BYTES(powers_table), BYTES(powers_records), powers_text},
    {"radius_0", BYTES(radius_0_table), BYTES(radius_0_records), radius_0_text},
    {"widest", BYTES(widest_table), BYTES(widest_records), widest_text},
    {"every_shape", BYTES(shapes_table), BYTES(shapes_records), shapes_text},
    {"distances", BYTES(distances_table), BYTES(distances_records), distances_text},
};

/* Length 3 and radius 2, N = 18 and b = 5, then length 2 and radius 3, N = 12 and b = 4: codewords from 0 to
   2^b, one a place. */
enum { PLACES_OF_0 = 33, PLACES_OF_1 = 17, CODEWORDS = PLACES_OF_0 + PLACES_OF_1 };
static const uint8_t codewords_table[] = {
    3, 2, 0, 2, 0, 0, 0, 0, 0, 0, 1, 0, 0, PLACES_OF_0, 0, 0, /* places 0 to 32 */
    2, 2, 0, 3, 0, 0, 0, 0, 0, 0, 1, 0, 0, PLACES_OF_1, 0, 0, /* places 33 to 49 */
};
static const char codewords_text[] = "0 sound 0 0 1 1\n"
                                     "1 sound 0 0 1 -1\n"
                                     "2 sound 0 0 -1 1\n"
                                     "3 sound 0 0 -1 -1\n"
                                     "4 sound 0 1 0 1\n"
                                     "5 sound 0 1 0 -1\n"
                                     "6 sound 0 -1 0 1\n"
                                     "7 sound 0 -1 0 -1\n"
                                     "8 sound 0 1 1 0\n"
                                     "9 sound 0 1 -1 0\n"
                                     "10 sound 0 -1 1 0\n"
                                     "11 sound 0 -1 -1 0\n"
                                     "12 sound 0 0 0 2\n"
                                     "13 sound 0 0 0 -2\n"
                                     "14 sound 0 0 2 0\n"
                                     "15 sound 0 0 -2 0\n"
                                     "16 sound 0 2 0 0\n"
                                     "17 sound 0 -2 0 0\n"
                                     "18 mended 0 0 -1 1\n"
                                     "19 mended 1 0 -1 -1\n"
                                     "20 mended 2 1 0 1\n"
                                     "21 mended 3 1 0 -1\n"
                                     "22 mended 4 -1 0 1\n"
                                     "23 mended 5 -1 0 -1\n"
                                     "24 mended 6 1 1 0\n"
                                     "25 mended 7 1 -1 0\n"
                                     "26 mended 8 -1 1 0\n"
                                     "27 mended 9 -1 -1 0\n"
                                     "28 mended 10 0 0 2\n"
                                     "29 mended 11 0 0 -2\n"
                                     "30 mended 12 0 2 0\n"
                                     "31 mended 13 0 -2 0\n"
                                     "32 unreadable 14 0 0 0\n"
                                     "33 sound 0 1 2\n"
                                     "34 sound 0 1 -2\n"
                                     "35 sound 0 -1 2\n"
                                     "36 sound 0 -1 -2\n"
                                     "37 sound 0 2 1\n"
                                     "38 sound 0 2 -1\n"
                                     "39 sound 0 -2 1\n"
                                     "40 sound 0 -2 -1\n"
                                     "41 sound 0 0 3\n"
                                     "42 sound 0 0 -3\n"
                                     "43 sound 0 3 0\n"
                                     "44 sound 0 -3 0\n"
                                     "45 mended 0 2 1\n"
                                     "46 mended 1 2 -1\n"
                                     "47 mended 2 -2 1\n"
                                     "48 mended 3 -2 -1\n"
                                     "49 unreadable 14 0 0\n"
                                     "tally 30 18 0 0 2 0\n";

/* Both rows have the selector. */
void make_every_codeword(const char *folder, const char *name, uint8_t selector, const char *text)
{
    uint8_t records[RECORD_SIZE * CODEWORDS], table[sizeof codewords_table];
    for (uint64_t place = 0; place < CODEWORDS; place++) {
        const uint64_t row = place >= PLACES_OF_0;
        write_record(records + RECORD_SIZE * place, place, row, 1, place - PLACES_OF_0 * row);
    }
    for (uint64_t at = 0; at < sizeof table; at++)
        table[at] = at % ROW_SIZE == AT_SELECTOR ? selector : codewords_table[at];
    write_case(folder, &(struct stored_case){name, BYTES(table), BYTES(records), text});
}

void make_place_cases(const char *folder)
{
    write_cases(folder, cases, ENTRIES(cases));
    make_every_codeword(folder, "every_codeword", PRODUCT, codewords_text);
}
