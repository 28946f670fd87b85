/* Small cases again: what a place shows in rows of selector 2, and beside rows of the other selectors. */

#include "../listing.h"

/* Every codeword of length 2 and radius 4 up to 2^b: total 20, b = 5, and 12 to 15 are empty. Then codewords of length
   3 and radius 4 beside empty shapes and the end: total 86, b = 7. The ranges for s = 3, 2 and 1 start at 0, 32 and 80,
   and 24 to 31, 44 to 47, 60 to 63 and 76 to 79 are empty. Last those of length 3 and radius 5: total 118, b = 7, and
   48 to 63 are empty, so that no codeword is mended. */
static const uint8_t codewords_table[] = {
    2, 2, 0, 4, 0, 0, 0, 0, 0, 0, 1, 0, 0, 33, 2, 0, /* places 0 to 32 */
    3, 2, 0, 4, 0, 0, 0, 0, 0, 0, 1, 0, 0, 30, 2, 0, /* places 33 to 62 */
    3, 2, 0, 5, 0, 0, 0, 0, 0, 0, 1, 0, 0, 9,  2, 0, /* places 63 to 71 */
};
static const uint8_t codewords[] = {
    0,  1,  2,  3,  4,  5,  6,  7,  8,  9,  10,  11,  12,  13,  14,  15,  16, /* row 0 */
    17, 18, 19, 20, 21, 22, 23, 24, 25, 26, 27,  28,  29,  30,  31,  32,      /* row 0 */
    23, 24, 31, 32, 43, 44, 47, 48, 59, 60, 63,  64,  75,  76,  79,           /* row 1 */
    80, 85, 86, 87, 88, 95, 96, 107, 108, 111, 112, 123, 124, 127, 128,       /* row 1 */
    47, 48, 63, 64, 117, 118, 119, 127, 128,                                  /* row 2 */
};
static const char codewords_text[] = "0 sound 0 1 3\n"
                                     "1 sound 0 1 -3\n"
                                     "2 sound 0 -1 3\n"
                                     "3 sound 0 -1 -3\n"
                                     "4 sound 0 2 2\n"
                                     "5 sound 0 2 -2\n"
                                     "6 sound 0 -2 2\n"
                                     "7 sound 0 -2 -2\n"
                                     "8 sound 0 3 1\n"
                                     "9 sound 0 3 -1\n"
                                     "10 sound 0 -3 1\n"
                                     "11 sound 0 -3 -1\n"
                                     "12 unreadable 15 0 0\n"
                                     "13 unreadable 15 0 0\n"
                                     "14 unreadable 15 0 0\n"
                                     "15 unreadable 15 0 0\n"
                                     "16 sound 0 0 4\n"
                                     "17 sound 0 0 -4\n"
                                     "18 sound 0 4 0\n"
                                     "19 sound 0 -4 0\n"
                                     "20 mended 0 2 2\n"
                                     "21 mended 1 2 -2\n"
                                     "22 mended 2 -2 2\n"
                                     "23 mended 3 -2 -2\n"
                                     "24 mended 4 3 1\n"
                                     "25 mended 5 3 -1\n"
                                     "26 mended 6 -3 1\n"
                                     "27 mended 7 -3 -1\n"
                                     "28 unreadable 15 0 0\n"
                                     "29 unreadable 15 0 0\n"
                                     "30 unreadable 15 0 0\n"
                                     "31 unreadable 15 0 0\n"
                                     "32 unreadable 14 0 0\n"
                                     "33 sound 0 -2 -1 -1\n"
                                     "34 unreadable 15 0 0 0\n"
                                     "35 unreadable 15 0 0 0\n"
                                     "36 sound 0 0 1 3\n"
                                     "37 sound 0 0 -3 -1\n"
                                     "38 unreadable 15 0 0 0\n"
                                     "39 unreadable 15 0 0 0\n"
                                     "40 sound 0 1 0 3\n"
                                     "41 sound 0 -3 0 -1\n"
                                     "42 unreadable 15 0 0 0\n"
                                     "43 unreadable 15 0 0 0\n"
                                     "44 sound 0 1 3 0\n"
                                     "45 sound 0 -3 -1 0\n"
                                     "46 unreadable 15 0 0 0\n"
                                     "47 unreadable 15 0 0 0\n"
                                     "48 sound 0 0 0 4\n"
                                     "49 sound 0 -4 0 0\n"
                                     "50 mended 0 -2 -1 1\n"
                                     "51 mended 1 -2 -1 -1\n"
                                     "52 unreadable 15 0 0 0\n"
                                     "53 unreadable 15 0 0 0\n"
                                     "54 mended 10 0 1 3\n"
                                     "55 mended 21 0 -3 -1\n"
                                     "56 unreadable 15 0 0 0\n"
                                     "57 unreadable 15 0 0 0\n"
                                     "58 mended 26 1 0 3\n"
                                     "59 mended 37 -3 0 -1\n"
                                     "60 unreadable 15 0 0 0\n"
                                     "61 unreadable 15 0 0 0\n"
                                     "62 unreadable 14 0 0 0\n"
                                     "63 sound 0 -3 -1 -1\n"
                                     "64 unreadable 15 0 0 0\n"
                                     "65 unreadable 15 0 0 0\n"
                                     "66 sound 0 0 1 4\n"
                                     "67 sound 0 -5 0 0\n"
                                     "68 unreadable 15 0 0 0\n"
                                     "69 unreadable 15 0 0 0\n"
                                     "70 unreadable 15 0 0 0\n"
                                     "71 unreadable 14 0 0 0\n"
                                     "tally 28 14 0 0 30 0\n";

/* The codewords 5, 13, 16 and 21 in four rows that differ in the selector alone, and 20 in a longer row behind them.
   With the selectors 0 and 1 b is 4, and with 2 it is 5. */
static const uint8_t three_table[] = {
    2, 2, 0, 4, 0, 0, 0, 0, 0, 0, 1, 0, 0, 4, 2, 0, /* places 0 to 3 */
    2, 2, 0, 4, 0, 0, 0, 0, 0, 0, 1, 0, 0, 4, 0, 0, /* places 4 to 7 */
    2, 2, 0, 4, 0, 0, 0, 0, 0, 0, 1, 0, 0, 4, 1, 0, /* places 8 to 11 */
    2, 2, 0, 4, 0, 0, 0, 0, 0, 0, 1, 0, 0, 4, 2, 0, /* places 12 to 15 */
    3, 2, 0, 2, 0, 0, 0, 0, 0, 0, 1, 0, 0, 1, 0, 0, /* place 16 */
};
static const uint8_t three_records[] = {
    RECORD(0, 0, 1, 5),  RECORD(1, 0, 1, 13),  RECORD(2, 0, 1, 16),  RECORD(3, 0, 1, 21),  /* row 0 */
    RECORD(4, 1, 1, 5),  RECORD(5, 1, 1, 13),  RECORD(6, 1, 1, 16),  RECORD(7, 1, 1, 21),  /* row 1 */
    RECORD(8, 2, 1, 5),  RECORD(9, 2, 1, 13),  RECORD(10, 2, 1, 16), RECORD(11, 2, 1, 21), /* row 2 */
    RECORD(12, 3, 1, 5), RECORD(13, 3, 1, 13), RECORD(14, 3, 1, 16), RECORD(15, 3, 1, 21), /* row 3 */
    RECORD(16, 4, 1, 20),
};
static const char three_text[] = "0 sound 0 2 -2\n"
                                 "1 unreadable 15 0 0\n"
                                 "2 sound 0 0 4\n"
                                 "3 mended 1 2 -2\n"
                                 "4 sound 0 2 -2\n"
                                 "5 sound 0 0 -4\n"
                                 "6 unreadable 14 0 0\n"
                                 "7 unreadable 14 0 0\n"
                                 "8 sound 0 -1 -3\n"
                                 "9 sound 0 -3 -1\n"
                                 "10 unreadable 14 0 0\n"
                                 "11 unreadable 14 0 0\n"
                                 "12 sound 0 2 -2\n"
                                 "13 unreadable 15 0 0\n"
                                 "14 sound 0 0 4\n"
                                 "15 mended 1 2 -2\n"
                                 "16 mended 2 1 0 1\n"
                                 "tally 8 3 0 0 6 0\n";

/* Length 16 and radius 11, total 1,482,612,256 and b = 31. The ranges for s = 9 and 7 start at 140,148,736 and
   936,738,816, with 45 shapes of 64 and 210 of 256. 2^30 has s = 7, pattern 4,181, shape 0, sign 0, and 2^30 - 1 the
   pattern before and shape 255. The total is mended to s = 9, pattern 8,200, shape 47, and 1,482,620,928 to the pattern
   behind, shape 0, sign 0.

   Length 9 and radius 26, total 3,916,648,978 and b = 32. The range for s = 8 starts at 1,073,741,824, with 480,700
   shapes of 524,288. 2^31 has pattern 8, shape 0, sign 0, and 2^31 - 1 the pattern before and shape 524,287. The total
   is mended to pattern 5, shape 95,058, sign 18, and 4,283,808,767 to pattern 7, shape 480,699, sign 255. */
static const uint8_t widest_table[] = {
    16, 2, 0, 11, 0, 0, 0, 0, 0, 0, 1, 0, 0, 8, 2, 0, /* places 0 to 7 */
    9,  2, 0, 26, 0, 0, 0, 0, 0, 0, 1, 0, 0, 7, 2, 0, /* places 8 to 14 */
};
static const uint8_t widest_records[] = {
    RECORD(0, 0, 1, 0),           RECORD(1, 0, 1, 0x40000000),  RECORD(2, 0, 1, 0x3fffffff),  RECORD(3, 0, 1, 1482612255),
    RECORD(4, 0, 1, 1482612256),  RECORD(5, 0, 1, 1482620928),  RECORD(6, 0, 1, 0x7fffffff),  RECORD(7, 0, 1, 0x80000000),
    RECORD(8, 1, 1, 0),           RECORD(9, 1, 1, 0x80000000),  RECORD(10, 1, 1, 0x7fffffff), RECORD(11, 1, 1, 3916648977),
    RECORD(12, 1, 1, 3916648978), RECORD(13, 1, 1, 4283808767), RECORD(14, 1, 1, 0xffffffff),
};
static const char widest_text[] = "0 sound 0 0 0 0 0 0 1 1 1 1 1 1 1 1 1 1 1\n"
                                  "1 sound 0 0 1 0 0 1 1 0 0 1 0 0 0 0 1 1 5\n"
                                  "2 unreadable 15 0 0 0 0 0 0 0 0 0 0 0 0 0 0 0 0\n"
                                  "3 sound 0 -11 0 0 0 0 0 0 0 0 0 0 0 0 0 0 0\n"
                                  "4 unreadable 15 0 0 0 0 0 0 0 0 0 0 0 0 0 0 0 0\n"
                                  "5 mended 8672 1 1 0 0 0 1 0 1 1 1 0 1 1 3 0 0\n"
                                  "6 unreadable 15 0 0 0 0 0 0 0 0 0 0 0 0 0 0 0 0\n"
                                  "7 unreadable 14 0 0 0 0 0 0 0 0 0 0 0 0 0 0 0 0\n"
                                  "8 sound 0 1 1 1 1 1 1 1 1 18\n"
                                  "9 sound 0 1 1 1 1 1 1 1 19 0\n"
                                  "10 unreadable 15 0 0 0 0 0 0 0 0 0\n"
                                  "11 sound 0 -26 0 0 0 0 0 0 0 0\n"
                                  "12 mended 0 1 4 9 -1 1 0 2 -7 1\n"
                                  "13 mended 367159789 -19 -1 -1 -1 -1 -1 -1 0 -1\n"
                                  "14 unreadable 15 0 0 0 0 0 0 0 0 0\n"
                                  "tally 6 3 0 0 6 0\n";

static const struct stored_case cases[] = {
    {"three_selectors", BYTES(three_table), BYTES(three_records), three_text},
    {"product_product_widest", BYTES(widest_table), BYTES(widest_records), widest_text},
};

/* One codeword a place. */
static void make_codewords(const char *folder)
{
    uint8_t records[RECORD_SIZE * sizeof codewords];
    for (uint64_t place = 0; place < sizeof codewords; place++)
        write_record(records + RECORD_SIZE * place, place, place < 33 ? 0 : place < 63 ? 1 : 2, 1, codewords[place]);
    write_case(folder, &(struct stored_case){"product_product_codewords", BYTES(codewords_table), BYTES(records), codewords_text});
}

void make_field_cases(const char *folder)
{
    make_codewords(folder);
    write_cases(folder, cases, ENTRIES(cases));
}
