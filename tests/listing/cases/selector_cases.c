/* Small cases again: what a place shows by the selector of its row. */

#include "../listing.h"

/* The codewords of `every_codeword` with selector 1. Where the first coordinate is 0, 1, -1, 2 and -2 the points begin
   at 0, 8, 12, 16 and 17; of length 2 those of 0, 1, -1, 2, -2, 3 and -3 begin at 0, 2, 4, 6, 8, 10 and 11. */
static const char codewords_text[] = "0 sound 0 0 0 2\n"
                                     "1 sound 0 0 0 -2\n"
                                     "2 sound 0 0 1 1\n"
                                     "3 sound 0 0 1 -1\n"
                                     "4 sound 0 0 -1 1\n"
                                     "5 sound 0 0 -1 -1\n"
                                     "6 sound 0 0 2 0\n"
                                     "7 sound 0 0 -2 0\n"
                                     "8 sound 0 1 0 1\n"
                                     "9 sound 0 1 0 -1\n"
                                     "10 sound 0 1 1 0\n"
                                     "11 sound 0 1 -1 0\n"
                                     "12 sound 0 -1 0 1\n"
                                     "13 sound 0 -1 0 -1\n"
                                     "14 sound 0 -1 1 0\n"
                                     "15 sound 0 -1 -1 0\n"
                                     "16 sound 0 2 0 0\n"
                                     "17 sound 0 -2 0 0\n"
                                     "18 mended 0 0 1 1\n"
                                     "19 mended 1 0 1 -1\n"
                                     "20 mended 2 0 -1 1\n"
                                     "21 mended 3 0 -1 -1\n"
                                     "22 mended 4 0 2 0\n"
                                     "23 mended 5 0 -2 0\n"
                                     "24 mended 6 1 0 1\n"
                                     "25 mended 7 1 0 -1\n"
                                     "26 mended 8 1 1 0\n"
                                     "27 mended 9 1 -1 0\n"
                                     "28 mended 10 -1 0 1\n"
                                     "29 mended 11 -1 0 -1\n"
                                     "30 mended 12 -1 1 0\n"
                                     "31 mended 13 -1 -1 0\n"
                                     "32 unreadable 14 0 0 0\n"
                                     "33 sound 0 0 3\n"
                                     "34 sound 0 0 -3\n"
                                     "35 sound 0 1 2\n"
                                     "36 sound 0 1 -2\n"
                                     "37 sound 0 -1 2\n"
                                     "38 sound 0 -1 -2\n"
                                     "39 sound 0 2 1\n"
                                     "40 sound 0 2 -1\n"
                                     "41 sound 0 -2 1\n"
                                     "42 sound 0 -2 -1\n"
                                     "43 sound 0 3 0\n"
                                     "44 sound 0 -3 0\n"
                                     "45 mended 0 -1 2\n"
                                     "46 mended 1 -1 -2\n"
                                     "47 mended 2 2 1\n"
                                     "48 mended 3 2 -1\n"
                                     "49 unreadable 14 0 0\n"
                                     "tally 30 18 0 0 2 0\n";

/* The codewords 5, 9 and 20 in three rows that differ in the selector alone, and 5 in a shorter row behind them. */
static const uint8_t both_table[] = {
    3, 2, 0, 2, 0, 0, 0, 0, 0, 0, 1, 0, 0, 3, 1, 0, /* places 0 to 2 */
    3, 2, 0, 2, 0, 0, 0, 0, 0, 0, 1, 0, 0, 3, 0, 0, /* places 3 to 5 */
    3, 2, 0, 2, 0, 0, 0, 0, 0, 0, 1, 0, 0, 3, 1, 0, /* places 6 to 8 */
    2, 2, 0, 3, 0, 0, 0, 0, 0, 0, 1, 0, 0, 1, 0, 0, /* place 9 */
};
static const uint8_t both_records[] = {
    RECORD(0, 0, 1, 5), RECORD(1, 0, 1, 9), RECORD(2, 0, 1, 20), /* row 0 */
    RECORD(3, 1, 1, 5), RECORD(4, 1, 1, 9), RECORD(5, 1, 1, 20), /* row 1 */
    RECORD(6, 2, 1, 5), RECORD(7, 2, 1, 9), RECORD(8, 2, 1, 20), /* row 2 */
    RECORD(9, 3, 1, 5),
};
static const char both_text[] = "0 sound 0 0 -1 -1\n"
                                "1 sound 0 1 0 -1\n"
                                "2 mended 2 0 -1 1\n"
                                "3 sound 0 1 0 -1\n"
                                "4 sound 0 1 -1 0\n"
                                "5 mended 2 1 0 1\n"
                                "6 sound 0 0 -1 -1\n"
                                "7 sound 0 1 0 -1\n"
                                "8 mended 2 0 -1 1\n"
                                "9 sound 0 2 -1\n"
                                "tally 7 3 0 0 0 0\n";

/* The codewords of `widest` with selector 1. Index 2^31 is 1,732,242,690 for a first coordinate of 1, and 414,137,052
   for -1 behind it, 990,736 for -1 at coordinate 7, 113,020 for 5 at 9, 142 for 2 at 12 and 8 for 1 at 13. 2^31 - 1 is
   the same up to 142, and 7 for -2 at 14. N - 2^31, which is 1,427,571,712, is 1,414,604,184 for 2 at coordinate 1,
   11,414,898 for 1 at 4, 1,238,420 for -1 at 6, 294,112 for 2 at 7, 17,584 for -1 at 8, 2,364 for 1 at 9, 142 for 2 at
   12 and 8 for 1 at 13. */
static const uint8_t widest_table[] = {16, 2, 0, 12, 0, 0, 0, 0, 0, 0, 1, 0, 0, 5, 1, 0};
static const uint8_t widest_records[] = {
    RECORD(0, 0, 1, 0), RECORD(1, 0, 1, 0x80000000), RECORD(2, 0, 1, 3575055359), RECORD(3, 0, 1, 3575055360), RECORD(4, 0, 1, 0xffffffff),
};
static const char widest_text[] = "0 sound 0 0 0 0 0 0 0 0 0 0 0 0 0 0 0 0 12\n"
                                  "1 sound 0 1 -1 0 0 0 0 0 -1 0 5 0 0 2 1 0 1\n"
                                  "2 sound 0 -12 0 0 0 0 0 0 0 0 0 0 0 0 0 0 0\n"
                                  "3 mended 0 0 2 0 0 1 0 -1 2 -1 1 0 0 2 1 0 1\n"
                                  "4 mended 719911935 1 -1 0 0 0 0 0 -1 0 5 0 0 2 0 -2 0\n"
                                  "tally 3 2 0 0 0 0\n";

static const struct stored_case cases[] = {
    {"both_selectors", BYTES(both_table), BYTES(both_records), both_text},
    {"magnitude_widest", BYTES(widest_table), BYTES(widest_records), widest_text},
};

void make_selector_cases(const char *folder)
{
    make_every_codeword(folder, "magnitude_codewords", MAGNITUDE, codewords_text);
    write_cases(folder, cases, ENTRIES(cases));
}
