/* Small cases of a sender: a page that is sent, or the refusal; and what the listing shows of it. All of it is
   written down from the rules and comes from no program. */

#include "../listing.h"

#include <stddef.h>

/* docs/RULES.md, "Worked cases": the page of three places. */
static const uint8_t rows_table[] = {
    3, 2, 0, 2, 0, 0, 0, 0, 0, 0, 1, 0,  0, 2, 0, 0, /* places 0 and 1 */
    2, 2, 0, 4, 0, 0, 0, 0, 0, 0, 0, 77, 0, 1, 0, 0, /* place 2 */
};
static const uint8_t rows_run[] = {
    F32(0x3fc00000), F32(0),          F32(0xbf400000), /* 1.5, 0, -0.75 */
    F32(0),          F32(0),          F32(0xbfc00000), /* 0, 0, -1.5 */
    F32(0x3f800000), F32(0xbf800000),                  /* 1, -1 */
};
static const uint8_t rows_records[] = {RECORD(0, 0, 1, 5), RECORD(1, 0, 1, 13), RECORD(2, 1, 1, 5)};
static const char rows_text[] = "0 sound 0 1 0 -1\n"
                                "1 sound 0 0 0 -2\n"
                                "2 sound 0 2 -2\n"
                                "tally 3 0 0 0 0 0\n";
static const char rows_missing[] = "0 missing 0 0 0 0\n"
                                   "1 missing 0 0 0 0\n"
                                   "2 missing 0 0 0\n"
                                   "tally 0 0 3 0 0 0\n";

/* The same with row 0 of selector 1, and the vector of place 2 again in a row of selector 1. */
static const uint8_t selectors_table[] = {
    3, 2, 0, 2, 0, 0, 0, 0, 0, 0, 1, 0,  0, 2, 1, 0, /* places 0 and 1 */
    2, 2, 0, 4, 0, 0, 0, 0, 0, 0, 0, 77, 0, 1, 0, 0, /* place 2 */
    2, 2, 0, 4, 0, 0, 0, 0, 0, 0, 0, 77, 0, 1, 1, 0, /* place 3 */
};
static const uint8_t selectors_run[] = {
    F32(0x3fc00000), F32(0),          F32(0xbf400000), /* 1.5, 0, -0.75 */
    F32(0),          F32(0),          F32(0xbfc00000), /* 0, 0, -1.5 */
    F32(0x3f800000), F32(0xbf800000),                  /* 1, -1 */
    F32(0x3f800000), F32(0xbf800000),                  /* 1, -1 */
};
static const uint8_t selectors_records[] = {RECORD(0, 0, 1, 9), RECORD(1, 0, 1, 1), RECORD(2, 1, 1, 5), RECORD(3, 2, 1, 7)};
static const char selectors_text[] = "0 sound 0 1 0 -1\n"
                                     "1 sound 0 0 0 -2\n"
                                     "2 sound 0 2 -2\n"
                                     "3 sound 0 2 -2\n"
                                     "tally 4 0 0 0 0 0\n";

/* (-2, 0) and (0, 2) in three rows that differ in the selector alone, and (1, -3, 0) in a row of selector 2. With the
   selectors 2, 0 and 1 the point (-4,0) has the indices 19, 15 and 15, and (0,4) has 16, 12 and 0. */
static const uint8_t three_table[] = {
    2, 2, 0, 4, 0, 0, 0, 0, 0, 0, 0, 77, 0, 2, 2, 0, /* places 0 and 1 */
    2, 2, 0, 4, 0, 0, 0, 0, 0, 0, 0, 77, 0, 2, 0, 0, /* places 2 and 3 */
    2, 2, 0, 4, 0, 0, 0, 0, 0, 0, 0, 77, 0, 2, 1, 0, /* places 4 and 5 */
    3, 2, 0, 4, 0, 0, 0, 0, 0, 0, 1, 0,  0, 1, 2, 0, /* place 6 */
};
static const uint8_t three_run[] = {
    F32(0xc0000000), F32(0), F32(0), F32(0x40000000),  /* row 0 */
    F32(0xc0000000), F32(0), F32(0), F32(0x40000000),  /* row 1 */
    F32(0xc0000000), F32(0), F32(0), F32(0x40000000),  /* row 2 */
    F32(0x3f800000), F32(0xc0400000), F32(0x80000000), /* row 3 */
};
static const uint8_t three_records[] = {
    RECORD(0, 0, 1, 19), RECORD(1, 0, 1, 16), RECORD(2, 1, 1, 15), RECORD(3, 1, 1, 12),
    RECORD(4, 2, 1, 15), RECORD(5, 2, 1, 0),  RECORD(6, 3, 1, 65),
};
static const char three_text[] = "0 sound 0 -4 0\n"
                                 "1 sound 0 0 4\n"
                                 "2 sound 0 -4 0\n"
                                 "3 sound 0 0 4\n"
                                 "4 sound 0 -4 0\n"
                                 "5 sound 0 0 4\n"
                                 "6 sound 0 1 -3 0\n"
                                 "tally 7 0 0 0 0 0\n";

/* An infinity at place 1, and in place 2 a NaN and 32,768. */
static const uint8_t unusable_run[] = {
    F32(0x3fc00000), F32(0), F32(0xbf400000), F32(0), F32(0), F32(0x7f800000), F32(0x7fc00000), F32(0x47000000),
};

/* A coefficient more than there are coordinates, and three of its four bytes. */
static const uint8_t long_run[] = {
    F32(0x3fc00000), F32(0), F32(0xbf400000), F32(0), F32(0), F32(0xbfc00000), F32(0x3f800000), F32(0xbf800000), F32(0),
};
enum { LONG = sizeof long_run, CUT = LONG - 1, SHORT = sizeof unusable_run - F32_SIZE };

/* Row 1 is bad, in its last byte alone. */
static const uint8_t bad_table[] = {
    3, 2, 0, 2, 0, 0, 0, 0, 0, 0, 1, 0,  0, 2, 0, 0, /* places 0 and 1 */
    2, 2, 0, 4, 0, 0, 0, 0, 0, 0, 0, 77, 0, 1, 0, 1, /* place 2 */
};

/* Length 1, radii 0 to 7 and step 1: the radius is the magnitude of the whole number, as far as 7. */
static const uint8_t halves_table[] = {1, 8, 0, 1, 2, 3, 4, 5, 6, 7, 0, 1, 0, 14, 0, 0};
static const uint8_t halves_run[] = {
    F32(0x3b000000), /* place 0: 1/512, half of a whole number: 0 is even */
    F32(0x3affffff), /* the number below: 0; as an f32 its 256-fold with a half added is 1 */
    F32(0x3b000001), /* the number above: 1 */
    F32(0x3bc00000), /* place 3: 3/512 becomes 2 */
    F32(0x3bbfffff), /* the number below: 1 */
    F32(0x3c200000), /* 5/512 becomes 2 */
    F32(0x3c200001), /* the number above: 3 */
    F32(0xbc200000), /* place 7: -5/512 becomes -2 */
    F32(0xbc600000), /* -7/512 becomes -4 */
    F32(0x80000000), /* the negative zero */
    F32(0x00000001), /* the smallest f32 above 0 */
    F32(0x46ffffff), /* place 11: the largest one below 32,768 */
    F32(0xc6ffffff), /* the lowest one above -32,768 */
    F32(0xbbc00000), /* place 13: -3/512 becomes -2 */
};
static const uint8_t halves_records[] = {
    RECORD(0, 0, 0, 0),  RECORD(1, 0, 0, 0),  RECORD(2, 0, 1, 0),  RECORD(3, 0, 2, 0),  RECORD(4, 0, 1, 0),
    RECORD(5, 0, 2, 0),  RECORD(6, 0, 3, 0),  RECORD(7, 0, 2, 1),  RECORD(8, 0, 4, 1),  RECORD(9, 0, 0, 0),
    RECORD(10, 0, 0, 0), RECORD(11, 0, 7, 0), RECORD(12, 0, 7, 1), RECORD(13, 0, 2, 1),
};
static const char halves_text[] = "0 sound 0 0\n"
                                  "1 sound 0 0\n"
                                  "2 sound 0 1\n"
                                  "3 sound 0 2\n"
                                  "4 sound 0 1\n"
                                  "5 sound 0 2\n"
                                  "6 sound 0 3\n"
                                  "7 sound 0 -2\n"
                                  "8 sound 0 -4\n"
                                  "9 sound 0 0\n"
                                  "10 sound 0 0\n"
                                  "11 sound 0 7\n"
                                  "12 sound 0 -7\n"
                                  "13 sound 0 -2\n"
                                  "tally 14 0 0 0 0 0\n";

/* Sums that are equally near to two radii, and remainders that are equal. */
static const uint8_t ties_table[] = {
    3, 2, 0, 2, 0, 0, 0, 0, 0, 0, 1, 0, 0, 4, 0, 0, /* places 0 to 3: the sums for the radii are 0 and 512 */
    2, 2, 0, 1, 0, 0, 0, 0, 0, 0, 0, 1, 0, 3, 0, 0, /* places 4 to 6: 0 and 1 */
    2, 3, 0, 3, 4, 0, 0, 0, 0, 0, 0, 2, 0, 2, 0, 0, /* places 7 and 8: 0, 6 and 8 */
};
static const uint8_t ties_run[] = {
    F32(0x3f000000), F32(0),          F32(0xbf000000), /* 128, 0, -128: the sum is in the middle */
    F32(0x3f010000), F32(0),          F32(0xbf000000), /* 129, 0, -128: one above; the remainders 1, 0, 256 */
    F32(0x3f800000), F32(0x3f800000), F32(0x3f800000), /* three equal remainders, two of which get one more */
    F32(0xbe800000), F32(0xbf400000), F32(0x3f800000), /* -64, -192, 256: the remainders 128, 384, 0 */
    F32(0x3f800000), F32(0x3f800000),                  /* equal remainders: the lower coordinate */
    F32(0xbf800000), F32(0xbf800000),                  /* the same with signs */
    F32(0xbf800000), F32(0x3f808000),                  /* -256, 257: the larger remainder */
    F32(0x3ca00000), F32(0xbc000000),                  /* 5, -2: the sum is in the middle of 6 and 8 */
    F32(0x3c400000), F32(0),                           /* 3, 0: in the middle of 0 and 6 */
};
static const uint8_t ties_records[] = {
    RECORD(0, 0, 0, 0), RECORD(1, 0, 1, 5), RECORD(2, 0, 1, 8), RECORD(3, 0, 1, 2), RECORD(4, 1, 1, 2),
    RECORD(5, 1, 1, 3), RECORD(6, 1, 1, 0), RECORD(7, 2, 1, 5), RECORD(8, 2, 0, 0),
};
static const char ties_text[] = "0 sound 0 0 0 0\n"
                                "1 sound 0 1 0 -1\n"
                                "2 sound 0 1 1 0\n"
                                "3 sound 0 0 -1 1\n"
                                "4 sound 0 1 0\n"
                                "5 sound 0 -1 0\n"
                                "6 sound 0 0 1\n"
                                "7 sound 0 2 -1\n"
                                "8 sound 0 0 0\n"
                                "tally 9 0 0 0 0 0\n";

static const struct sent_case cases[] = {
    {{"sent_rows", BYTES(rows_table), BYTES(rows_records), rows_text}, BYTES(rows_run), NULL},
    {{"sent_selectors", BYTES(selectors_table), BYTES(selectors_records), selectors_text}, BYTES(selectors_run), NULL},
    {{"sent_three_selectors", BYTES(three_table), BYTES(three_records), three_text}, BYTES(three_run), NULL},
    {{"sent_halves", BYTES(halves_table), BYTES(halves_records), halves_text}, BYTES(halves_run), NULL},
    {{"sent_ties", BYTES(ties_table), BYTES(ties_records), ties_text}, BYTES(ties_run), NULL},
    {{"sent_not", BYTES(rows_table), {0}, rows_missing}, BYTES(unusable_run), "refused 11 1 2\n"},
    {{"sent_short", BYTES(rows_table), {0}, rows_missing}, {unusable_run, SHORT}, "refused 4\n"},
    {{"sent_long", BYTES(rows_table), {0}, rows_missing}, {long_run, LONG}, "refused 4\n"},
    {{"sent_cut", BYTES(rows_table), {0}, rows_missing}, {long_run, CUT}, "refused 4\n"},
    {{"sent_bad_table", BYTES(bad_table), {0}, "refused 7\n"}, {unusable_run, SHORT}, "refused 7\n"},
};

void make_sent_cases(const char *folder)
{
    for (uint64_t i = 0; i < ENTRIES(cases); i++)
        write_sent_case(folder, cases + i);
}
