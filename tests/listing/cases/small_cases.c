/* Cases of a few bytes, whose listings are written down from the rules and come from no program: here the whole case of
   the rules, and what is taken of the files. */

#include "../listing.h"

/* docs/RULES.md, "Worked cases": the whole case, and the same "with 14 for the last byte". */
static const uint8_t whole_table[] = {3, 2, 0, 2, 0, 0, 0, 0, 0, 0, 1, 0, 0, 2, 0, 0};
static const uint8_t whole_records[] = {0, 0, 0, 1, 0, 0, 0, 0x05, 0, 1, 0, 1, 0, 0, 0, 0x12};
static const uint8_t codeword_20_records[] = {0, 0, 0, 1, 0, 0, 0, 0x05, 0, 1, 0, 1, 0, 0, 0, 0x14};

static const uint8_t three_rows[] = {
    3,  2, 0, 2,  0, 0, 0, 0, 0, 0, 1,    0, 0, 2, 0, 0, /* places 0 and 1 */
    1,  1, 0, 0,  0, 0, 0, 0, 0, 0, 0,    1, 0, 1, 0, 0, /* place 2 */
    16, 2, 0, 12, 0, 0, 0, 0, 0, 0, 0xff, 0, 0, 2, 0, 0, /* places 3 and 4 */
};

/* Two points of "Worked cases", (1,0,-1) and (-3,0); a place that is not in the table; and 7 bytes of a
   record of place 1. */
static const uint8_t two_rows[] = {
    3, 2, 0, 2, 0, 0, 0, 0, 0, 0, 1, 0, 0, 2, 0, 0, /* places 0 and 1 */
    2, 2, 0, 3, 0, 0, 0, 0, 0, 0, 2, 1, 0, 2, 0, 0, /* places 2 and 3 */
};
static const uint8_t records_and_a_part[] = {0, 3, 1, 1, 0, 0, 0, 11, 0, 0, 0, 1, 0, 0, 0, 0x05,
                                             0, 4, 1, 1, 0, 0, 0, 11, 0, 1, 0, 1, 0, 0, 0};

/* The same two points among records of places that are not in the table, and of other books: the place behind the
   last, which comes twice; places 1 and 2 with their bytes exchanged; places 0 and 1 in book 1, and place 0 in book 8,
   each of its own row; and the last place that a field can name, in the last book. */
static const uint8_t strangers[] = {
    RECORD(4, 1, 1, 4),    RECORD(256, 0, 1, 0),  RECORD(3, 1, 1, 11),    RECORD(512, 1, 1, 0),   RECORD(4096, 0, 1, 0),
    RECORD(4097, 0, 1, 0), RECORD(0, 0, 1, 0x05), RECORD(32768, 0, 1, 0), RECORD(65535, 1, 1, 0), RECORD(4, 1, 1, 4),
};

/* With zeros behind it the part would be a record of place 0. */
static const uint8_t a_part[] = {0, 0, 0, 1, 0};

/* Its bytes are those that an empty place has. */
static const uint8_t zero_record[] = {RECORD(0, 0, 0, 0)};

/* What comes for a place, in three rounds. Place 0: the record of eight zeros, and another. 1: one record, and it
   again. 2, 3 and 4: two that differ, and then the first, the second, a third. 5: a sound one and a mended one of the
   same point. 6: a sound one, and the same but for its row, which is refused. 7: two with radius numbers that are not
   in the row. 8 and 9: an unreadable one and a mended one, and each again. */
static const uint8_t eleven_places[] = {2, 2, 0, 3, 0, 0, 0, 0, 0, 0, 1, 0, 0, 11, 0, 0};
static const uint8_t one_order[] = {
    RECORD(0, 0, 0, 0),  RECORD(1, 0, 1, 5), RECORD(2, 0, 1, 5), RECORD(3, 0, 1, 5),  RECORD(4, 0, 1, 5), /* round 1 */
    RECORD(5, 0, 1, 4),  RECORD(6, 0, 1, 8), RECORD(7, 0, 2, 5), RECORD(8, 0, 1, 16), RECORD(9, 0, 1, 13),
    RECORD(0, 0, 1, 5),  RECORD(1, 0, 1, 5), RECORD(2, 0, 1, 7), RECORD(3, 0, 1, 7),  RECORD(4, 0, 1, 7), /* round 2 */
    RECORD(5, 0, 1, 12), RECORD(6, 1, 1, 8), RECORD(7, 0, 3, 5), RECORD(8, 0, 1, 16), RECORD(9, 0, 1, 13),
    RECORD(1, 0, 1, 5),  RECORD(2, 0, 1, 5), RECORD(3, 0, 1, 7), RECORD(4, 0, 1, 11), /* round 3 */
};
static const char text_of_any_order[] = "0 contested 0 0 0\n"
                                        "1 sound 0 2 -1\n"
                                        "2 contested 0 0 0\n"
                                        "3 contested 0 0 0\n"
                                        "4 contested 0 0 0\n"
                                        "5 contested 0 0 0\n"
                                        "6 sound 0 0 3\n"
                                        "7 contested 0 0 0\n"
                                        "8 unreadable 14 0 0\n"
                                        "9 mended 1 2 -1\n"
                                        "10 missing 0 0 0\n"
                                        "tally 2 1 1 6 1 1\n";

/* Records of another row, which are refused: place 0 after its own record, the same but for the row, and one that was
   sent for place 4; 1 before it; 2, 6 and 8 alone, at 8 two that differ; 3 with the row of the place before; 4 between
   two that differ; 5 with rows that are not in the table, one of them the right one in its low 5 bits; 7 beside an
   unreadable one. Place 9 is not in the table. */
static const uint8_t foreign_table[] = {
    3, 2, 0, 2, 0, 0, 0, 0, 0, 0, 1, 0, 0, 3, 0, 0, /* places 0 to 2: N = 18, b = 5 */
    2, 2, 0, 3, 0, 0, 0, 0, 0, 0, 1, 0, 0, 4, 0, 0, /* places 3 to 6: N = 12, b = 4 */
    1, 2, 0, 5, 0, 0, 0, 0, 0, 0, 1, 0, 0, 2, 0, 0, /* places 7 and 8: N = 2, b = 1 */
};
static const uint8_t foreign_records[] = {
    RECORD(0, 0, 1, 5),          RECORD(0, 1, 1, 5),  RECORD(0, 1, 1, 3),   RECORD(1, 2, 1, 17),
    RECORD(1, 0, 1, 17),         RECORD(1, 0, 1, 17), RECORD(2, 1, 1, 4),   RECORD(3, 0, 1, 4),
    RECORD(3, 1, 1, 4),          RECORD(4, 1, 1, 0),  RECORD(4, 0, 1, 0),   RECORD(4, 1, 1, 1),
    RECORD(5, 3, 1, 5),          RECORD(5, 1, 1, 13), RECORD(5, 33, 1, 13), RECORD(5, 255, 1, 5),
    RECORD(6, 2, 9, 0xffffffff), RECORD(7, 2, 1, 2),  RECORD(7, 1, 1, 1),   RECORD(8, 0, 1, 0),
    RECORD(8, 1, 1, 1),          RECORD(9, 3, 1, 1),
};
static const char foreign_text[] = "0 sound 0 1 0 -1\n"
                                   "1 sound 0 -2 0 0\n"
                                   "2 missing 0 0 0 0\n"
                                   "3 sound 0 2 1\n"
                                   "4 contested 0 0 0\n"
                                   "5 mended 1 2 -1\n"
                                   "6 missing 0 0 0\n"
                                   "7 unreadable 14 0\n"
                                   "8 missing 0 0\n"
                                   "tally 3 1 3 1 1 14\n";

static const struct stored_case cases[] = {
    {"whole_case", BYTES(whole_table), BYTES(whole_records), "0 sound 0 1 0 -1\n1 mended 0 0 -1 1\ntally 1 1 0 0 0 0\n"},
    {"codeword_20", BYTES(whole_table), BYTES(codeword_20_records), "0 sound 0 1 0 -1\n1 mended 2 1 0 1\ntally 1 1 0 0 0 0\n"},
    {"no_records",
     BYTES(three_rows),
     {0},
     "0 missing 0 0 0 0\n1 missing 0 0 0 0\n2 missing 0 0\n"
     "3 missing 0 0 0 0 0 0 0 0 0 0 0 0 0 0 0 0 0\n4 missing 0 0 0 0 0 0 0 0 0 0 0 0 0 0 0 0 0\n"
     "tally 0 0 5 0 0 0\n"},
    {"empty_records", BYTES(whole_table), {whole_records, 0}, "0 missing 0 0 0 0\n1 missing 0 0 0 0\ntally 0 0 2 0 0 0\n"},
    {"only_a_part", BYTES(whole_table), BYTES(a_part), "0 missing 0 0 0 0\n1 missing 0 0 0 0\ntally 0 0 2 0 0 1\n"},
    {"short_last_part", BYTES(two_rows), BYTES(records_and_a_part),
     "0 sound 0 1 0 -1\n1 missing 0 0 0 0\n2 missing 0 0 0\n3 sound 0 -3 0\ntally 2 0 2 0 0 2\n"},
    {"strangers", BYTES(two_rows), BYTES(strangers),
     "0 sound 0 1 0 -1\n1 missing 0 0 0 0\n2 missing 0 0 0\n3 sound 0 -3 0\ntally 2 0 2 0 0 8\n"},
    {"foreign_rows", BYTES(foreign_table), BYTES(foreign_records), foreign_text},
    {"zero_record", BYTES(whole_table), BYTES(zero_record), "0 sound 0 0 0 0\n1 missing 0 0 0 0\ntally 1 0 1 0 0 0\n"},
    {"one_order", BYTES(eleven_places), BYTES(one_order), text_of_any_order},
};

/* The records of `one_order` from the last to the first, and the same listing. */
static void make_other_order(const char *folder)
{
    uint8_t records[sizeof one_order];
    for (uint64_t i = 0; i < sizeof records; i++)
        records[i] = one_order[sizeof records - RECORD_SIZE - i / RECORD_SIZE * RECORD_SIZE + i % RECORD_SIZE];
    write_case(folder, &(struct stored_case){"other_order", BYTES(eleven_places), BYTES(records), text_of_any_order});
}

void make_small_cases(const char *folder)
{
    write_cases(folder, cases, ENTRIES(cases));
    make_other_order(folder);
}
