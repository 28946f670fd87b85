/* Length 2 and radius 4 with selector 2, whose total is 20 and whose width is 5: every codeword up to 33, as it is read
   in each mode, and every index up to 33, as docs/RULES.md, "The product-product index" and "The page", have it. All of
   it is written down here, and the program's own rules are held to it. */

#include "comparisons.h"

#include <stdio.h>

enum { LENGTH = 2, RADIUS = 4, TOTAL = 20, POWER = 32, CODEWORDS = 34 };

static const struct shell shell = {LENGTH, RADIUS, PRODUCT_PRODUCT};
static const struct table table = {ROW_SIZE, {LENGTH, 2, 0, RADIUS, [AT_STEP] = 1, 0, [AT_PLACES] = 0, 1, PRODUCT_PRODUCT}};

/* In mending mode. In plain mode those of 20 to 31 are unreadable for reason 6. */
static const struct {
    enum reading_word word;
    uint64_t number; /* the reason, or the distance */
    int32_t point[LENGTH];
} wanted[CODEWORDS] = {
    {SOUND, 0, {1, 3}},       {SOUND, 0, {1, -3}},      {SOUND, 0, {-1, 3}},      {SOUND, 0, {-1, -3}},
    {SOUND, 0, {2, 2}},       {SOUND, 0, {2, -2}},      {SOUND, 0, {-2, 2}},      {SOUND, 0, {-2, -2}},
    {SOUND, 0, {3, 1}},       {SOUND, 0, {3, -1}},      {SOUND, 0, {-3, 1}},      {SOUND, 0, {-3, -1}},
    {UNREADABLE, 15, {0, 0}}, {UNREADABLE, 15, {0, 0}}, {UNREADABLE, 15, {0, 0}}, {UNREADABLE, 15, {0, 0}},
    {SOUND, 0, {0, 4}},       {SOUND, 0, {0, -4}},      {SOUND, 0, {4, 0}},       {SOUND, 0, {-4, 0}},
    {MENDED, 0, {2, 2}},      {MENDED, 1, {2, -2}},     {MENDED, 2, {-2, 2}},     {MENDED, 3, {-2, -2}},
    {MENDED, 4, {3, 1}},      {MENDED, 5, {3, -1}},     {MENDED, 6, {-3, 1}},     {MENDED, 7, {-3, -1}},
    {UNREADABLE, 15, {0, 0}}, {UNREADABLE, 15, {0, 0}}, {UNREADABLE, 15, {0, 0}}, {UNREADABLE, 15, {0, 0}},
    {UNREADABLE, 14, {0, 0}}, {UNREADABLE, 14, {0, 0}},
};

static struct page page;

/* What the program's own rules say of the codeword, which is in the page. */
static void hold_codeword(uint64_t codeword, uint64_t mode)
{
    const struct question question = {mode, &table, &page, 0, 0, LENGTH};
    const int is_6 = mode == PLAIN_MODE && codeword >= TOTAL && codeword < POWER;
    const int is_unreadable = wanted[codeword].word == UNREADABLE;
    int32_t point[MOST_LENGTH];
    const struct list list = read_place(&question, point);
    own_figure("answer of a codeword", list.items[1], is_6 ? UNREADABLE : wanted[codeword].word);
    own_figure("reason of a codeword", list.items[2], is_6 ? 6 : is_unreadable ? wanted[codeword].number : 0);
    own_figure("distance of a codeword", list.items[3], is_6 ? codeword - TOTAL : is_unreadable ? 0 : wanted[codeword].number);
    for (uint64_t i = 0; i < LENGTH; i++)
        own_figure("coordinate of a codeword", (uint64_t)point[i], is_6 ? 0 : (uint64_t)wanted[codeword].point[i]);
}

/* The codeword in a page of one place. */
static void compare_codeword(uint64_t codeword)
{
    struct question question = {0, &table, &page, 0, 0, LENGTH};
    uint8_t cell[CELL_SIZE] = {STATE_HELD};
    write_record(cell + AT_RECORD, 0, 0, 1, codeword);
    begin_page(&page, 1);
    lay_by_chance(&page);
    set_cell(&page, 0, cell);
    for (uint64_t mode = 0; mode < MODES; mode++)
        hold_codeword(codeword, mode);
    compare_reads(&question);
    for (question.number = 0; question.number < LENGTH; question.number++)
        compare_coefficients(&question);
    compare_both_tallies(&question);
    question.number = LINE_SPACE;
    compare_both_lines(&question);
}

/* Below the total an index is a point or not as a codeword is sound or not. */
static void compare_index(uint64_t index)
{
    if (wanted[index].word == SOUND) {
        expect_index(shell, wanted[index].point, LENGTH, index);
        expect_point(shell, index, wanted[index].point);
    } else {
        expect_point_refused(shell, index, LENGTH, index < TOTAL ? 15 : 6);
    }
}

void compare_empty_shapes(void)
{
    for (uint64_t i = 0; i < CODEWORDS; i++) {
        compare_codeword(i);
        compare_index(i);
    }
    printf("empty shapes: %d codewords and indices of length %d, radius %d\n", CODEWORDS, LENGTH, RADIUS);
}
