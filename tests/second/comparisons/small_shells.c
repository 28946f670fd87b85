/* Every codeword of small shells, by each enumeration and in both modes: all from 0 to past 2^b, by all readers. What
   answers there must be is counted besides, from the total and the width alone. See docs/RULES.md, "The page". */

#include "comparisons.h"

#include <stdio.h>

enum { MOST_POWER = 128, BEHIND = 2 /* codewords of 2^b and more */ };

static struct page page;
static uint64_t shells, codewords;

/* The answers of a shell in plain mode. */
struct answers {
    uint64_t sound;
    uint64_t of_6;
    uint64_t of_15;
};

static void compare_codeword(const struct table *table, uint64_t number, uint64_t codeword, struct answers *plain)
{
    struct question question = {PLAIN_MODE, table, &page, 0, 0, table->bytes[AT_LENGTH]};
    uint8_t cell[CELL_SIZE] = {STATE_HELD};
    int32_t point[MOST_LENGTH];
    write_record(cell + AT_RECORD, 0, 0, number, codeword);
    set_cell(&page, 0, cell);
    const struct list list = read_place(&question, point);
    plain->sound += list.items[1] == SOUND;
    plain->of_6 += list.items[2] == 6;
    plain->of_15 += list.items[2] == 15;
    compare_reads(&question);
    for (question.number = 0; question.number < table->bytes[AT_LENGTH]; question.number++)
        compare_coefficients(&question);
    compare_both_tallies(&question);
    question.number = LINE_SPACE;
    compare_both_lines(&question);
    codewords++;
}

/* A table of one row and one place. Radius 0 is number 0, and another one number 1. */
static void compare_small_shell(struct shell shell)
{
    const uint64_t total = total_of(shell), power = least_power_from(total), number = shell.radius > 0;
    const struct table table = {ROW_SIZE,
                                {(uint8_t)shell.length, (uint8_t)(1 + number), 0, (uint8_t)shell.radius, [AT_STEP] = 1, 0,
                                 [AT_PLACES] = 0, 1, (uint8_t)shell.selector}};
    struct answers plain = {0, 0, 0};
    if (power > MOST_POWER)
        return;
    begin_page(&page, 1);
    lay_by_chance(&page);
    for (uint64_t codeword = 0; codeword < power + BEHIND; codeword++)
        compare_codeword(&table, number, codeword, &plain);
    own_figure("sound codewords of a small shell", plain.sound, points_of(shell));
    own_figure("codewords of a small shell that are unreadable 6", plain.of_6, power - total);
    own_figure("codewords of a small shell that are unreadable 15", plain.of_15, total - points_of(shell));
    shells++;
}

void compare_small_shells(void)
{
    for_each_numbering(compare_small_shell);
    own_figure("small shells, each with each selector", shells, 297);
    printf("codewords: all %lu of the %lu shells of 2^b up to %d, with each selector, in both modes\n", codewords, shells,
           MOST_POWER);
}
