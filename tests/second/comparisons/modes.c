/* The same question in both modes, and what the two answers must have to do with each other: in plain mode nothing is
   mended, and the modes differ at codewords past the end alone. Each answer is held to the rules besides. See
   docs/RULES.md, "The page". */

#include "../draws/page_draws.h"
#include "comparisons.h"

#include <string.h>

static uint64_t is_same(const void *one, const void *other, uint64_t size)
{
    return memcmp(one, other, size) == 0;
}

/* Where a place overflows: plain has no point but the distance, and mending the same distance, or 15. */
static void hold_overflowing(struct list plain, struct list mending)
{
    own_figure("answer of an overflowing codeword in plain mode", plain.items[1], UNREADABLE);
    own_figure("reason of an overflowing codeword in plain mode", plain.items[2], 6);
    if (mending.items[1] == MENDED)
        own_figure("distance of an overflowing codeword in plain mode", plain.items[3], mending.items[3]);
    else
        own_figure("reason of a codeword that is not mended", mending.items[2], 15);
}

/* The lists that the readers answer. */
static void hold_modes(const struct question *question, struct list plain, struct list mending)
{
    own_figure("refusal in the other mode", plain.items[0], mending.items[0]);
    if (plain.items[0] != 0)
        return;
    own_figure("mended places in plain mode", plain.items[1] == MENDED, 0);
    const uint8_t *cell = cell_asked(question, question->place);
    if (is_overflowing(question->table, place_field(question->book, question->place), cell))
        hold_overflowing(plain, mending);
    else
        own_figure("difference of the modes", is_same(&plain, &mending, sizeof plain), 1);
    compared.modes++;
}

/* The points too: the same where the answer is, and none in plain mode where it is not. */
void compare_reads(const struct question *question)
{
    struct list lists[MODES];
    int32_t points[MODES][MOST_LENGTH] = {{0}};
    const int32_t none[MOST_LENGTH] = {0};
    for (uint64_t mode = 0; mode < MODES; mode++) {
        struct question in_mode = *question;
        in_mode.mode = mode;
        lists[mode] = compare_read(&in_mode);
        read_place(&in_mode, points[mode]);
    }
    hold_modes(question, lists[PLAIN_MODE], lists[MENDING_MODE]);
    const uint64_t is_alike = is_same(&lists[PLAIN_MODE], &lists[MENDING_MODE], sizeof *lists);
    own_figure("point of the other mode", is_same(points[PLAIN_MODE], is_alike ? points[MENDING_MODE] : none, sizeof none), 1);
}

void compare_coefficients(const struct question *question)
{
    struct list lists[MODES];
    for (uint64_t mode = 0; mode < MODES; mode++) {
        struct question in_mode = *question;
        in_mode.mode = mode;
        lists[mode] = compare_coefficient(&in_mode);
    }
    hold_modes(question, lists[PLAIN_MODE], lists[MENDING_MODE]);
}

/* Of the tally only mended and unreadable may differ, and their sum may not. */
void compare_both_tallies(const struct question *question)
{
    const struct question in_plain = {PLAIN_MODE, question->table, question->page, question->book, 0, 0};
    const struct question in_mending = {MENDING_MODE, question->table, question->page, question->book, 0, 0};
    const struct list plain = compare_tally(&in_plain), mending = compare_tally(&in_mending);
    const uint64_t sum = mending.items[1 + MENDED] + mending.items[1 + UNREADABLE];
    own_figure("refusal of the tally in the other mode", plain.items[0], mending.items[0]);
    if (plain.items[0] != 0)
        return;
    own_figure("mended places of a tally in plain mode", plain.items[1 + MENDED], 0);
    own_figure("unreadable places of a tally in plain mode", plain.items[1 + UNREADABLE], sum);
    own_figure("sound places of a tally in plain mode", plain.items[1 + SOUND], mending.items[1 + SOUND]);
    own_figure("missing places of a tally in plain mode", plain.items[1 + MISSING], mending.items[1 + MISSING]);
    own_figure("contested places of a tally in plain mode", plain.items[1 + CONTESTED], mending.items[1 + CONTESTED]);
}

/* The lines are as many in both modes. */
void compare_both_lines(const struct question *question)
{
    struct question plain = *question, mending = *question;
    plain.mode = PLAIN_MODE;
    mending.mode = MENDING_MODE;
    const struct list one = compare_lines(&plain), other = compare_lines(&mending);
    own_figure("refusal of lines in the other mode", one.items[0], other.items[0]);
    own_figure("place to go on from in the other mode", one.items[1], other.items[1]);
}

/* Mostly room for few lines, or for none; at times for more than there are, also where the length cut to fewer bits is
   too short. */
uint64_t text_length_by_chance(void)
{
    const uint64_t few[] = {LINE_SPACE, 2 * LINE_SPACE - 1, 2 * LINE_SPACE, 3 * LINE_SPACE, 5 * LINE_SPACE + 1};
    const uint64_t shorter[] = {0, 1, LINE_SPACE - 1, LINE_SPACE - 1};
    const uint64_t longer[] = {TWO_TO_32, TWO_TO_32 + LINE_SPACE - 1, TWO_TO_63, UINT64_MAX - LINE_SPACE, UINT64_MAX, 65536};
    const uint64_t choice = chance_below(16);
    if (choice == 0)
        return shorter[chance_below(ENTRIES(shorter))];
    return choice < 3 ? longer[chance_below(ENTRIES(longer))] : few[chance_below(ENTRIES(few))];
}
