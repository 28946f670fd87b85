/* Refusals 20, 1, 2, 3, 4 and 6 of count, index and point, each together with everything that would be refused later,
   so that the order of checks is compared too; docs/RULES.md, "Refusal numbers" and "Order of checks". Refusals 5 and 7
   have files of their own, sums.c and tables.c, and 15 is compared where points are; those of quantize are in checks.c,
   and those of the page in page_checks.c. */

#include "comparisons.h"

static const uint64_t bad_lengths[] = {0, 17, 18, TWO_TO_32, TWO_TO_32 + 1, TWO_TO_32 + 16, TWO_TO_63, TWO_TO_63 + 3, UINT64_MAX};
static const uint64_t bad_radii[] = {33, 34, TWO_TO_32, TWO_TO_32 + 1, TWO_TO_32 + 32, TWO_TO_63, TWO_TO_63 + 2, UINT64_MAX};

static const uint64_t bad_selectors[] = {3, 4, 255, 256, TWO_TO_32, TWO_TO_32 + 2, TWO_TO_63, UINT64_MAX};

static uint64_t unusable[SELECTORS], unselected;

/* One lent length: index with magnitudes that sum to k, with zeros and with the lowest values, point with all
   kinds of indices. */
static void refuse_buffer(struct shell shell, uint64_t lent, uint32_t refusal)
{
    int32_t point[MOST_LENT] = {(int32_t)(shell.radius < TWO_TO_32 ? shell.radius : 0)};
    const uint64_t indices[] = {0, 1, 17, TWO_TO_32 - 1, TWO_TO_32, TWO_TO_63, UINT64_MAX};
    expect_index(shell, point, lent, REFUSED + refusal);
    point[0] = 0;
    expect_index(shell, point, lent, REFUSED + refusal);
    for (int i = 0; i < MOST_LENT; i++)
        point[i] = INT32_MIN;
    expect_index(shell, point, lent, REFUSED + refusal);
    for (uint64_t i = 0; i < ENTRIES(indices); i++)
        expect_point_refused(shell, indices[i], lent, refusal);
}

/* Index and point, whatever the buffer. */
static void refuse_numbering(struct shell shell, uint32_t refusal)
{
    expect_refused_without_buffer(shell, 0, refusal);
    for (uint64_t lent = 0; lent <= MOST_LENGTH + 2; lent++)
        refuse_buffer(shell, lent, refusal);
}

/* Every selector that is above 2, whatever the shell. */
static void refuse_selectors(struct shell shell)
{
    for (uint64_t i = 0; i < ENTRIES(bad_selectors); i++) {
        shell.selector = bad_selectors[i];
        refuse_numbering(shell, 20);
        unselected++;
    }
}

/* The three calls, index and point with each selector, good and bad. */
static void refuse_shell(struct shell shell, uint32_t refusal)
{
    expect_count(shell, REFUSED + refusal);
    for (shell.selector = 0; shell.selector < SELECTORS; shell.selector++)
        refuse_numbering(shell, refusal);
    refuse_selectors(shell);
}

static void refuse_lengths(void)
{
    for (uint64_t i = 0; i < ENTRIES(bad_lengths); i++) {
        for (uint64_t radius = 0; radius <= MOST_RADIUS; radius++)
            refuse_shell((struct shell){bad_lengths[i], radius, PRODUCT}, 1);
        for (uint64_t j = 0; j < ENTRIES(bad_radii); j++)
            refuse_shell((struct shell){bad_lengths[i], bad_radii[j], PRODUCT}, 1);
    }
}

static void refuse_radii(void)
{
    for (uint64_t length = 1; length <= MOST_LENGTH; length++)
        for (uint64_t i = 0; i < ENTRIES(bad_radii); i++)
            refuse_shell((struct shell){length, bad_radii[i], PRODUCT}, 2);
}

/* With each selector that makes the shell unusable, and with bad ones. Count goes by N. */
static void refuse_good_length_and_radius(struct shell shell)
{
    if (!is_usable(shell))
        expect_count(shell, REFUSED + 3);
    for (shell.selector = 0; shell.selector < SELECTORS; shell.selector++)
        if (!is_usable(shell)) {
            refuse_numbering(shell, 3);
            unusable[shell.selector]++;
        }
    refuse_selectors(shell);
}

/* The shells that selector 2 alone makes unusable, and that were refused with the others: they are usable by the
   selectors 0 and 1, and with the next smaller radius by 2. */
static void compare_lost_shells(void)
{
    for (uint64_t i = 0; i < LOST_SHELLS; i++) {
        const struct shell lost = lost_shells[i], next = {lost.length, lost.radius - 1, PRODUCT_PRODUCT};
        own_figure("shells that are lost and usable", (uint64_t)is_usable(lost), 0);
        for (uint64_t selector = 0; selector < SELECTORS; selector++) {
            const struct shell kept = selector == PRODUCT_PRODUCT ? next : (struct shell){lost.length, lost.radius, selector};
            own_figure("shells that are not lost and usable", (uint64_t)is_usable(kept), 1);
            expect_point_refused(kept, total_of(kept), kept.length, 6);
        }
    }
}

/* Every other length of a buffer up to the room for it, and one that is l where a number is cut to 32 bits: the call
   may look at nothing of that one, since its length alone is wrong. */
static void refuse_wrong_buffers(struct shell shell)
{
    expect_refused_without_buffer(shell, 0, 4);
    expect_refused_without_buffer(shell, total_of(shell), 4);
    if (has_empty_shapes(shell))
        expect_refused_without_buffer(shell, empty_by_chance(shell), 4);
    for (uint64_t lent = 0; lent <= MOST_LENT; lent++)
        if (lent != shell.length) {
            refuse_buffer(shell, lent, 4);
            if (has_empty_shapes(shell))
                expect_point_refused(shell, empty_by_chance(shell), lent, 4);
        }
    refuse_buffer(shell, TWO_TO_32 + shell.length, 4);
}

/* From the total on, with distances of every width, and what is below it only where a number is cut to 32 bits or read
   as negative. */
static void refuse_indices(struct shell shell)
{
    const uint64_t total = total_of(shell);
    const uint64_t past[] = {0, 1, 2, total, TWO_TO_32 - total, UINT64_MAX - total};
    const uint64_t cut[] = {TWO_TO_32, 2 * TWO_TO_32, REFUSED, TWO_TO_63 - TWO_TO_32, TWO_TO_63, UINT64_MAX - TWO_TO_32 + 1};
    for (uint64_t i = 0; i < ENTRIES(past); i++)
        expect_point_refused(shell, total + past[i], shell.length, 6);
    for (uint64_t width = 0; width < 64; width++)
        expect_point_refused(shell, total + chance_below((uint64_t)1 << width), shell.length, 6);
    for (uint64_t i = 0; i < ENTRIES(cut); i++) {
        expect_point_refused(shell, cut[i], shell.length, 6);
        expect_point_refused(shell, cut[i] + total - 1, shell.length, 6);
        expect_point_refused(shell, cut[i] + chance_below(total), shell.length, 6);
    }
    expect_point_refused(shell, total + chance_below(UINT64_MAX - total), shell.length, 6);
}

void compare_refusals(void)
{
    refuse_lengths();
    refuse_radii();
    for_each_shell(refuse_good_length_and_radius);
    for (uint64_t selector = 0; selector < SELECTORS; selector++)
        own_figure("shells that are not usable", unusable[selector], selector == PRODUCT_PRODUCT ? 121 + LOST_SHELLS : 121);
    compare_lost_shells();
    for_each_numbering(refuse_wrong_buffers);
    for_each_numbering(refuse_indices);
    own_figure("lengths and radii, good and bad, with selectors above 2", unselected, ENTRIES(bad_selectors) * 1025);
}
