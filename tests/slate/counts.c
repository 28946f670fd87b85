/* aldrynja_count, held to the N of tests/second/rules/shells.c: small lengths and radii, good and bad, and numbers that
   are small only where they are cut. See docs/RULES.md, "Points and counts". */

#include "slate.h"

#include <stdio.h>
#include <stdlib.h>

enum { SOME_LENGTHS = 41, SOME_RADII = 71 };

/* What is added to a small length or radius: nothing, what is lost where a number is cut, and what makes it negative
   where it is signed. With the last two the sum passes 2^64 at times, and is small again. */
static const uint64_t bases[] = {0,
                                 (uint64_t)1 << 8,
                                 (uint64_t)1 << 16,
                                 (uint64_t)1 << 31,
                                 TWO_TO_32,
                                 (uint64_t)1 << 40,
                                 TWO_TO_63 - 16,
                                 TWO_TO_63,
                                 TWO_TO_63 + TWO_TO_32,
                                 UINT64_MAX - TWO_TO_32 + 1,
                                 UINT64_MAX - 70,
                                 UINT64_MAX - 16};

static uint64_t counted, given;

/* N, or 0 for a refusal, of which N itself is none: every length from 1 on has a point of each radius. */
static uint64_t wanted(uint64_t length, uint64_t radius)
{
    const struct shell shell = {length, radius, PRODUCT};
    if (length < 1 || length > MOST_LENGTH || radius > MOST_RADIUS)
        return 0;
    return is_usable(shell) ? points_of(shell) : 0;
}

static void note_count(uint64_t length, uint64_t radius, uint64_t n)
{
    const int is_length = 1 <= length && length <= MOST_LENGTH, is_radius = radius <= MOST_RADIUS;
    note_slate(COUNT_GIVEN, n > 0);
    note_slate(COUNT_BAD_LENGTH, !is_length && is_radius);
    note_slate(COUNT_BAD_RADIUS, is_length && !is_radius);
    note_slate(COUNT_PAST_2_32, is_length && is_radius && n == 0);
    note_slate(COUNT_EXCHANGED, n != wanted(radius, length));
    note_slate(COUNT_LENGTH_CUT_8, n == 0 && wanted(length % 256, radius) > 0);
    note_slate(COUNT_LENGTH_CUT_32, n == 0 && wanted(length % TWO_TO_32, radius) > 0);
    note_slate(COUNT_LENGTH_CUT_63, n == 0 && wanted(length % TWO_TO_63, radius) > 0);
    note_slate(COUNT_RADIUS_CUT_8, n == 0 && wanted(length, radius % 256) > 0);
    note_slate(COUNT_RADIUS_CUT_32, n == 0 && wanted(length, radius % TWO_TO_32) > 0);
    note_slate(COUNT_RADIUS_CUT_63, n == 0 && wanted(length, radius % TWO_TO_63) > 0);
}

static void compare_count(uint64_t length, uint64_t radius)
{
    const uint64_t expected = wanted(length, radius), got = aldrynja_count(length, radius);
    if (got != expected) {
        printf("aldrynja_count, length %lu, radius %lu: expected %lu, got %lu\n", length, radius, expected, got);
        exit(1);
    }
    note_count(length, radius, expected);
    counted++;
    given += expected > 0;
}

/* Every small length and radius, each with something added to it. */
static void compare_with(uint64_t to_length, uint64_t to_radius)
{
    for (uint64_t length = 0; length < SOME_LENGTHS; length++)
        for (uint64_t radius = 0; radius < SOME_RADII; radius++)
            compare_count(to_length + length, to_radius + radius);
}

void compare_counts(void)
{
    compare_with(0, 0);
    own_figure("usable shells", given, 407);
    for (uint64_t i = 0; i < ENTRIES(bases); i++)
        for (uint64_t j = 0; j < ENTRIES(bases); j++)
            compare_with(bases[i], bases[j]);
    printf("counts: %lu compared, %lu of them of usable shells\n", counted, given);
}
