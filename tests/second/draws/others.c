/* Shells, and numbers by chance, that are not the right ones. */

#include "draws.h"

const struct shell lost_shells[LOST_SHELLS] = {
    {9, 27, PRODUCT_PRODUCT}, {10, 22, PRODUCT_PRODUCT}, {13, 15, PRODUCT_PRODUCT}, {16, 12, PRODUCT_PRODUCT},
};

const uint64_t no_modes[NO_MODES] = {2, 3, 255, 256, TWO_TO_32, TWO_TO_32 + 1, UINT64_MAX};

/* A mode that there is not, often one that there is where a number is cut. */
uint64_t no_mode_by_chance(void)
{
    return chance_below(8) ? no_modes[chance_below(NO_MODES)] : 2 + chance_below(UINT64_MAX - 2);
}

/* A place past the end, or one that is in the table only where a number is cut. */
uint64_t wrong_place(uint64_t places)
{
    const uint64_t place = chance_below(places);
    const uint64_t past[] = {places, places + 1, MOST_PLACES, MOST_PLACES + 1, 65535, TWO_TO_32 - 1, UINT64_MAX - 1, UINT64_MAX};
    const uint64_t cut[] = {65536, TWO_TO_32, (uint64_t)1 << 40, TWO_TO_63, UINT64_MAX - 65535, UINT64_MAX - TWO_TO_32 + 1};
    if (chance_below(2))
        return past[chance_below(ENTRIES(past))];
    return cut[chance_below(ENTRIES(cut))] + place;
}

/* A number up to `most`, but not the right one. */
uint64_t other_than(uint64_t right, uint64_t most)
{
    const uint64_t number = chance_below(most);
    return number < right ? number : number + 1;
}
