/* The items of the list that a call answers, and the words for a wrong one. Nothing here calls what is under test. */

#include "../draws/draws.h"
#include "../probe.h" /* for REFUSED alone */
#include "lent.h"

#include <stdio.h>
#include <stdlib.h>

/* Any item, past the end of every list or not. */
uint64_t any_item(void)
{
    const uint64_t items[] = {ITEMS, ITEMS + 1, 256, 65536, TWO_TO_32, TWO_TO_32 + 1, TWO_TO_63, UINT64_MAX};
    return chance_below(2) ? chance_below(ITEMS) : items[chance_below(ENTRIES(items))];
}

uint64_t item_of(struct list list, uint64_t which)
{
    return which < ITEMS ? list.items[which] : 0;
}

/* The call was printed before. */
void wrong_item(struct list expected, uint64_t which, uint64_t got)
{
    const uint64_t item = item_of(expected, which);
    if (which == 0)
        differ(item ? REFUSED + item : 0, got ? REFUSED + got : 0);
    printf(", item %lu of its list: expected %lu, got %lu\n", which, item, got);
    exit(1);
}
