/* What the cases of a call are held to, and how many there were. */

#include "fields.h"

#include <stdio.h>

/* What the second program answers. */
void hold_list(const char *name, struct list own, struct list wanted)
{
    for (uint64_t item = 0; item < ITEMS; item++)
        own_figure(name, own.items[item], wanted.items[item]);
}

void print_held(const char *call, const uint64_t *refused)
{
    printf("%s%lu answered", call, refused[0]);
    for (int number = 1; number <= MOST_REFUSAL; number++)
        if (refused[number] > 0)
            printf(", %lu refused with %d", refused[number], number);
    printf("\n");
}
