/* A point that a call is lent, among guards; what it does not have of the room guards it too. */

#include "lent.h"

#include <stdio.h>
#include <stdlib.h>
#include <string.h>

/* Numbers that no point of a shell has, all different. */
struct point_room garbage(void)
{
    struct point_room room;
    for (int32_t i = 0; i < (int32_t)ENTRIES(room.cells); i++)
        room.cells[i] = i % 2 ? 1999999973 - i : i - 1999999943;
    return room;
}

struct point_room garbage_around(const int32_t *point, uint64_t length)
{
    struct point_room room = garbage();
    for (uint64_t i = 0; i < length && i < MOST_LENT; i++)
        room.cells[GUARDS + i] = point[i];
    return room;
}

int same_points(const struct point_room *one, const struct point_room *other)
{
    return memcmp(one, other, sizeof *one) == 0;
}

void print_point(const char *what, const int32_t *point, uint64_t length)
{
    printf("%s (", what);
    for (uint64_t i = 0; i < length && i < MOST_LENT; i++)
        printf(i ? ",%d" : "%d", point[i]);
    printf(")");
}

/* An output that should have so many numbers of the point, and nothing else; the call was printed before. */
void wrong_output(const struct point_room *room, const int32_t *point, uint64_t length)
{
    if (length == 0)
        end("the output is written on a refusal");
    if (memcmp(room->cells + GUARDS, point, length * sizeof *point) == 0)
        end("something is written beside the output");
    print_point(": expected", point, length);
    print_point(", got", room->cells + GUARDS, length);
    printf("\n");
    exit(1);
}
