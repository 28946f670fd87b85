/* One comparison of index, or of point, with what is expected of it: point by each item of its list, and by one that
   may be past the end. What a call is lent lies among guards: only the output of point may change, and only where there
   is no refusal. */

#include "lent_calls.h"

#include <stdio.h>

enum { ITEMS_OF_POINTING = 2 }; /* the refusal or 0, its distance */

static void print_shell(const char *name, struct shell shell)
{
    printf("%s, selector %lu, length %lu, radius %lu", name, shell.selector, shell.length, shell.radius);
}

/* A vector of no numbers is lent as a null pointer where `by_null` says so. */
static void call_index(const char *name, index_call *call, struct shell shell, const int32_t *vector, uint64_t length,
                       uint64_t expected, int by_null)
{
    const struct point_room before = garbage_around(vector, length);
    struct point_room room = before;
    const uint64_t got = call(shell.selector, shell.length, shell.radius, by_null ? 0 : room.cells + GUARDS, length);
    if (got == expected && same_points(&room, &before))
        return;
    print_shell(name, shell);
    printf(", vector of %lu", length);
    print_point("", vector, length);
    if (got == expected)
        end("the vector that it was lent is changed");
    differ(expected, got);
}

void expect_indexing(const char *name, index_call *call, struct shell shell, const int32_t *vector, uint64_t length,
                     uint64_t expected)
{
    for (int by_null = 0; by_null <= (length == 0); by_null++)
        call_index(name, call, shell, vector, length, expected, by_null);
}

void print_pointing(const char *name, const struct pointing *asked)
{
    print_shell(name, asked->shell);
    printf(", index %lu, output of %lu", asked->index, asked->length);
}

/* A call for each item. An output of no numbers is lent as a null pointer where `by_null` says so. */
static void call_point(const char *name, point_call *call, const struct pointing *asked, struct list expected, const int32_t *point,
                       int by_null)
{
    const uint64_t written = expected.items[0] == 0 ? asked->length : 0;
    const struct point_room wanted = garbage_around(point, written);
    const struct shell shell = asked->shell;
    for (uint64_t i = 0; i <= ITEMS_OF_POINTING; i++) {
        const uint64_t which = i < ITEMS_OF_POINTING ? i : any_item();
        struct point_room room = garbage();
        const uint64_t got = call(shell.selector, shell.length, shell.radius, asked->index,
                                  by_null ? 0 : room.cells + GUARDS, asked->length, which);
        const int is_item = got == item_of(expected, which);
        if (is_item && same_points(&room, &wanted))
            continue;
        print_pointing(name, asked);
        if (!is_item)
            wrong_item(expected, which, got);
        wrong_output(&room, point, written);
    }
}

void expect_pointing(const char *name, point_call *call, const struct pointing *asked, struct list expected, const int32_t *point)
{
    for (int by_null = 0; by_null <= (asked->length == 0); by_null++)
        call_point(name, call, asked, expected, point, by_null);
}
