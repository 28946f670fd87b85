/* How far an index is past the end, and what index and point must answer; docs/RULES.md, "Enumerations", "Refusal
   numbers" and "Order of checks". */

#include "rules.h"

static int is_past_end(struct shell shell, uint64_t index)
{
    return index >= total_of(shell);
}

/* An index of the total or more is past the end. Its distance is the index less the total. */
uint64_t distance_of(struct shell shell, uint64_t index)
{
    if (!is_past_end(shell, index))
        own_error("a distance is asked for that there is not", shell);
    return index - total_of(shell);
}

int is_on_shell(struct shell shell, const int32_t *vector)
{
    uint64_t sum = 0;
    for (uint64_t i = 0; i < shell.length; i++)
        sum += magnitude(vector[i]);
    return sum == shell.radius;
}

/* The first checks of index and of point, which begin alike: "20, 1, 2, 3, 4". The length is that of the vector, or of
   the output. */
static uint64_t checked(struct shell shell, uint64_t length)
{
    if (shell.selector >= SELECTORS)
        return 20;
    if (shell.length < 1 || shell.length > MOST_LENGTH)
        return 1;
    if (shell.radius > MOST_RADIUS)
        return 2;
    if (!is_usable(shell))
        return 3;
    return length == shell.length ? 0 : 4;
}

/* "index | 20, 1, 2, 3, 4, 5". The index stands behind the 0. */
struct list index_at(struct shell shell, const int32_t *vector, uint64_t length)
{
    const uint64_t refusal = checked(shell, length);
    if (refusal)
        return (struct list){{refusal}};
    return is_on_shell(shell, vector) ? (struct list){{0, rank(shell, vector)}} : (struct list){{5}};
}

/* "point | 20, 1, 2, 3, 4, 6, 15"; 6 names "its distance". On a refusal nothing is said of the point. */
struct list point_at(const struct pointing *asked, int32_t *point)
{
    const uint64_t refusal = checked(asked->shell, asked->length);
    if (refusal)
        return (struct list){{refusal}};
    if (is_past_end(asked->shell, asked->index))
        return (struct list){{6, distance_of(asked->shell, asked->index)}};
    if (!names_point(asked->shell, asked->index))
        return (struct list){{15}};
    point_of(asked->shell, asked->index, point);
    return (struct list){{0}};
}
