/* Every point of the small shells, made one after the other in the order of docs/RULES.md, "The product index", in that
   of "The magnitude index" and in that of "The product-product index", and numbered by counting. No formula for a count
   is used here.

   The order of the product enumeration, read from that page:
   - Ranges run from s = m down to 1, so the points with the most nonzero coordinates come first.
   - Index = start + (pattern x S + shape) x 2^s + sign: the pattern changes slowest, then the shape, then the signs.
   - Pattern: a nonzero first coordinate adds D(s,l-1), which is how many patterns have a zero there. So those come
     first: zero before nonzero, the first coordinate slowest.
   - Shape: a first magnitude i adds S(s,k) - S(s,k-i+1). The second is how many shapes have a first magnitude of i or
     more (take i-1 off it), so the difference is how many have a smaller one. Small magnitudes come first, the first
     magnitude slowest.
   - Sign: the first nonzero coordinate has the highest bit, 1 for negative. Positive before negative, the first
     slowest.

   Length 3, radius 2, from 0: (0,1,1) (0,1,-1) (0,-1,1) (0,-1,-1) (1,0,1) .. (-1,-1,0) (0,0,2) (0,0,-2) (0,2,0) ..
   (-2,0,0).

   In the magnitude enumeration the values of a coordinate run 0, 1, -1, 2, -2 and so on, the first coordinate slowest.
   Length 3, radius 2, from 0: (0,0,2) (0,0,-2) (0,1,1) (0,1,-1) (0,-1,1) .. (0,-2,0) (1,0,1) (1,0,-1) (1,1,0) ..
   (-2,0,0).

   In the product-product enumeration the order is that of the product enumeration. But once the shapes of a pattern are
   through, numbers are passed over until the shapes, empty ones included, are a power of two. Length 2, radius 4, from
   0: (1,3) .. (-1,-3) (2,2) .. (-2,-2) (3,1) .. (-3,-1), then no point for 12 to 15, then (0,4) (0,-4) (4,0) (-4,0). */

#include "comparisons.h"

#include <stdio.h>
#include <string.h>

enum { MOST_LISTED = 100000 }; /* the total up to which every index of a shell is compared */

/* A listing under way: the point as far as it is made, and the number that the next one gets. */
struct listing {
    struct shell shell;
    uint64_t s;
    uint64_t place[MOST_LENGTH];    /* of each nonzero coordinate, the first one first */
    int32_t magnitude[MOST_LENGTH]; /* of each nonzero coordinate */
    int32_t point[MOST_LENGTH];
    uint64_t next;
};

static uint64_t shells_listed[SELECTORS], points_listed[SELECTORS], empty_listed;

/* The point is whole: its number is its index. The program's own ranking, and its way back, are held to
   the listing too. */
static void list_point(struct listing *to)
{
    int32_t point[MOST_LENGTH];
    expect_index(to->shell, to->point, to->shell.length, to->next);
    expect_point(to->shell, to->next, to->point);
    point_of(to->shell, to->next, point);
    if (memcmp(point, to->point, to->shell.length * sizeof *point) != 0)
        own_error("its point of an index and its listing differ", to->shell);
    if (rank(to->shell, to->point) != to->next)
        own_error("its ranking and its listing differ", to->shell);
    points_listed[to->shell.selector]++;
    to->next++;
}

/* An empty shape: its number names no point. */
static void list_empty(struct listing *to)
{
    if (names_point(to->shell, to->next))
        own_error("a number that its listing passes over names a point", to->shell);
    expect_point_refused(to->shell, to->next, to->shell.length, 15);
    empty_listed++;
    to->next++;
}

/* Signs of the nonzero coordinates from number `from` on: positive, then negative. */
static void list_signs(struct listing *to, uint64_t from)
{
    if (from == to->s) {
        list_point(to);
        return;
    }
    to->point[to->place[from]] = to->magnitude[from];
    list_signs(to, from + 1);
    to->point[to->place[from]] = -to->magnitude[from];
    list_signs(to, from + 1);
}

/* Magnitudes, with sum `sum`, of the nonzero coordinates from number `from` on: the smallest first. Each later one
   needs 1 or more, and the last one has what is left. */
static void list_shapes(struct listing *to, uint64_t from, uint64_t sum)
{
    uint64_t later = to->s - from - 1;
    for (uint64_t i = later ? 1 : sum; i + later <= sum; i++) {
        to->magnitude[from] = (int32_t)i;
        if (later)
            list_shapes(to, from + 1, sum - i);
        else
            list_signs(to, 0);
    }
}

/* The shapes of a pattern; in the product-product enumeration then the empty ones, each with all its signs. */
static void list_field(struct listing *to)
{
    const uint64_t start = to->next;
    list_shapes(to, 0, to->shell.radius);
    const uint64_t shapes = (to->next - start) >> to->s;
    const uint64_t field = to->shell.selector == PRODUCT_PRODUCT ? least_power_from(shapes) : shapes;
    while (to->next - start < field << to->s)
        list_empty(to);
}

/* Patterns of the coordinates from `at` on, `nonzero` of them nonzero: a zero, where enough coordinates are left,
   then a nonzero. */
static void list_patterns(struct listing *to, uint64_t at, uint64_t nonzero)
{
    if (at == to->shell.length) {
        list_field(to);
        return;
    }
    if (nonzero < to->shell.length - at) {
        to->point[at] = 0;
        list_patterns(to, at + 1, nonzero);
    }
    if (nonzero > 0) {
        to->place[to->s - nonzero] = at;
        list_patterns(to, at + 1, nonzero - 1);
    }
}

static void list_by_product(struct listing *to)
{
    if (to->shell.radius == 0)
        list_point(to);
    for (to->s = most_nonzero(to->shell); to->s > 0; to->s--)
        list_patterns(to, 0, to->s);
}

/* Values of the coordinates from `at` on, whose magnitudes have the sum `sum`, like the wheels of a counter: the last
   one turns fastest, and a wheel turns on once those behind it are through. */
static void list_values(struct listing *to, uint64_t at, uint64_t sum)
{
    if (at == to->shell.length) {
        if (sum == 0)
            list_point(to);
        return;
    }
    for (int32_t value = 0; magnitude(value) <= sum; value = value > 0 ? -value : 1 - value) {
        to->point[at] = value;
        list_values(to, at + 1, sum - magnitude(value));
    }
}

static void list_by_magnitude(struct listing *to)
{
    list_values(to, 0, to->shell.radius);
}

static void list_shell(struct shell shell)
{
    struct listing to = {.shell = shell};
    if (total_of(shell) > MOST_LISTED)
        return;
    (shell.selector == MAGNITUDE ? list_by_magnitude : list_by_product)(&to);
    if (to.next != total_of(shell))
        own_error("it lists another number of indices than the total", shell);
    shells_listed[shell.selector]++;
}

void compare_listing(void)
{
    static const uint64_t shells[SELECTORS] = {224, 224, 219}, points[SELECTORS] = {2067158, 2067158, 1639670};
    for_each_numbering(list_shell);
    printf("listed:");
    for (uint64_t selector = 0; selector < SELECTORS; selector++) {
        own_figure("shells with a total of at most 100,000", shells_listed[selector], shells[selector]);
        own_figure("points of these", points_listed[selector], points[selector]);
        printf(" %lu shells and %lu points of selector %lu,", shells_listed[selector], points_listed[selector], selector);
    }
    own_figure("empty shapes, with their signs", empty_listed, 492120);
    printf(" %lu indices that name no point\n", empty_listed);
}
