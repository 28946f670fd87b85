/* One comparison of one call with what is expected of it. The first difference ends the program, with the call, the
   shell or the table, what was expected and what came. What a call is lent lies among guards; only a point that is
   answered may change it. */

#include "../kinds/lent_calls.h"
#include "comparisons.h"

#include <stdio.h>
#include <stdlib.h>

enum { LEAST = 10000 }; /* of each refusal of index, and of point */

struct comparisons compared;

void note(uint64_t expected, uint64_t *kind)
{
    if (expected > REFUSED)
        compared.refusals[expected - REFUSED]++;
    else
        ++*kind;
}

void expect_count(struct shell shell, uint64_t expected)
{
    uint64_t got = probe_count(shell.length, shell.radius);
    if (got != expected) {
        printf("probe_count, length %lu, radius %lu", shell.length, shell.radius);
        differ(expected, got);
    }
    note(expected, &compared.counts);
}

void expect_index(struct shell shell, const int32_t *point, uint64_t point_length, uint64_t expected)
{
    expect_indexing("probe_index", probe_index, shell, point, point_length, expected);
    note(expected, &compared.indices);
    compared.of_index[expected > REFUSED ? expected - REFUSED : 0]++;
}

/* The point that the call answers, which must be all that it writes. */
void read_point(struct shell shell, uint64_t index, int32_t *point)
{
    struct point_room room = garbage();
    uint64_t got = probe_point(shell.selector, shell.length, shell.radius, index, room.cells + GUARDS, shell.length, 0);
    for (uint64_t i = 0; i < shell.length; i++)
        point[i] = room.cells[GUARDS + i];
    const struct point_room allowed = garbage_around(point, shell.length);
    if (got == 0 && same_points(&room, &allowed)) {
        compared.points++;
        return;
    }
    print_pointing("probe_point", &(struct pointing){shell, index, shell.length});
    if (got == 0)
        end("something is written beside the output");
    wrong_item((struct list){{0}}, 0, got);
}

/* An answered point that cannot be the point of the index. */
void wrong_point(struct shell shell, uint64_t index, const int32_t *point, const char *what)
{
    print_pointing("probe_point", &(struct pointing){shell, index, shell.length});
    printf(": expected a point of that index, got %s,", what);
    print_point("", point, shell.length);
    printf("\n");
    exit(1);
}

void expect_point(struct shell shell, uint64_t index, const int32_t *expected)
{
    const struct pointing asked = {shell, index, shell.length};
    expect_pointing("probe_point", probe_point, &asked, (struct list){{0}}, expected);
    compared.points++;
}

/* What is named with the refusal is compared too; the program's own rules tell it, and must refuse with that number. */
void expect_point_refused(struct shell shell, uint64_t index, uint64_t out_length, uint32_t refusal)
{
    int32_t point[MOST_LENGTH] = {0};
    const struct pointing asked = {shell, index, out_length};
    const struct list expected = point_at(&asked, point);
    own_figure("refusal of a point", expected.items[0], refusal);
    expect_pointing("probe_point", probe_point, &asked, expected, point);
    compared.refusals[refusal]++;
    compared.of_point[refusal]++;
}

/* Both calls with no buffer at all: length 0, by a null pointer too. */
void expect_refused_without_buffer(struct shell shell, uint64_t index, uint32_t refusal)
{
    expect_index(shell, 0, 0, REFUSED + refusal);
    expect_point_refused(shell, index, 0, refusal);
}

/* Ends the program unless each refusal of both calls was compared often enough. */
void require_refusals(void)
{
    const uint64_t of_both[] = {20, 1, 2, 3, 4};
    for (uint64_t i = 0; i < ENTRIES(of_both); i++) {
        require_number(compared.of_index[of_both[i]], LEAST, "calls of index refused with", of_both[i]);
        require_number(compared.of_point[of_both[i]], LEAST, "calls of point refused with", of_both[i]);
    }
    require_number(compared.of_index[5], LEAST, "calls of index refused with", 5);
    require_number(compared.of_point[6], LEAST, "calls of point refused with", 6);
    require_number(compared.of_point[15], LEAST, "calls of point refused with", 15);
}

/* Both calls with a pairing table: 0 and the number of its places, or 7 and the row. */
void expect_check(const struct table *table, uint32_t refusal, uint64_t value)
{
    const struct table_room before = table_among_guards(table);
    struct table_room room = before;
    uint32_t got = probe_check(room.bytes, table->size);
    if (got != refusal || !same_table(&room, &before)) {
        print_table("probe_check", table);
        if (got == refusal)
            end("the table that it was lent is changed");
        differ(as_answer(refusal), as_answer(got));
    }
    uint64_t got_value = probe_check_value(room.bytes, table->size);
    if (got_value != value || !same_table(&room, &before)) {
        print_table("probe_check_value", table);
        if (got_value == value)
            end("the table that it was lent is changed");
        printf(refusal ? ", row" : ", places");
        differ(value, got_value);
    }
    note(as_answer(refusal), &compared.tables);
}

/* Both calls with no table at all: a null pointer and length 0. */
void expect_check_without_table(void)
{
    uint32_t got = probe_check(0, 0);
    uint64_t got_value = probe_check_value(0, 0);
    if (got != 7) {
        printf("probe_check, no table");
        differ(as_answer(7), as_answer(got));
    }
    if (got_value != 0) {
        printf("probe_check_value, no table, row");
        differ(0, got_value);
    }
    compared.refusals[7]++;
}

/* By both calls. */
void expect_quantize(const struct vector *vector, const struct answer *expected)
{
    expect_quantizing("probe_quantize", (struct quantize_calls){probe_quantize, probe_quantize_value}, vector, expected);
    note(as_answer(expected->refusal), &compared.vectors);
}
