/* One comparison of read, of coefficient, of the tally or of lines with the rules in rules/asking.c and rules/lines.c,
   whose answer is returned. */

#include "../kinds/lent_calls.h"
#include "../kinds/page_kinds.h"
#include "comparisons.h"

struct list compare_read(const struct question *question)
{
    int32_t point[MOST_LENGTH];
    const struct list expected = read_place(question, point);
    compared.calls_of_page += expect_read("probe_read", probe_read, question, expected, point);
    note_reading(READ, question, expected);
    note(as_answer((uint32_t)expected.items[0]), &compared.places);
    return expected;
}

struct list compare_coefficient(const struct question *question)
{
    uint32_t bits;
    const struct list expected = coefficient(question, &bits);
    compared.calls_of_page +=
        expect_coefficient("probe_coefficient", probe_coefficient, probe_coefficient_value, question, expected, bits);
    note_reading(COEFFICIENT, question, expected);
    note_value(question, expected, bits);
    note(as_answer((uint32_t)expected.items[0]), &compared.coefficients);
    return expected;
}

struct list compare_tally(const struct question *question)
{
    const struct list expected = tally(question);
    compared.calls_of_page += expect_tally("probe_tally", probe_tally, question, expected);
    note_tally(question, expected);
    note(as_answer((uint32_t)expected.items[0]), &compared.tallies);
    return expected;
}

struct list compare_lines(const struct question *question)
{
    static struct written written;
    const struct list expected = lines_from(question, &written);
    compared.calls_of_page += expect_lines("probe_lines", probe_lines, question, expected, &written);
    note_lines(question, expected);
    note(as_answer((uint32_t)expected.items[0]), &compared.lines);
    return expected;
}
