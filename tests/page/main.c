/* Holds take, read, coefficient, the tally and the conversions to stored cases: their answers, what they name, and
   every byte of all that they are lent. The rules of the second program are held to the same cases. Arguments: the
   file, and how many cases it has. The first difference ends the test with status 1, and so does a line that is no
   case, or another number of cases. */

#include "../second/kinds/lent_calls.h"
#include "../second/probe.h"
#include "page.h"

static uint64_t refused[CALLS][MOST_REFUSAL + 1]; /* 0 for what is answered */

/* The second program makes its own copy of the page, in the same layout, what the calls must make of theirs. */
static void hold_take(const char *name, struct page_case *held)
{
    uint8_t before[CELL_SIZE];
    copy_named(&held->page, &held->arrival, before);
    hold_list(name, take(&held->table, &held->page, &held->arrival), held->expected);
    for (uint64_t i = 0; i < held->page.size; i++)
        own_figure(name, held->page.wanted[GUARDS + i], held->after[i]);
    expect_take(name, probe_take, &(struct taking){&held->table, &held->page, &held->arrival, before, held->expected});
}

/* What is asked of the page; the tally is asked about no place, and has no number. */
static struct question asked(const struct page_case *held)
{
    return (struct question){.mode = held->mode,
                             .table = &held->table,
                             .page = &held->page,
                             .book = held->book,
                             .place = held->place,
                             .number = held->number};
}

static void hold_read(const char *name, struct page_case *held)
{
    const struct question question = asked(held);
    int32_t point[MOST_LENGTH];
    hold_list(name, read_place(&question, point), held->expected);
    for (uint64_t i = 0; held->expected.items[0] == 0 && i < held->number; i++)
        own_figure(name, (uint64_t)point[i], (uint64_t)held->point[i]);
    expect_read(name, probe_read, &question, held->expected, held->point);
}

static void hold_coefficient(const char *name, struct page_case *held)
{
    const struct question question = asked(held);
    uint32_t bits;
    hold_list(name, coefficient(&question, &bits), held->expected);
    own_figure(name, bits, held->bits);
    expect_coefficient(name, probe_coefficient, probe_coefficient_value, &question, held->expected, held->bits);
}

static void hold_tally(const char *name, struct page_case *held)
{
    const struct question question = asked(held);
    hold_list(name, tally(&question), held->expected);
    expect_tally(name, probe_tally, &question, held->expected);
}

static void hold_conversion(const char *name, struct page_case *held)
{
    static uint8_t converted[sizeof held->after];
    const struct conversion asked = {&held->table, &held->page, held->number};
    hold_list(name, convert(&asked, converted), held->expected);
    for (uint64_t i = 0; held->expected.items[0] == 0 && i < held->number; i++)
        own_figure(name, converted[i], held->after[i]);
    expect_convert(name, held->call == OF_TO_STATES_FIRST ? probe_to_states_first : probe_to_cell_by_cell, &asked,
                   held->expected, held->after);
}

static void hold(struct text *text, const char *name)
{
    typedef void hold_call(const char *name, struct page_case *held);
    static hold_call *const calls[CALLS] = {hold_take,  hold_read,       hold_coefficient,
                                            hold_tally, hold_conversion, hold_conversion};
    static struct page_case held;
    read_case(text, &held);
    calls[held.call](name, &held);
    refused[held.call][held.expected.items[0]]++;
}

int main(int words, char **word)
{
    count_points();
    count_for_ranking();
    hold_lines(words, word, hold);
    for (enum of_call call = 0; call < CALLS; call++)
        print_held(call_words[call], refused[call]);
    return 0;
}
