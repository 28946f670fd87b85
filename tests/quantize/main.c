/* Holds quantize to stored cases: its answer, the value that it names, and every byte of all that it is lent. The rules
   of the second program are held to the same cases. Arguments: the file, and how many cases it has. The first
   difference ends the test with status 1, and so does a line that is no case, or another number of cases. */

#include "../fields/fields.h"
#include "../second/kinds/lent_calls.h"
#include "../second/probe.h"

/* What a case lends, and what it expects. */
struct quantize_case {
    struct vector vector;
    struct answer expected;
};

/* The lengths of the lists that refusals are: 7 names the row, 11 the coordinate. */
static const uint8_t refusals[MOST_REFUSAL + 1] = {[17] = 1, [7] = 2, [8] = 1, [4] = 1, [11] = 2};

static uint64_t refused[MOST_REFUSAL + 1]; /* 0 for a record that is written */

static void read_vector(struct text *text, struct vector *to)
{
    read_word(text, "quantize ");
    to->books = read_number_field(text);
    read_table(text, &to->table);
    read_word(text, " ");
    to->book = read_number_field(text);
    to->place = read_number_field(text);
    to->length = read_coefficients(text, to->coefficients, MOST_LENT);
    read_word(text, " ");
    to->record_length = read_number_field(text);
}

static void read_case(struct text *text, struct quantize_case *to)
{
    struct list refusal;
    *to = (struct quantize_case){0};
    read_vector(text, &to->vector);
    if (read_answer(text, &refusal, refusals) && read_bytes(text, to->expected.record, RECORD_SIZE) != RECORD_SIZE)
        malformed(text, "a record that is too short");
    to->expected.refusal = (uint32_t)refusal.items[0];
    to->expected.value = refusal.items[1];
}

/* What the second program has of the case. */
static void hold_rules(const char *name, const struct quantize_case *held)
{
    const struct answer own = quantize(&held->vector).answer;
    own_figure(name, own.refusal, held->expected.refusal);
    own_figure(name, own.value, held->expected.value);
    for (uint64_t i = 0; own.refusal == 0 && i < RECORD_SIZE; i++)
        own_figure(name, own.record[i], held->expected.record[i]);
}

static void hold(struct text *text, const char *name)
{
    struct quantize_case held;
    read_case(text, &held);
    hold_rules(name, &held);
    expect_quantizing(name, (struct quantize_calls){probe_quantize, probe_quantize_value}, &held.vector, &held.expected);
    refused[held.expected.refusal]++;
}

int main(int words, char **word)
{
    count_points();
    count_for_ranking();
    hold_lines(words, word, hold);
    print_held("quantize ", refused);
    return 0;
}
