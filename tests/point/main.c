/* Holds index and point to stored cases: their answers, the distance that point names, and every number of what they
   are lent and around it. The rules of the second program are held to the same cases. Arguments: the file, and how many
   cases it has. The first difference ends the test with status 1, and so does a line that is no case, or another number
   of cases. */

#include "../fields/fields.h"
#include "../second/kinds/lent_calls.h"
#include "../second/probe.h"

enum of_call { OF_INDEX, OF_POINT, CALLS };

/* What a case asks, and what it expects. */
struct point_case {
    struct pointing asked;      /* index: the length is that of the vector */
    int32_t point[MOST_LENGTH]; /* index: the vector; point: what the output must hold, where there is no refusal */
    struct list expected;       /* index: the index behind the 0 */
};

static const char *const call_words[CALLS] = {"index ", "point "};

/* The lengths of the lists that refusals are: 6 names the distance. */
static const uint8_t refusals[CALLS][MOST_REFUSAL + 1] = {
    [OF_INDEX] = {[20] = 1, [1] = 1, [2] = 1, [3] = 1, [4] = 1, [5] = 1},
    [OF_POINT] = {[20] = 1, [1] = 1, [2] = 1, [3] = 1, [4] = 1, [6] = 2, [15] = 1},
};

static uint64_t refused[CALLS][MOST_REFUSAL + 1]; /* 0 for what is answered */

static void read_shell(struct text *text, struct shell *to)
{
    to->selector = read_number_field(text);
    to->length = read_number_field(text);
    to->radius = read_number_field(text);
}

static void hold_index(struct text *text, const char *name, struct point_case *held)
{
    const struct pointing *asked = &held->asked;
    held->asked.length = read_number_field(text);
    read_coordinates(text, held->point, asked->length);
    read_word(text, asked->length > 0 ? " " : "");
    if (read_answer(text, &held->expected, refusals[OF_INDEX]))
        held->expected.items[1] = read_number(text);
    const uint64_t *wanted = held->expected.items;
    hold_list(name, index_at(asked->shell, held->point, asked->length), held->expected);
    expect_indexing(name, probe_index, asked->shell, held->point, asked->length, wanted[0] ? REFUSED + wanted[0] : wanted[1]);
}

static void hold_point(struct text *text, const char *name, struct point_case *held)
{
    int32_t point[MOST_LENGTH];
    held->asked.length = read_number_field(text);
    held->asked.index = read_number_field(text);
    if (read_answer(text, &held->expected, refusals[OF_POINT]))
        read_coordinates(text, held->point, held->asked.length);
    hold_list(name, point_at(&held->asked, point), held->expected);
    for (uint64_t i = 0; held->expected.items[0] == 0 && i < held->asked.length; i++)
        own_figure(name, (uint64_t)point[i], (uint64_t)held->point[i]);
    expect_pointing(name, probe_point, &held->asked, held->expected, held->point);
}

static void hold(struct text *text, const char *name)
{
    struct point_case held;
    const enum of_call call = (enum of_call)read_one_of(text, call_words, CALLS);
    read_shell(text, &held.asked.shell);
    (call == OF_INDEX ? hold_index : hold_point)(text, name, &held);
    refused[call][held.expected.items[0]]++;
}

int main(int words, char **word)
{
    count_points();
    count_for_ranking();
    hold_lines(words, word, hold);
    for (enum of_call call = 0; call < CALLS; call++)
        print_held(call_words[call], refused[call]);
    return 0;
}
