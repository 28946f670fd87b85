/* Holds send to stored cases: its answer, both values, and every byte of all that it is lent. The rules of the second
   program are held to the same cases. Arguments: the file, and how many cases it has. The first difference ends the
   test with status 1, and so does a line that is no case, or another number of cases. */

#include "../second/probe.h"
#include "send.h"

static uint64_t refused[MOST_REFUSAL + 1]; /* 0 for a page that is sent */

/* What the second program has of the case. */
static void hold_rules(const char *name, const struct send_case *held)
{
    static struct sent own;
    send_page(&held->sending, &own);
    hold_list(name, own.list, held->expected.list);
    for (uint64_t i = 0; own.list.items[0] == 0 && i < held->sending.buffer_length; i++)
        own_figure(name, own.records[i], held->expected.records[i]);
}

static void hold(struct text *text, const char *name)
{
    static struct send_case held;
    read_case(text, &held);
    hold_rules(name, &held);
    expect_send(name, probe_send, &held.sending, &held.expected);
    refused[held.expected.list.items[0]]++;
}

int main(int words, char **word)
{
    count_points();
    count_for_ranking();
    hold_lines(words, word, hold);
    print_held("send ", refused);
    return 0;
}
