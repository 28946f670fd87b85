/* A line of the cases: what is lent, and what is expected. */

#include "send.h"

/* The lengths of the lists that refusals are: 7 names the row, 11 the place and the coordinate. */
static const uint8_t refusals[MOST_REFUSAL + 1] = {[17] = 1, [7] = 2, [8] = 1, [4] = 1, [11] = 3};

static void read_records(struct text *text, struct send_case *to)
{
    if (read_bytes(text, to->expected.records, sizeof to->expected.records) != to->sending.buffer_length)
        malformed(text, "the records are not as long as the buffer");
}

void read_case(struct text *text, struct send_case *to)
{
    read_word(text, "send ");
    to->sending.books = read_number_field(text);
    read_table(text, &to->sending.table);
    read_word(text, " ");
    to->sending.book = read_number_field(text);
    to->sending.run_length = read_coefficients(text, to->sending.run, MOST_SENT);
    read_word(text, " ");
    to->sending.buffer_length = read_number_field(text);
    if (read_answer(text, &to->expected.list, refusals))
        read_records(text, to);
}
