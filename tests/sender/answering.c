/* What a sender must make of a page; docs/RULES.md, "Sender program". */

#include "sender.h"

#include <stdio.h>

enum { MOST_LINE = 64 };

/* "A file that is not a whole number of fours is a run of a wrong length." A sender has room for all records, and all
   of them are of book 0. */
void answer(struct sending *sending, uint64_t size, struct sent *to)
{
    sending->books = ONE_BOOK;
    sending->book = 0;
    sending->run_length = size % F32_SIZE == 0 ? size / F32_SIZE : UINT64_MAX;
    sending->buffer_length = RECORD_SIZE * judge(sending->table.bytes, sending->table.size).places;
    send_page(sending, to);
}

/* "It writes the records to the file `records.bin` and prints nothing." */
struct bytes records_of(const struct sending *sending, const struct sent *sent)
{
    const int is_refused = sent->list.items[0] != 0;
    return (struct bytes){is_refused ? 0 : sent->records, is_refused ? 0 : sending->buffer_length};
}

/* "Or it prints one line on its standard output, and writes no file". Only a refusal of 11 tells what it names. */
const char *refusal_of(const struct sent *sent)
{
    static char line[MOST_LINE];
    const uint64_t *said = sent->list.items;
    if (said[0] == 11)
        snprintf(line, sizeof line, "refused 11 %lu %lu\n", said[1], said[2]);
    else
        snprintf(line, sizeof line, "refused %lu\n", said[0]);
    return said[0] == 0 ? 0 : line;
}
