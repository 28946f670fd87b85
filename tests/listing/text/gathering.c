/* What came for each place of a table. The page is not made step by step: of all that claim a place the first record is
   kept, and whether any other differs from it, so that the order plays no part. See docs/RULES.md, "The page", "Books"
   and "Listing program". */

#include "../listing.h"

#include <string.h>

/* The table must be good. */
void begin_gathering(struct gathering *to, const struct table *table)
{
    *to = (struct gathering){.places = judge(table->bytes, table->size).places};
    for (uint64_t place = 0; place < to->places; place++)
        to->came[place].row = row_of(table, place);
}

/* There is one book, and a table has at most as many places as a field has room for: a field of another book is that of
   no place. The record's row must be the row of the place. */
static int claims_place(const struct gathering *of, const uint8_t *part, uint64_t size)
{
    if (size != RECORD_SIZE)
        return 0;
    const uint64_t place = two_bytes(part + AT_PLACE);
    return place < of->places && part[AT_ROW] == of->came[place].row;
}

/* One part of a capture. What claims no place is a refused take. */
void gather(struct gathering *to, const uint8_t *part, uint64_t size)
{
    if (!claims_place(to, part, size)) {
        to->refused++;
        return;
    }
    const uint64_t place = two_bytes(part + AT_PLACE);
    uint8_t *first = to->came[place].first;
    for (int i = 0; i < RECORD_SIZE && to->came[place].claims == 0; i++)
        first[i] = part[i];
    to->came[place].is_contested |= memcmp(first, part, RECORD_SIZE) != 0;
    to->came[place].claims++;
}

/* "each 8 bytes in turn as a record, and a shorter last part too" */
void gather_run(struct gathering *to, const uint8_t *run, uint64_t size)
{
    for (uint64_t at = 0; at < size; at += RECORD_SIZE)
        gather(to, run + at, size - at < RECORD_SIZE ? size - at : RECORD_SIZE);
}

/* The cell that the page has for a place. */
void cell_of(const struct gathering *from, uint64_t place, uint8_t *cell)
{
    const int is_empty = from->came[place].claims == 0, is_contested = from->came[place].is_contested;
    cell[AT_STATE] = is_empty ? STATE_EMPTY : is_contested ? STATE_CONTESTED : STATE_HELD;
    for (int i = 0; i < RECORD_SIZE; i++)
        cell[AT_RECORD + i] = is_empty || is_contested ? 0 : from->came[place].first[i];
}

/* A listing asks for mending. */
struct reading reading_of(const struct table *table, const struct gathering *from, uint64_t place)
{
    uint8_t cell[CELL_SIZE];
    cell_of(from, place, cell);
    return read_cell(MENDING_MODE, table, place, cell);
}
