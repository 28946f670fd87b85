/* The page, by rules of the program's own: how a cell is read, what take and collect must answer, and what take makes
   of a cell. See docs/RULES.md, "The page", "Books", "Refusal numbers" and "Order of checks". */

#include "page.h"

#include <string.h>

/* "An answer is one of the words". */
const char *const reading_words[READINGS] = {
    [SOUND] = "sound",
    [MENDED] = "mended",
    [MISSING] = "missing",
    [CONTESTED] = "contested",
    [UNREADABLE] = "unreadable",
};

static struct list refused(uint64_t refusal, uint64_t named)
{
    return (struct list){{refusal, named}};
}

uint64_t codeword_of(const uint8_t *record)
{
    return two_bytes(record + AT_CODEWORD) * 65536 + two_bytes(record + AT_CODEWORD + 2);
}

/* 9: "the record's row is not the row of its place". The place must be in the table. */
int is_foreign(const struct table *table, const uint8_t *record)
{
    return record[AT_ROW] != row_of(table, place_in(field_in(record)));
}

/* 12: its state is above 2, or it is held with a record of another book or another place, by the whole place field, or
   of another row than the place's. */
int is_at_fault(const struct table *table, uint64_t field, const uint8_t *cell)
{
    const uint8_t *record = cell + AT_RECORD;
    if (cell[AT_STATE] == STATE_HELD)
        return field_in(record) != field || is_foreign(table, record);
    return cell[AT_STATE] > STATE_CONTESTED;
}

static struct reading unreadable(uint64_t reason)
{
    return (struct reading){.word = UNREADABLE, .reason = reason};
}

/* A codeword past the end and below 2^b, in mending mode: 2^(b-1) is subtracted. */
static struct reading mend(struct shell shell, uint64_t codeword, uint64_t power)
{
    const uint64_t left = codeword - power / 2;
    if (left >= total_of(shell))
        own_error("a mended index is past the end", shell);
    if (!names_point(shell, left))
        return unreadable(15);
    return (struct reading){.word = MENDED, .shell = shell, .index = left, .distance = distance_of(shell, codeword)};
}

/* The held record of a place, which has the row of that place: its other fields, judged in the order of the rules. In
   plain mode nothing is mended, and 6 stands between 14 and 15. */
static struct reading read_record(uint64_t mode, const struct table *table, uint64_t place, const uint8_t *record)
{
    const uint64_t codeword = codeword_of(record);
    const uint8_t *row = row_at(table, place);
    if (record[AT_RADIUS_NUMBER] >= row[AT_NUMBER_OF_RADII])
        return unreadable(10);
    const struct shell shell = shell_of(row, record[AT_RADIUS_NUMBER]);
    const uint64_t total = total_of(shell), power = least_power_from(total);
    if (codeword >= power)
        return unreadable(14);
    if (codeword >= total && mode == PLAIN_MODE)
        return (struct reading){.word = UNREADABLE, .reason = 6, .distance = distance_of(shell, codeword)};
    if (codeword >= total)
        return mend(shell, codeword, power);
    if (!names_point(shell, codeword))
        return unreadable(15);
    return (struct reading){.word = SOUND, .shell = shell, .index = codeword};
}

/* A cell that is not at fault. */
struct reading read_cell(uint64_t mode, const struct table *table, uint64_t field, const uint8_t *cell)
{
    own_figure("mode in which a cell is read, of two", mode < MODES, 1);
    if (cell[AT_STATE] == STATE_EMPTY)
        return (struct reading){.word = MISSING};
    if (cell[AT_STATE] == STATE_CONTESTED)
        return (struct reading){.word = CONTESTED};
    return read_record(mode, table, place_in(field), cell + AT_RECORD);
}

/* Whether a cell that is not at fault is held with a codeword from the total to before 2^b: where the modes differ. */
int is_overflowing(const struct table *table, uint64_t field, const uint8_t *cell)
{
    const uint8_t *row = row_at(table, place_in(field)), *record = cell + AT_RECORD;
    if (cell[AT_STATE] != STATE_HELD || record[AT_RADIUS_NUMBER] >= row[AT_NUMBER_OF_RADII])
        return 0;
    const uint64_t total = total_of(shell_of(row, record[AT_RADIUS_NUMBER])), codeword = codeword_of(record);
    return codeword >= total && codeword < least_power_from(total);
}

/* Whether a codeword of the shell is mended: of those past the end what is left runs from the total less 2^(b-1) to
   before 2^(b-1). */
int is_any_mended(struct shell shell)
{
    const uint64_t total = total_of(shell), half = least_power_from(total) / 2, first = total - half;
    return first < half && next_named(shell, first) < half;
}

/* "The cell of a place that is claimed goes by the page rule". */
static void claim(uint8_t *cell, const uint8_t *record)
{
    const int is_same = memcmp(cell + AT_RECORD, record, RECORD_SIZE) == 0;
    if (cell[AT_STATE] == STATE_CONTESTED || (cell[AT_STATE] == STATE_HELD && is_same))
        return;
    const int is_other = cell[AT_STATE] == STATE_HELD;
    cell[AT_STATE] = is_other ? STATE_CONTESTED : STATE_HELD;
    for (uint64_t i = 0; i < RECORD_SIZE; i++)
        cell[AT_RECORD + i] = is_other ? 0 : record[i];
}

/* "take | 17, 7, 4, 8, 9, 12". */
struct list take(const struct table *table, struct page *page, const struct arrival *arrival)
{
    const struct judgment judgment = judge(table->bytes, table->size);
    if (is_no_number_of_books(page->books))
        return refused(17, 0);
    if (judgment.faults)
        return refused(7, judgment.row);
    if (page->size != CELL_SIZE * judgment.places * page->books || arrival->length != RECORD_SIZE)
        return refused(4, 0);
    const uint64_t field = field_in(arrival->bytes), book = book_in(field), place = place_in(field);
    if (place >= judgment.places || book >= page->books)
        return refused(8, 0);
    if (is_foreign(table, arrival->bytes))
        return refused(9, 0);
    const uint64_t number = book * judgment.places + place;
    uint8_t *cell = page->own + GUARDS + CELL_SIZE * number;
    if (is_at_fault(table, field, cell))
        return refused(12, 0);
    claim(cell, arrival->bytes);
    lay_own_cell(page, number);
    return refused(0, 0);
}

/* "each 8 bytes in turn as a record, and a shorter last part too"; how many of these takes are refused. */
uint64_t collect_bytes(const struct table *table, struct page *page, const uint8_t *bytes, uint64_t size)
{
    uint64_t refusals = 0;
    for (uint64_t at = 0; at < size; at += RECORD_SIZE) {
        const uint64_t left = size - at;
        struct arrival part = {.length = left < RECORD_SIZE ? left : RECORD_SIZE};
        for (uint64_t i = 0; i < part.length; i++)
            part.bytes[i] = bytes[at + i];
        refusals += take(table, page, &part).items[0] != 0;
    }
    return refusals;
}

uint64_t collect(const struct table *table, struct page *page, const struct arrival *run)
{
    return collect_bytes(table, page, run->bytes, run->length);
}
