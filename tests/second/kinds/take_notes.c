/* The kinds that one comparison of take or of collect tells, beside those of page_notes.c and refusal_notes.c. See
   docs/RULES.md, "The page", "Books" and "Refusal numbers". */

#include "page_kinds.h"

#include <string.h>

/* Whether the row is not right, whatever else is wrong. A place that is not in the table has no row; a program that
   looks for it comes to the last row, or to the number behind. */
static int has_other_row(const struct table *table, const struct page *page, const struct arrival *arrival)
{
    const uint64_t row = arrival->bytes[AT_ROW], rows = table->size / ROW_SIZE;
    const int is_in_table = place_in(field_in(arrival->bytes)) < page->places;
    if (arrival->length <= AT_ROW)
        return 0;
    return is_in_table ? is_foreign(table, arrival->bytes) : row + 1 != rows && row != rows;
}

/* The bytes of a record in which it differs from what a held cell has, as the bits of a set; all for another cell. */
static uint32_t differing(const uint8_t *cell, const uint8_t *record)
{
    uint32_t bytes = 0;
    for (int i = 0; i < RECORD_SIZE; i++)
        bytes |= (uint32_t)(cell[AT_STATE] != STATE_HELD || cell[AT_RECORD + i] != record[i]) << i;
    return bytes;
}

/* A record that is refused with 9, and the cell that it does not claim. */
static void note_refused_9(const struct table *table, const uint8_t *record, const uint8_t *before)
{
    note_foreign(FOREIGN, table, record);
    note_page(TAKE, EMPTY_9, before[AT_STATE] == STATE_EMPTY);
    note_page(TAKE, CONTESTED_9, before[AT_STATE] == STATE_CONTESTED);
    note_page(TAKE, HELD_SAME_BUT_ROW_9,
              !is_at_fault(table, field_in(record), before) && differing(before, record) == 1 << AT_ROW);
    note_page(TAKE, FAULT_SAME_9, differing(before, record) == 0);
}

/* A record that is taken: stored in an empty cell, or compared with the record that is held. */
static void note_taken(const struct table *table, const struct page *page, const uint8_t *record, const uint8_t *before)
{
    const uint64_t field = field_in(record);
    const uint32_t others = differing(before, record);
    if (before[AT_STATE] == STATE_EMPTY)
        note_cell(STORED, table, field, cell_at(page, field));
    if (before[AT_STATE] != STATE_HELD)
        return;
    note_page(TAKE, SAME_STAYS, others == 0);
    note_page(TAKE, OTHER_IN_SEVERAL, (others & (others - 1)) != 0);
    for (uint64_t byte = 0; byte < RECORD_SIZE; byte++)
        if (others == (uint32_t)1 << byte)
            note_other_byte(byte);
}

/* A record whose length is right, for a place in a book that is there. */
static void note_record(const struct question *named, const uint8_t *record, const uint8_t *before,
                        struct list expected)
{
    const struct table *table = named->table;
    const uint32_t others = differing(before, record), of_field = 3 << AT_PLACE;
    if (expected.items[0] == 9) {
        note_refused_9(table, record, before);
        return;
    }
    note_cell(TAKE, table, field_in(record), before);
    note_where(TAKE, named, expected);
    note_page(TAKE, FAULT_SAME_REST, expected.items[0] == 12 && (others & ~of_field) == 0);
    note_page(TAKE, FAULT_SAME_BUT_ROW, expected.items[0] == 12 && others == 1 << AT_ROW);
    if (expected.items[0] == 0)
        note_taken(table, named->page, record, before);
}

/* With a good table. */
static struct reasons reasons_of_take(const struct question *named, const struct arrival *arrival,
                                      const uint8_t *before)
{
    const int is_8 = is_outside(named);
    return (struct reasons){.is_4 = is_wrong_page(named->page) || arrival->length != RECORD_SIZE,
                            .is_8 = is_8,
                            .is_9 = has_other_row(named->table, named->page, arrival),
                            .is_12 = !is_8 && is_at_fault(named->table, field_in(arrival->bytes), before)};
}

/* `before` is the cell of the place that is named, as it was; where there is none it is nothing. */
void note_take(const struct table *table, const struct page *page, const struct arrival *arrival, const uint8_t *before,
               struct list expected)
{
    const uint64_t field = field_in(arrival->bytes), refusal = expected.items[0];
    const struct question named = {.table = table, .page = page, .book = book_in(field), .place = place_in(field)};
    const int is_7 = judge(table->bytes, table->size).faults != 0, is_other_length = arrival->length != RECORD_SIZE;
    const struct reasons reasons = is_7 ? (struct reasons){.is_7 = 1} : reasons_of_take(&named, arrival, before);
    note_layout(page->layout);
    note_refusal(TAKE, &named, expected);
    note_page(TAKE, BOTH_7_AND_9, refusal == 7 && !is_other_length && arrival->bytes[AT_ROW] >= MOST_ROWS);
    if (refusal == 17)
        note_books(TAKE, page->books, reasons);
    if (refusal == 17 || is_7)
        return;
    note_both(TAKE, reasons);
    note_page(TAKE, OTHER_LENGTH, is_other_length && !is_wrong_page(page));
    note_page(TAKE, OTHER_LENGTH_AND_ROW, is_other_length && !is_wrong_page(page) && reasons.is_9 && !reasons.is_8);
    note_page(TAKE, BOTH_LENGTHS, is_other_length && is_wrong_page(page));
    note_record_length(arrival->length);
    if (refusal != 4 && refusal != 8)
        note_record(&named, arrival->bytes, before, expected);
}

static int has_a_record_twice(const struct arrival *run)
{
    for (uint64_t i = 0; i + RECORD_SIZE <= run->length; i += RECORD_SIZE)
        for (uint64_t j = 0; j < i; j += RECORD_SIZE)
            if (memcmp(run->bytes + i, run->bytes + j, RECORD_SIZE) == 0)
                return 1;
    return 0;
}

/* What became of the places that parts of another row name, and whether all parts are such. */
static void note_foreign_parts(const struct table *table, const struct page *page, const struct arrival *run)
{
    uint64_t foreign = 0, empty = 0, held = 0;
    for (const uint8_t *part = run->bytes; part + RECORD_SIZE <= run->bytes + run->length; part += RECORD_SIZE) {
        const uint64_t field = field_in(part);
        if (!has_cell(page, field) || !is_foreign(table, part))
            continue;
        const uint8_t *cell = cell_at(page, field);
        foreign++;
        empty += cell[AT_STATE] == STATE_EMPTY;
        held += cell[AT_STATE] == STATE_HELD && !is_at_fault(table, field, cell);
    }
    note_page(COLLECT, RUN_ALL_9, foreign > 1 && RECORD_SIZE * foreign == run->length);
    note_page(COLLECT, RUN_EMPTY_BESIDE_9, empty > 0);
    note_page(COLLECT, RUN_HELD_BESIDE_9, held > 0);
}

void note_run(const struct table *table, const struct page *page, const struct arrival *run, uint64_t refusals)
{
    const uint64_t parts = (run->length + RECORD_SIZE - 1) / RECORD_SIZE;
    const uint64_t of_page = judge(table->bytes, table->size).faults ? 7 : is_wrong_page(page) ? 4 : 0;
    const uint64_t refusal = is_no_number_of_books(page->books) ? 17 : of_page;
    note_layout(page->layout);
    note_refusal(COLLECT, &(struct question){.table = table, .page = page}, (struct list){{refusal}});
    if (refusal != 0)
        return;
    note_remainder(run->length);
    note_page(COLLECT, RUN_OF_NONE, parts == 0);
    note_page(COLLECT, RUN_OF_ONE_PART, parts == 1);
    note_page(COLLECT, RUN_TAKEN, parts > 1 && refusals == 0);
    note_page(COLLECT, RUN_REFUSED, parts > 1 && refusals == parts);
    note_page(COLLECT, RUN_MIXED, refusals > 0 && refusals < parts);
    note_page(COLLECT, RUN_TAKEN_AFTER_REFUSED, !has_cell(page, field_in(run->bytes)) && refusals < parts);
    note_page(COLLECT, RUN_REPEATS, has_a_record_twice(run));
    note_foreign_parts(table, page, run);
}
