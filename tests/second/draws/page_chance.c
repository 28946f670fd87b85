/* Pairing tables for pages, records, cells and pages by chance: good ones, and all that can be wrong with them. See
   docs/RULES.md, "The page", "Books" and "Quantizing into a record". */

#include "page_draws.h"

/* A good table with few places in each row, at times with one place in all. */
struct table small_table_by_chance(void)
{
    struct table table = good_table_by_chance();
    const uint64_t is_single = chance_below(8) == 0;
    if (is_single)
        table.size = ROW_SIZE;
    for (uint8_t *row = table.bytes; row < table.bytes + table.size; row += ROW_SIZE)
        set_two_bytes(row + AT_PLACES, is_single ? 1 : 1 + chance_below(4));
    return table;
}

/* A good table of few places or of many. */
struct table page_table_by_chance(void)
{
    return chance_below(2) ? small_table_by_chance() : good_table_by_chance();
}

/* A good table of as many places as there can be. */
struct table large_table_by_chance(void)
{
    struct table table = good_table_by_chance();
    aim_total(&table, table.size / ROW_SIZE - 1, MOST_PLACES);
    return table;
}

/* Gives a row one of the shells that its selector alone makes unusable. */
static void lose_radius(uint8_t *row)
{
    const struct shell lost = lost_shells[chance_below(LOST_SHELLS)];
    const uint8_t fields[] = {(uint8_t)lost.length, 2, 0, (uint8_t)lost.radius, 0, 0, 0, 0, 0, 0};
    for (uint64_t i = 0; i < sizeof fields; i++)
        row[i] = fields[i];
    row[AT_SELECTOR] = (uint8_t)lost.selector;
}

/* Gives a table one of the faults that are rare by chance. */
static void give_fault(struct table *table, enum fault fault)
{
    uint8_t *row = table->bytes + chance_below(table->size / ROW_SIZE + 1) * ROW_SIZE;
    if (fault == NO_BYTES)
        table->size = 0;
    if (fault == MORE_THAN_32_ROWS)
        *table = rows_by_chance(MOST_ROWS + 1, MOST_PLACES / (MOST_ROWS + 1));
    if (fault == RADIUS_NOT_USABLE && chance_below(2))
        lose_radius(row);
    if (fault == NO_STEP)
        set_two_bytes(row + AT_STEP, 0);
    if (fault == NO_PLACES)
        set_two_bytes(row + AT_PLACES, 0);
    if (fault == BAD_SELECTOR && table->size >= ROW_SIZE)
        spoil_selector(table);
}

/* A table whose size, or whose first bad row, has that fault, and maybe others. */
struct table bad_table_by_chance(enum fault fault)
{
    struct table table;
    do {
        table = table_by_chance();
        give_fault(&table, fault);
    } while ((judge(table.bytes, table.size).faults >> fault & 1) == 0);
    return table;
}

/* Gives a row the length and the selector of a usable shell, and other radii: that of the shell, and more by chance,
   for which room is kept. */
void plant_shell(struct table *table, uint64_t number, struct shell shell)
{
    uint8_t *row = table->bytes + number * ROW_SIZE;
    uint64_t have = 1;
    row[AT_LENGTH] = (uint8_t)shell.length;
    row[AT_SELECTOR] = (uint8_t)shell.selector;
    for (uint64_t radius = 1; radius <= largest_radius(shell.length, shell.selector); radius++) {
        const uint64_t kept = radius < shell.radius;
        if (radius == shell.radius || (have + kept < MOST_RADII && chance_below(4) == 0))
            row[AT_RADII + have++] = (uint8_t)radius;
    }
    row[AT_NUMBER_OF_RADII] = (uint8_t)have;
    for (; have < MOST_RADII; have++)
        row[AT_RADII + have] = 0;
}

/* The codewords beside which the answer changes, as far as there are such. */
uint64_t codeword_beside(struct shell shell, uint64_t number)
{
    const uint64_t total = total_of(shell), power = least_power_from(total);
    const uint64_t beside[CODEWORDS_BESIDE] = {0, total - 1, total, total + 1, power - 1, power, power + 1, TWO_TO_32 - 1};
    return beside[number] < TWO_TO_32 ? beside[number] : TWO_TO_32 - 1;
}

/* An index of an empty shape, or a codeword past the end that is mended to it; the shell must have one. */
uint64_t empty_codeword(struct shell shell)
{
    const uint64_t total = total_of(shell), half = least_power_from(total) / 2, index = empty_by_chance(shell);
    const int is_mended_to = index < half && index + half >= total;
    return is_mended_to && chance_below(2) ? index + half : index;
}

/* A codeword past the end that is mended; the shell must have one. */
uint64_t mended_codeword(struct shell shell)
{
    const uint64_t total = total_of(shell), half = least_power_from(total) / 2, first = total - half;
    const uint64_t left = next_named(shell, first + chance_below(half - first));
    return half + (left < half ? left : next_named(shell, first));
}

/* One of the first, one of an empty shape, one that is mostly sound or mended, or any. */
static uint64_t codeword_by_chance(struct shell shell)
{
    const uint64_t total = total_of(shell), power = least_power_from(total), choice = chance_below(8);
    if (choice < 3)
        return codeword_beside(shell, chance_below(CODEWORDS_BESIDE));
    if (choice == 3 && has_empty_shapes(shell))
        return empty_codeword(shell);
    if (choice < 5)
        return chance_below(total);
    return choice < 7 && total < power ? total + chance_below(power - total) : chance_below(TWO_TO_32);
}

/* A radius number from the row's number of radii on, often below 8, and then often with codeword 0. */
static void spoil_radius_number(const uint8_t *row, uint8_t *record)
{
    const uint64_t number = row[AT_NUMBER_OF_RADII], least = chance_below(2) ? number : MOST_RADII;
    const uint64_t bounds[] = {1, MOST_RADII + 1 - number, 256 - least};
    record[AT_RADIUS_NUMBER] = (uint8_t)(least + chance_below(bounds[chance_below(ENTRIES(bounds))]));
    for (uint64_t i = AT_CODEWORD, is_zero = chance_below(2); is_zero && i < RECORD_SIZE; i++)
        record[i] = 0;
}

/* A record that claims a place of a good table. Its radius number is at times not in the row. */
void record_by_chance(const struct table *table, uint64_t field, uint8_t *record)
{
    const uint64_t row = row_of(table, place_in(field));
    const uint8_t *fields = table->bytes + row * ROW_SIZE;
    const uint64_t number = chance_below(fields[AT_NUMBER_OF_RADII]);
    write_record(record, field, row, number, codeword_by_chance(shell_of(fields, number)));
    if (chance_below(8) == 0)
        spoil_radius_number(fields, record);
}

/* Gives a record a place in a book, and the row of that place. */
void set_place(const struct table *table, uint64_t field, uint8_t *record)
{
    set_two_bytes(record + AT_PLACE, field);
    record[AT_ROW] = (uint8_t)row_of(table, place_in(field));
}

/* Another row than that of a place: a neighbour, often the one that begins behind the place; one of the table; or one
   that is the same in its low bits, or in all bits but one. */
uint8_t foreign_row(const struct table *table, uint64_t field)
{
    const uint64_t place = place_in(field), row = row_of(table, place), next = row_of(table, place + 1);
    const uint64_t rows = table->size / ROW_SIZE;
    const uint64_t any = other_than(row, 255), of_table = rows > 1 ? other_than(row, rows - 1) : any;
    const uint64_t beside = row < next && next < rows ? next : row + 255, bit = (uint64_t)1 << chance_below(8);
    const uint64_t others[] = {row + 1, row + 255, beside, of_table, row + MOST_ROWS * (1 + chance_below(7)), row ^ bit, any};
    return (uint8_t)others[chance_below(ENTRIES(others))];
}

/* A cell that is not at fault: empty or contested, with zeros or not, or held. */
void cell_by_chance(const struct table *table, uint64_t field, uint8_t *cell)
{
    const uint8_t states[] = {STATE_EMPTY, STATE_EMPTY, STATE_CONTESTED, STATE_CONTESTED, STATE_HELD};
    const uint64_t choice = chance_below(8), is_zeros = choice == 0 || choice == 2, is_any = choice < 4 && chance_below(2);
    cell[AT_STATE] = states[choice < 4 ? choice : 4];
    record_by_chance(table, field, cell + AT_RECORD);
    for (uint64_t i = AT_RECORD; i < CELL_SIZE && (is_zeros || is_any); i++)
        cell[i] = is_zeros ? 0 : (uint8_t)chance_below(256);
}

/* Gives a record a place field of which the high byte, the low byte, both, or the book alone are changed. */
static void spoil_place_field(uint8_t *record)
{
    const uint64_t changed = chance_below(4);
    if (changed == 0)
        change_book(record);
    if (changed > 1)
        record[AT_PLACE] ^= (uint8_t)(chance_below(2) ? 1 : 1 + chance_below(255));
    if (changed == 1 || changed == 3)
        record[AT_PLACE + 1] ^= (uint8_t)(chance_below(2) ? 1 : 1 + chance_below(255));
}

/* Makes a cell be at fault: another state, or held with another book, another place, another row, or several of
   these. */
void spoil_cell(const struct table *table, uint64_t field, uint8_t *cell)
{
    const uint8_t states[] = {3, 4, 127, 128, 129, 130, 254, 255};
    const uint64_t choice = chance_below(10);
    uint8_t *record = cell + AT_RECORD;
    if (choice < 3) {
        cell[AT_STATE] = chance_below(4) ? (uint8_t)(3 + chance_below(253)) : states[chance_below(ENTRIES(states))];
        return;
    }
    cell[AT_STATE] = STATE_HELD;
    set_place(table, field, record);
    if (choice < 6)
        spoil_place_field(record);
    if (choice > 4)
        record[AT_ROW] = foreign_row(table, field);
}

/* Gives a place in a book a new cell, of which one in so many is at fault; none for 0. */
void draw_cell(struct page *page, const struct table *table, uint64_t field, uint64_t one_bad_in)
{
    uint8_t cell[CELL_SIZE];
    cell_by_chance(table, field, cell);
    if (one_bad_in > 0 && chance_below(one_bad_in) == 0)
        spoil_cell(table, field, cell);
    set_cell(page, field, cell);
}

/* All cells of a good table's page, of so many books. */
void pages_by_chance(struct page *page, const struct table *table, uint64_t books, uint64_t one_bad_in)
{
    begin_books(page, judge(table->bytes, table->size).places, books);
    for (uint64_t book = 0; book < books; book++)
        for (uint64_t place = 0; place < page->places; place++)
            draw_cell(page, table, place_field(book, place), one_bad_in);
}

/* A record for a place in a book: what its cell has, the same but for one byte, or any. Its row is mostly that of the
   place, and else another one, or what it has come to be. */
struct arrival arrival_by_chance(const struct table *table, const struct page *page, uint64_t field)
{
    struct arrival arrival = {.length = RECORD_SIZE};
    const uint8_t *record = cell_at(page, field) + AT_RECORD;
    const uint64_t choice = chance_below(8), byte = AT_ROW + chance_below(RECORD_SIZE - AT_ROW), bit = chance_below(8);
    const uint64_t row = chance_below(16);
    for (uint64_t i = 0; i < RECORD_SIZE; i++)
        arrival.bytes[i] = record[i];
    if (choice < 3)
        arrival.bytes[byte] ^= (uint8_t)(chance_below(2) ? (uint64_t)1 << bit : 1 + chance_below(255));
    if (choice > 4)
        record_by_chance(table, field, arrival.bytes);
    set_two_bytes(arrival.bytes + AT_PLACE, field);
    if (row < 2)
        arrival.bytes[AT_ROW] = foreign_row(table, field);
    if (row > 3)
        set_place(table, field, arrival.bytes);
    return arrival;
}

/* Another size than 9 x places x books: near it, of other cells, of another number of books, or right only where a
   number is cut. Sizes that are larger the call may not look at. */
uint64_t wrong_page_size(const struct page *page)
{
    const uint64_t right = right_size(page), cells = cells_of(page), shorter = chance_below(right);
    const uint64_t book = CELL_SIZE * page->places;
    const uint64_t near[] = {right - 1, right + 1, right - CELL_SIZE, right + CELL_SIZE, right - book, right + book};
    const uint64_t other[] = {0, shorter, RECORD_SIZE * cells, cells, right + 65536, right + TWO_TO_32,
                              page->filled == 1 ? MOST_BOOKS * book : book};
    return chance_below(2) ? near[chance_below(ENTRIES(near))] : other[chance_below(ENTRIES(other))];
}
