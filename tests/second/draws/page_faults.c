/* Calls of the page with several faults at once, and with every state at one place, of pages of one book and of
   several. See docs/RULES.md, "Books", "Refusal numbers" and "Order of checks". */

#include "page_draws.h"

enum { STATE_TABLES = 100 };

/* Where the calls look. */
uint64_t field_of_case(const struct case_of_page *of)
{
    return place_field(of->book, of->place);
}

/* A good table, a page without faults, and everything right for one place in a book. There are fewer books than there
   may be, so that a record can be of one that is not there. */
struct case_of_page right_case(struct page *page, struct table table)
{
    struct case_of_page right = {.table = table, .place = some_place(&table), .arrival = {.length = RECORD_SIZE}};
    const uint64_t books = books_by_chance() % MOST_BOOKS;
    pages_by_chance(page, &table, books > 0 ? books : MOST_BOOKS - 1, 0);
    right.book = chance_below(page->filled);
    right.out_length = row_at(&table, right.place)[AT_LENGTH];
    right.coordinate = chance_below(right.out_length);
    record_by_chance(&table, field_of_case(&right), right.arrival.bytes);
    return right;
}

/* The number itself, or any from it on that is below the end. */
static uint64_t from(uint64_t number, uint64_t end)
{
    return chance_below(2) ? number : number + chance_below(end - number);
}

/* Gives the case, and its record, a book or a place that is not there. */
static void spoil_field(struct case_of_page *wrong, const struct page *page, int set)
{
    const uint64_t book = set & WRONG_BOOK ? from(page->filled, MOST_BOOKS) : wrong->book;
    const uint64_t place = set & WRONG_PLACE ? from(page->places, 1 << PLACE_BITS) : wrong->place;
    set_two_bytes(wrong->arrival.bytes + AT_PLACE, place_field(book, place));
    if (set & WRONG_BOOK)
        wrong->book = wrong_book(page->filled);
    if (set & WRONG_PLACE)
        wrong->place = wrong_place(page->places);
}

/* A right case with what the set says made wrong; the page too. */
static struct case_of_page with_faults(const struct case_of_page *right, struct page *page, int set, const uint8_t *kept)
{
    struct case_of_page wrong = *right;
    uint8_t cell[CELL_SIZE];
    for (int i = 0; i < CELL_SIZE; i++)
        cell[i] = kept[i];
    if (set & WRONG_CELL)
        spoil_cell(&right->table, field_of_case(right), cell);
    set_cell(page, field_of_case(right), cell);
    page->size = set & WRONG_PAGE ? wrong_page_size(page) : right_size(page);
    page->books = set & WRONG_BOOKS ? no_books_by_chance(page->filled) : page->filled;
    if (set & WRONG_LENGTH) {
        wrong.arrival.length = other_than(RECORD_SIZE, MOST_TAKEN);
        wrong.out_length = other_than(right->out_length, MOST_OUTPUT);
    }
    if (set & WRONG_COORDINATE)
        wrong.coordinate = chance_below(2) ? right->out_length : MOST_LENGTH + chance_below(UINT64_MAX - MOST_LENGTH);
    if (set & WRONG_ROW)
        wrong.arrival.bytes[AT_ROW] = foreign_row(&right->table, right->place);
    spoil_field(&wrong, page, set);
    if (set & WRONG_TABLE)
        spoil_table(&wrong.table);
    return wrong;
}

void for_each_set(struct page *page, visit_set *visit)
{
    for (int i = 0; i < SET_TABLES; i++) {
        const struct case_of_page right = right_case(page, small_table_by_chance());
        uint8_t kept[CELL_SIZE];
        for (int j = 0; j < CELL_SIZE; j++)
            kept[j] = cell_at(page, field_of_case(&right))[j];
        for (int set = 0; set < SETS; set++) {
            const struct case_of_page wrong = with_faults(&right, page, set, kept);
            visit(&wrong, set);
        }
    }
}

/* The rest of the cell is as it was; in every other table it has another row. */
void for_each_state(struct page *page, visit_case *visit)
{
    for (int i = 0; i < STATE_TABLES; i++) {
        const struct case_of_page right = right_case(page, small_table_by_chance());
        uint8_t cell[CELL_SIZE];
        record_by_chance(&right.table, field_of_case(&right), cell + AT_RECORD);
        if (i % 2)
            cell[AT_RECORD + AT_ROW] = foreign_row(&right.table, right.place);
        for (int state = 0; state < 256; state++) {
            cell[AT_STATE] = (uint8_t)state;
            set_cell(page, field_of_case(&right), cell);
            visit(&right);
        }
    }
}

/* "take | 17, 7, 4, 8, 9, 12", told from the faults alone. */
uint64_t refusal_of_take(int set)
{
    if (set & WRONG_BOOKS)
        return 17;
    if (set & WRONG_TABLE)
        return 7;
    if (set & (WRONG_PAGE | WRONG_LENGTH))
        return 4;
    if (set & (WRONG_BOOK | WRONG_PLACE))
        return 8;
    return set & WRONG_ROW ? 9 : set & WRONG_CELL ? 12 : 0;
}
