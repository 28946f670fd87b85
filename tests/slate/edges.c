/* Takes with buffers that end where memory ends: what is read or written behind one of them, as where a size is judged
   too late, ends the call. See docs/RULES.md, "Refusal numbers" and "Books". */

#include "slate.h"

#include <stdio.h>
#include <string.h>
#include <sys/mman.h>

enum { ROOM = 65536, EDGE_TABLES = 100, MOST_SIZE = 600, FEW_PLACES = 3, FEW_BOOKS = 2 };

static struct page page = {.layout = STATES_FIRST};
static uint8_t *table_end, *page_end, *record_end;

uint8_t *end_of_room(void)
{
    uint8_t *room = mmap(NULL, 2 * ROOM, PROT_READ | PROT_WRITE, MAP_PRIVATE | MAP_ANONYMOUS, -1, 0);
    own_figure("rooms that cannot be had", mprotect(room + ROOM, ROOM, PROT_NONE) != 0, 0);
    return room + ROOM;
}

uint8_t *lend(uint8_t *to_end, const uint8_t *bytes, uint64_t size)
{
    uint8_t *lent = to_end - size;
    for (uint64_t i = 0; i < size; i++)
        lent[i] = bytes[i];
    return lent;
}

/* What was lent, after a call, and what it must be. */
static void compare_bytes(const struct taking *taking, const char *what, const uint8_t *lent, const uint8_t *wanted, uint64_t size)
{
    if (memcmp(lent, wanted, size) == 0)
        return;
    print_taking("aldrynja_take at the end of memory", taking);
    printf(", byte %ld of the %s", first_other_byte(wanted, lent) + GUARDS, what);
    end("it is not as it must be");
}

/* What a take at the end of memory tells. */
static void note_edge(const struct case_of_page *of, uint64_t refusal)
{
    const uint64_t field = field_in(of->arrival.bytes), book = book_in(field);
    note_slate(EDGE_TAKEN, refusal == 0);
    note_slate(EDGE_PART_OF_ROW, of->table.size % ROW_SIZE != 0);
    note_slate(EDGE_PAGE_SHORT, refusal == 4 && page.size < right_size(&page));
    note_slate(EDGE_RECORD_SHORT, refusal == 4 && of->arrival.length < RECORD_SIZE);
    note_slate(EDGE_FOREIGN_ROW, refusal == 9);
    note_slate(EDGE_LATER_BOOK, refusal == 0 && book > 0);
    note_slate(EDGE_BOOK_BEHIND, refusal == 8 && book == page.books && place_in(field) < page.places);
}

static void compare_at_edge(const struct case_of_page *of)
{
    const struct table *table = &of->table;
    const struct arrival *record = &of->arrival;
    uint8_t *lent_table = lend(table_end, table->bytes, table->size), *lent_page = lend(page_end, cell_at(&page, 0), page.size);
    uint8_t *lent_record = lend(record_end, record->bytes, record->length), before[CELL_SIZE];
    copy_named(&page, record, before);
    lay_states_first(cell_at(&page, 0), lent_page, page.size / CELL_SIZE);
    const struct taking taking = {table, &page, record, before, take(table, &page, record)};
    call_take(&taking, lent_table, lent_page, lent_record);
    keep_cell_by_cell(lent_page, page.size / CELL_SIZE);
    compare_bytes(&taking, "table", lent_table, table->bytes, table->size);
    compare_bytes(&taking, "page", lent_page, cell_at(&page, 0), page.size);
    compare_bytes(&taking, "record", lent_record, record->bytes, record->length);
    note_edge(of, taking.expected.items[0]);
}

/* With a record of a place of the table in a book, of its row and of another one. */
static void compare_rows_at_edge(struct case_of_page *of, uint64_t field)
{
    set_place(&of->table, field, of->arrival.bytes);
    compare_at_edge(of);
    of->arrival.bytes[AT_ROW] = foreign_row(&of->table, field);
    compare_at_edge(of);
}

/* The last place, or any. */
static uint64_t place_by_chance_at_edge(void)
{
    return chance_below(2) ? page.places - 1 : chance_below(page.places);
}

/* Each number of books up to those of the page, which is as long as that number would have it: with a record of the
   last of them, and with one of the book whose cells would lie behind the end. */
static void compare_books_at_edge(struct case_of_page *of)
{
    for (page.books = 1; page.books <= page.filled; page.books++) {
        page.size = CELL_SIZE * page.places * page.books;
        compare_rows_at_edge(of, place_field(page.books - 1, place_by_chance_at_edge()));
        if (page.books < MOST_BOOKS)
            compare_rows_at_edge(of, place_field(page.books, place_by_chance_at_edge()));
    }
    page.books = page.filled;
}

/* Every length of a record, and of a page from none to two cells too long. */
static void compare_case_at_edge(const struct case_of_page *right)
{
    struct case_of_page of = *right;
    for (of.arrival.length = 0; of.arrival.length <= MOST_TAKEN; of.arrival.length++)
        compare_rows_at_edge(&of, field_of_case(right));
    of.arrival.length = RECORD_SIZE;
    for (page.size = 0; page.size <= right_size(&page) + CELL_SIZE * CELLS_BEHIND; page.size++)
        compare_rows_at_edge(&of, place_field(chance_below(page.filled), place_by_chance_at_edge()));
    compare_books_at_edge(&of);
}

/* Every size of good rows, the page as large as the whole ones would have it. */
static void compare_tables_at_edge(void)
{
    struct case_of_page of = {.table = rows_by_chance(MOST_LENT_ROWS, FEW_PLACES), .arrival = {.length = RECORD_SIZE}};
    for (of.table.size = 0; of.table.size <= MOST_SIZE; of.table.size++) {
        const uint64_t places = places_of_rows(&of.table);
        begin_books(&page, places > 0 ? places : 1, FEW_BOOKS);
        compare_rows_at_edge(&of, place_field(FEW_BOOKS - 1, page.places - 1));
    }
}

void compare_edges(void)
{
    table_end = end_of_room();
    page_end = end_of_room();
    record_end = end_of_room();
    for (int i = 0; i < EDGE_TABLES; i++) {
        const struct case_of_page right = right_case(&page, small_table_by_chance());
        compare_case_at_edge(&right);
    }
    compare_tables_at_edge();
    printf("edges: the pages of %d tables, and %d sizes of a table\n", EDGE_TABLES, MOST_SIZE + 1);
}
