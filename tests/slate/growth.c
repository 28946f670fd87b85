/* Takes by chance into pages of every size and every number of books that go on growing: from empty ones, and from ones
   with cells of every state and at fault; records that are held already, that differ in one byte or in several, that
   are of another row or of another book, and that are not in the table or of a book that is not there; lengths and
   numbers of books that are wrong, and tables that are bad. See docs/RULES.md, "The page" and "Books". */

#include "slate.h"

#include <stdio.h>

enum { TAKES_OF_CLASS = 525000, TAKES_OF_TABLE = 400, RECENT = 8, ONE_LARGE_IN = 32 };

/* How a page begins, and whether cells are drawn anew between the takes. */
enum manner { FROM_EMPTY, FROM_DRAWN, DRAWN_ANEW, MANNERS };

/* A page that goes on growing, by its table. */
struct growing {
    struct table table;
    struct table bad[2];
    enum manner manner;
    uint64_t takes;          /* that it has had so far */
    uint64_t recent[RECENT]; /* the place fields that they were at */
};

static struct page page = {.layout = STATES_FIRST};
static uint64_t tables, takes;

struct table table_of(uint64_t places)
{
    struct table table = good_table_by_chance();
    const uint64_t drawn = table.size / ROW_SIZE, rows = drawn < places ? drawn : places;
    table.size = rows * ROW_SIZE;
    for (uint64_t row = 0; row < rows; row++)
        set_two_bytes(table.bytes + row * ROW_SIZE + AT_PLACES, 1 + chance_below(places / rows));
    aim_total(&table, rows - 1, places);
    const struct judgment judgment = judge(table.bytes, table.size);
    own_figure("faults of a table of good rows", judgment.faults, 0);
    own_figure("places of a table", judgment.places, places);
    return table;
}

/* A table that is bad by one byte alone. */
static struct table spoiled(const struct table *good)
{
    struct table table;
    do {
        table = *good;
        table.bytes[chance_below(table.size)] = (uint8_t)chance_below(256);
    } while (judge(table.bytes, table.size).faults == 0);
    return table;
}

/* Any number of books, or mostly few where the pages would become large, since every byte of them is compared after
   each call. */
uint64_t some_books(uint64_t places)
{
    const uint64_t few = MOST_PLACES / places, is_any = few > MOST_BOOKS || chance_below(ONE_LARGE_IN) == 0;
    return 1 + chance_below(is_any ? MOST_BOOKS : few);
}

static void begin_anew(const struct growing *growing)
{
    if (growing->manner == FROM_EMPTY)
        begin_books(&page, page.places, page.filled);
    else
        pages_by_chance(&page, &growing->table, page.filled, 8);
}

/* A place that had a record lately, the same place in any book, or any. */
static uint64_t next_field(struct growing *growing)
{
    const uint64_t choice = chance_below(6), recent = growing->recent[chance_below(RECENT)];
    const uint64_t book = chance_below(page.filled);
    const uint64_t any = choice == 0 ? some_place(&growing->table) : chance_below(page.places);
    const uint64_t field = choice > 2 ? recent : place_field(book, choice == 2 ? place_in(recent) : any);
    growing->recent[growing->takes % RECENT] = field;
    return field;
}

/* A record for the place, with bytes behind it that repeat it, so that it may be lent too long. */
static struct arrival record_at(const struct growing *growing, uint64_t field)
{
    struct arrival record = arrival_by_chance(&growing->table, &page, field);
    if (chance_below(16) == 0)
        set_two_bytes(record.bytes + AT_PLACE, field_past_end(&page));
    if (chance_below(16) == 0)
        change_book(record.bytes);
    if (chance_below(32) == 0)
        record.length = other_than(RECORD_SIZE, MOST_TAKEN);
    if (chance_below(64) == 0)
        record.length = MOST_TAKEN + 1 + chance_below(MOST_ARRIVAL - MOST_TAKEN);
    for (uint64_t i = RECORD_SIZE; i < record.length; i++)
        record.bytes[i] = record.bytes[i - RECORD_SIZE];
    return record;
}

/* What the call is told of the page: at times a wrong size, a number of books that there may not be, or another one. */
static void tell_wrong(void)
{
    const uint64_t choice = chance_below(64);
    if (choice < 2)
        page.size = wrong_page_size(&page);
    else if (choice < 4)
        page.books = no_books_by_chance(page.filled);
    else if (choice == 4)
        page.books = 1 + chance_below(MOST_BOOKS);
}

static void compare_next(struct growing *growing)
{
    const uint64_t field = next_field(growing);
    if (growing->manner == DRAWN_ANEW && chance_below(4))
        draw_cell(&page, &growing->table, field, 6);
    const struct arrival record = record_at(growing, field);
    const struct table *table = chance_below(32) ? &growing->table : growing->bad + chance_below(2);
    tell_wrong();
    compare_lending(&(struct lending){.table = table, .page = &page, .record = &record});
    page.size = right_size(&page);
    page.books = page.filled;
    growing->takes++;
}

/* The takes of one table. A page of few cells begins anew once most of them must be contested. */
static uint64_t compare_table(uint64_t places, uint64_t number)
{
    const uint64_t books = some_books(places), takes_of_table = TAKES_OF_TABLE + 2 * places;
    const uint64_t until_anew = 8 + 4 * places * books;
    struct growing growing = {.table = table_of(places), .manner = (enum manner)(number % MANNERS)};
    growing.bad[0] = spoiled(&growing.table);
    growing.bad[1] = bad_table_by_chance((enum fault)(number / MANNERS % FAULTS));
    begin_books(&page, places, books);
    while (growing.takes < takes_of_table) {
        if (growing.takes % until_anew == 0)
            begin_anew(&growing);
        compare_next(&growing);
    }
    return takes_of_table;
}

/* Every class of pages has as many takes. */
void compare_growth(void)
{
    for (int size_class = 0; size_class < CLASSES; size_class++) {
        const uint64_t most = most_places[size_class], fewer = size_class > 0 ? most_places[size_class - 1] : 0;
        for (uint64_t of_class = 0; of_class < TAKES_OF_CLASS; tables++) {
            const uint64_t of_table = compare_table(most - chance_below(most - fewer), tables);
            of_class += of_table;
            takes += of_table;
        }
    }
    printf("growing pages: %lu takes on %lu tables of 1 to 4,096 places, with 1 to 16 books\n", takes, tables);
}
