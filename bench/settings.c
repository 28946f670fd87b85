/* The pairing tables that the calls are measured with: one of a row, and one of 32 rows of all lengths with 4,096
   places; for whole pages one of a row of 4,096 places of length 16; and one of a row with the magnitude enumeration,
   and one with the product-product enumeration. The others have the product enumeration. Each has one book, but for the
   table of a row once more, which 16 books share. These pages are kept cell by cell. Two of them come once more, kept
   states first: that of the table of a row, with one book and with 16. At last the largest page there is, of 16 books
   of 4,096 places. */

#include "bench.h"

enum { PLACES = 128, STEP = 64 }; /* of each row */

struct setting settings[SETTINGS] = {{.name = "1 row"}, {.name = "32 rows"}};
struct setting long_page = {.name = "4,096 places of length 16"};
struct setting other_rows[OTHER_ROWS] = {{.name = "1 magnitude row"}, {.name = "1 product-product row"}};
struct setting many_books = {.name = "1 row, 16 books"};
struct setting states_first = {.name = "1 row, states first"};
struct setting many_books_states_first = {.name = "1 row, 16 books, states first"};
struct setting largest_page = {.name = "16 books of 4,096 places"};

static void begin_row(uint8_t *row, uint64_t length, uint64_t number)
{
    row[AT_LENGTH] = (uint8_t)length;
    row[AT_NUMBER_OF_RADII] = (uint8_t)number;
    set_two_bytes(row + AT_STEP, STEP);
    set_two_bytes(row + AT_PLACES, PLACES);
}

/* One book, kept cell by cell. */
static void begin_one_row(struct setting *setting, uint64_t length, uint64_t places)
{
    const uint8_t radii[MOST_RADII] = {0, 1, 2, 4, 6, 8, 10, 12};
    setting->table.size = ROW_SIZE;
    setting->places = places;
    setting->books = 1;
    begin_row(setting->table.bytes, length, MOST_RADII);
    set_two_bytes(setting->table.bytes + AT_PLACES, places);
    __builtin_memcpy(setting->table.bytes + AT_RADII, radii, sizeof radii);
}

/* Each length twice; 5 to 8 radii, evenly spread up to the largest usable one. */
static void begin_rows(struct setting *setting)
{
    setting->table.size = ROW_SIZE * MOST_ROWS;
    setting->places = PLACES * MOST_ROWS;
    setting->books = 1;
    for (uint64_t number = 0; number < MOST_ROWS; number++) {
        uint8_t *row = setting->table.bytes + number * ROW_SIZE;
        const uint64_t length = 1 + number * 5 % MOST_LENGTH, radii = 5 + number % 4;
        begin_row(row, length, radii);
        for (uint64_t i = 0; i < radii; i++)
            row[AT_RADII + i] = (uint8_t)(i * largest_radius(length, PRODUCT) / (radii - 1));
    }
}

void begin_settings(void)
{
    begin_one_row(&settings[0], 8, PLACES);
    begin_rows(&settings[1]);
    begin_one_row(&long_page, MOST_LENGTH, MOST_PLACES);
    for (int i = 0; i < OTHER_ROWS; i++) {
        begin_one_row(&other_rows[i], 8, PLACES);
        other_rows[i].table.bytes[AT_SELECTOR] = (uint8_t)(MAGNITUDE + i);
    }
    begin_one_row(&many_books, 8, PLACES);
    many_books.books = MOST_BOOKS;
    begin_one_row(&states_first, 8, PLACES);
    states_first.layout = STATES_FIRST;
    begin_one_row(&many_books_states_first, 8, PLACES);
    many_books_states_first.books = MOST_BOOKS;
    many_books_states_first.layout = STATES_FIRST;
    begin_one_row(&largest_page, 8, MOST_PLACES);
    largest_page.books = MOST_BOOKS;
}

/* The same rows, each with as many times fewer places as there are to be fewer in all. */
struct setting with_places(const struct setting *with, uint64_t places)
{
    struct setting fewer = *with;
    fewer.places = places;
    for (uint8_t *row = fewer.table.bytes; row < fewer.table.bytes + fewer.table.size; row += ROW_SIZE)
        set_two_bytes(row + AT_PLACES, two_bytes(row + AT_PLACES) * places / with->places);
    return fewer;
}

uint64_t page_size(const struct setting *setting)
{
    return CELL_SIZE * setting->places * setting->books;
}

struct sharing sharing_of(const struct setting *setting, uint64_t book)
{
    return (struct sharing){&setting->table, setting->books, book, setting->layout};
}

/* Of a table whose rows have 128 places each. */
const uint8_t *row_for(const struct setting *setting, uint64_t place)
{
    return setting->table.bytes + place / PLACES * ROW_SIZE;
}

/* An index of chance that names a point. */
uint64_t named_index(struct shell shell)
{
    uint64_t index;
    do
        index = chance_below(total_of(shell));
    while (!names_point(shell, index));
    return index;
}

uint64_t field_of(const struct setting *setting, uint64_t cell)
{
    return place_field(cell / setting->places, cell % setting->places);
}

/* Any radius of the row of the cell's place, and any point. */
void sound_record(const struct setting *setting, uint64_t cell, uint8_t *record)
{
    const uint64_t place = cell % setting->places;
    const uint8_t *row = row_for(setting, place);
    const uint64_t number = chance_below(row[AT_NUMBER_OF_RADII]), index = named_index(shell_of(row, number));
    write_record(record, field_of(setting, cell), place / PLACES, number, index);
}
