/* A line of the cases: what is lent, and what is expected. */

#include "page.h"

const char *const call_words[CALLS] = {"take ",  "read ",            "coefficient ",
                                       "tally ", "to_states_first ", "to_cell_by_cell "};

/* The lengths of the lists that refusals are: 7 names the row, and 12 of the tally the place. */
static const uint8_t refusals[CALLS][MOST_REFUSAL + 1] = {
    [OF_TAKE] = {[17] = 1, [7] = 2, [4] = 1, [8] = 1, [9] = 1, [12] = 1},
    [OF_READ] = {[16] = 1, [17] = 1, [7] = 2, [8] = 1, [4] = 1, [12] = 1},
    [OF_COEFFICIENT] = {[16] = 1, [17] = 1, [7] = 2, [8] = 1, [4] = 1, [13] = 1, [12] = 1},
    [OF_TALLY] = {[16] = 1, [17] = 1, [7] = 2, [8] = 1, [4] = 1, [12] = 2},
    [OF_TO_STATES_FIRST] = {[17] = 1, [7] = 2, [4] = 1},
    [OF_TO_CELL_BY_CELL] = {[17] = 1, [7] = 2, [4] = 1},
};

static uint64_t read_next_number(struct text *text)
{
    read_word(text, " ");
    return read_number(text);
}

/* The page before the call, which is also what a refusal must leave. If it has the cells of all its books, they stand
   there one after another; else it is as one book, with part of a cell made a whole one. */
static void read_page(struct text *text, struct page_case *to, uint64_t books)
{
    const uint64_t places = judge(to->table.bytes, to->table.size).places;
    read_word(text, " ");
    const uint64_t size = read_bytes(text, to->after, sizeof to->after);
    if (!is_no_number_of_books(books) && size == CELL_SIZE * places * books)
        begin_books(&to->page, places, books);
    else
        begin_page(&to->page, (size + CELL_SIZE - 1) / CELL_SIZE);
    fill_page(&to->page, to->after, size);
    to->page.books = books;
}

static int is_looking(enum of_call call)
{
    return call == OF_READ || call == OF_COEFFICIENT || call == OF_TALLY;
}

static int is_conversion(enum of_call call)
{
    return call == OF_TO_STATES_FIRST || call == OF_TO_CELL_BY_CELL;
}

/* That of the page, which a conversion says by its word. */
static uint64_t read_layout(struct text *text, enum of_call call)
{
    if (is_conversion(call))
        return call == OF_TO_CELL_BY_CELL ? STATES_FIRST : CELL_BY_CELL;
    return read_next_number(text);
}

/* What the call is lent behind the mode. */
static void read_lent(struct text *text, struct page_case *to)
{
    const int has_place = to->call == OF_READ || to->call == OF_COEFFICIENT;
    const uint64_t books = read_number_field(text);
    read_table(text, &to->table);
    to->book = is_looking(to->call) ? read_next_number(text) : 0;
    to->place = has_place ? read_next_number(text) : 0;
    to->page.layout = read_layout(text, to->call);
    read_page(text, to, books);
    to->number = has_place || is_conversion(to->call) ? read_next_number(text) : 0;
    read_word(text, " ");
    if (to->call == OF_TAKE) {
        to->arrival.length = read_bytes(text, to->arrival.bytes, sizeof to->arrival.bytes);
        read_word(text, " ");
    }
}

static void read_page_after(struct text *text, struct page_case *to)
{
    if (read_bytes(text, to->after, sizeof to->after) != to->page.size)
        malformed(text, "the page then is not as long as before");
}

static void read_point(struct text *text, struct page_case *to)
{
    read_word(text, " ");
    read_coordinates(text, to->point, to->number);
}

/* A value is there where a point is. */
static void read_bits(struct text *text, struct page_case *to)
{
    const uint64_t word = to->expected.items[1];
    read_word(text, " ");
    if (read_coefficients(text, &to->bits, 1) != (word == SOUND || word == MENDED))
        malformed(text, "a value where there is none, or none where there is one");
}

/* A mended place has one, and one that is unreadable for reason 6. */
static uint64_t read_distance(struct text *text, uint64_t word, uint64_t reason)
{
    if (word == MENDED || reason == 6)
        return read_next_number(text);
    read_word(text, " -");
    return 0;
}

/* The answer, the reason and the distance, and what comes with them. */
static void read_reading(struct text *text, struct page_case *to)
{
    to->expected.items[1] = read_one_of(text, reading_words, READINGS);
    to->expected.items[2] = read_next_number(text);
    to->expected.items[3] = read_distance(text, to->expected.items[1], to->expected.items[2]);
    (to->call == OF_READ ? read_point : read_bits)(text, to);
}

static void read_counts(struct text *text, struct page_case *to)
{
    to->expected.items[1] = read_number(text);
    for (int i = 1; i < READINGS; i++)
        to->expected.items[1 + i] = read_next_number(text);
}

void read_case(struct text *text, struct page_case *to)
{
    typedef void read_rest(struct text *text, struct page_case *to);
    static read_rest *const answered[CALLS] = {read_page_after, read_reading,    read_reading,
                                               read_counts,     read_page_after, read_page_after};
    to->call = (enum of_call)read_one_of(text, call_words, CALLS);
    to->mode = is_looking(to->call) ? read_number_field(text) : 0;
    read_lent(text, to);
    to->bits = 0;
    if (read_answer(text, &to->expected, refusals[to->call]))
        answered[to->call](text, to);
}
