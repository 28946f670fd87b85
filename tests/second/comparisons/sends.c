/* Sending whole pages: the case of the rules, pages by chance of few places and of 4,096, of one book or one of
   several, each fault alone and together with others, bad tables of every kind, and every length near the right one.
   See docs/RULES.md, "Sending a page", "Books", "Refusal numbers" and "Order of checks". */

#include "../draws/send_draws.h"
#include "../kinds/send_kinds.h"
#include "comparisons.h"

#include <stdio.h>
#include <string.h>

enum { SEED = 65536, SMALL_PAGES = 5000, LARGE_PAGES = 100, SET_PAGES = 250, BAD_TABLES = 150 };
enum { LENGTH_PAGES = 100, MOST_SIZE = 600 };

static struct sending right, wrong;

/* Two places of the whole case and one of a row of length 2: (1.5, 0, -0.75), (0, 0, -1.5) and (1, -1), with rows of
   that selector. They hold the program's own rules to docs/RULES.md too. */
static void compare_case(uint8_t selector)
{
    static struct sent sent;
    static const uint8_t row[ROW_SIZE] = {2, 2, 0, 4, [AT_STEP] = 0, 77, [AT_PLACES] = 0, 1};
    static const uint32_t run[] = {0x3fc00000, 0, 0xbf400000, 0, 0, 0xbfc00000, BITS_OF_1, MINUS(BITS_OF_1)};
    static const uint8_t records[SELECTORS][3 * RECORD_SIZE] = {
        [PRODUCT] = {0, 0, 0, 1, 0, 0, 0, 5, 0, 1, 0, 1, 0, 0, 0, 13, 0, 2, 1, 1, 0, 0, 0, 5},
        [MAGNITUDE] = {0, 0, 0, 1, 0, 0, 0, 9, 0, 1, 0, 1, 0, 0, 0, 1, 0, 2, 1, 1, 0, 0, 0, 7},
        [PRODUCT_PRODUCT] = {0, 0, 0, 1, 0, 0, 0, 5, 0, 1, 0, 1, 0, 0, 0, 13, 0, 2, 1, 1, 0, 0, 0, 5},
    };
    right.table = pairing_bin;
    for (int i = 0; i < ROW_SIZE; i++)
        right.table.bytes[right.table.size++] = row[i];
    for (uint64_t at = AT_SELECTOR; at < right.table.size; at += ROW_SIZE)
        right.table.bytes[at] = selector;
    for (uint64_t i = 0; i < ENTRIES(run); i++)
        right.run[i] = run[i];
    make_right(&right);
    own_figure("length of the run of the case", right.run_length, ENTRIES(run));
    own_figure("length of the buffer of the case", right.buffer_length, sizeof records[selector]);
    send_page(&right, &sent);
    own_figure("records of the case that differ", memcmp(sent.records, records[selector], sizeof records[selector]) != 0, 0);
    compare_send_received(&right);
}

/* Pages that are sent, and then with unusable coefficients: at one place, often the first or the last, and at more.
   */
static void compare_page_of(const struct table *table, int faults)
{
    send_by_chance(&right, table);
    give_books(&right.books, &right.book);
    compare_send_received(&right);
    for (int i = 0; i < faults; i++) {
        const uint64_t last = right.buffer_length / RECORD_SIZE - 1;
        spoil_coefficients(&right, i == 0 ? last : i + 1 == faults ? 0 : some_place(table));
        own_figure("refusal of a page with a fault", compare_send(&right), 11);
    }
}

/* Of the small pages one in ten has more than 255 places in its first row. */
static void compare_pages_by_chance(void)
{
    for (int i = 0; i < SMALL_PAGES; i++) {
        struct table table = small_table_by_chance();
        if (i % 10 == 0)
            set_two_bytes(table.bytes + AT_PLACES, 256 + chance_below(8));
        compare_page_of(&table, i % 4);
    }
    for (int i = 0; i < LARGE_PAGES; i++) {
        const struct table table = large_table_by_chance();
        compare_page_of(&table, 1 + i % 2);
    }
}

/* Every set of faults: "send | 17, 7, 8, 4, 11". */
static void compare_sets(void)
{
    for (int i = 0; i < SET_PAGES; i++) {
        const struct table table = small_table_by_chance();
        send_by_chance(&right, &table);
        give_books(&right.books, &right.book);
        for (int set = 0; set < SEND_SETS; set++) {
            wrong = right;
            make_wrong(&wrong, set);
            const uint64_t rest = set & (WRONG_RUN | WRONG_BUFFER) ? 4 : set & WRONG_COEFFICIENT ? 11 : 0;
            const uint64_t of_table = set & WRONG_TABLE ? 7 : set & WRONG_BOOK ? 8 : rest;
            own_figure("refusal of a page with faults", compare_send(&wrong), set & WRONG_BOOKS ? 17 : of_table);
        }
    }
}

/* Bad tables of every kind, with the lengths and the coefficients of a page that is right, or with wrong ones. */
static void compare_bad_tables(void)
{
    const struct table table = small_table_by_chance();
    send_by_chance(&right, &table);
    for (int i = 0; i < BAD_TABLES * FAULTS; i++) {
        wrong = right;
        if (i % 2)
            make_wrong(&wrong, WRONG_BOOK | WRONG_RUN | WRONG_BUFFER | WRONG_COEFFICIENT);
        wrong.table = bad_table_by_chance((enum fault)(i / BAD_TABLES));
        own_figure("refusal of a page with a bad table", compare_send(&wrong), 7);
    }
}

/* Every size of a table of good rows, with what is right for the rows that are whole, and sizes that are good only
   where a number is cut. */
static void compare_sizes(void)
{
    const uint64_t cut[] = {65536 + 16, 65536 + 512, TWO_TO_32 + 16, TWO_TO_32 + 512};
    const struct table table = rows_by_chance(MOST_ROWS, 3);
    send_by_chance(&right, &table);
    for (uint64_t i = 0; i <= MOST_SIZE + ENTRIES(cut); i++) {
        right.table.size = i < table.size ? i / ROW_SIZE * ROW_SIZE : table.size;
        if (i >= ROW_SIZE)
            make_right(&right);
        right.table.size = i <= MOST_SIZE ? i : cut[i - MOST_SIZE - 1];
        compare_send(&right);
    }
}

/* Every length of the run and of the buffer near the right one, and others by chance. */
static void compare_lengths(void)
{
    for (int i = 0; i < LENGTH_PAGES; i++) {
        const struct table table = small_table_by_chance();
        send_by_chance(&right, &table);
        for (uint64_t off = 1; off <= MOST_LENGTH; off++) {
            wrong = right;
            wrong.run_length = i % 2 ? right.run_length + off : right.run_length - (off < right.run_length ? off : right.run_length);
            own_figure("refusal of a page with another run", compare_send(&wrong), 4);
            wrong.run_length = right.run_length;
            wrong.buffer_length = i % 2 ? right.buffer_length + off : right.buffer_length - (off < RECORD_SIZE ? off : RECORD_SIZE);
            own_figure("refusal of a page with another buffer", compare_send(&wrong), 4);
            make_right(&wrong);
            make_wrong(&wrong, off % 2 ? WRONG_RUN : WRONG_BUFFER);
            own_figure("refusal of a page with another length", compare_send(&wrong), 4);
        }
    }
}

void compare_sends(void)
{
    chance_from(SEED);
    for (uint8_t selector = 0; selector < SELECTORS; selector++)
        compare_case(selector);
    compare_pages_by_chance();
    compare_sets();
    compare_bad_tables();
    compare_sizes();
    compare_lengths();
    require_send_kinds();
    printf("sends: %d pages of few places, %d of 4,096, %d sets of faults together, each %d times; %lu pages sent\n",
           SMALL_PAGES, LARGE_PAGES, SEND_SETS, SET_PAGES, compared.sends);
}
