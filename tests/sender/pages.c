/* Makes pages by chance in a folder, the same bytes in every run, each as a case of a sender: pages that are sent, of
   few places and of 4,096; unusable coefficients; runs and files of wrong sizes; and bad tables of every kind. It
   ends with an error of its own if a kind of pages is not among them. */

#include "../second/draws/send_draws.h"
#include "../second/kinds/send_kinds.h"
#include "sender.h"

#include <stdio.h>

enum { SEED = 4096, SMALL_PAGES = 120, LARGE_PAGES = 4, WRONG_RUNS = 60, CUT_FILES = 12, BAD_TABLES = 2 };
enum { MOST_RUN_LENGTH = 2 * MOST_SENT + SPARE, MOST_NAME = 32 };

static const char *to; /* the folder */
static struct sending right, wrong;
static uint64_t pages, refusals[MOST_REFUSAL + 1], cut[F32_SIZE]; /* the last by the bytes of a coefficient at the end */

/* Zeros follow the run where the file is longer. */
static void write_named(const char *name, struct sending *sending, uint64_t size)
{
    static struct sent sent;
    static uint8_t file[F32_SIZE * MOST_RUN_LENGTH];
    answer(sending, size, &sent);
    put_run(file, sending->run, ENTRIES(sending->run));
    const struct sent_case made = {
        .listed = {name, {sending->table.bytes, sending->table.size}, records_of(sending, &sent), NULL},
        .coefficients = {file, size},
        .refused = refusal_of(&sent),
    };
    write_sent_case(to, &made);
    pages++;
    refusals[sent.list.items[0]]++;
    cut[size % F32_SIZE]++;
    if (size % F32_SIZE == 0)
        note_send(sending, &sent);
}

static void write_page(struct sending *sending, uint64_t size)
{
    char name[MOST_NAME];
    snprintf(name, sizeof name, "page_%03lu", pages);
    write_named(name, sending, size);
}

/* A page that is sent, and the same with unusable coefficients at one place or at more. */
static void make_page_of(const struct table *table, uint64_t spoilt)
{
    send_by_chance(&right, table);
    const uint64_t size = F32_SIZE * right.run_length, last = right.buffer_length / RECORD_SIZE - 1;
    write_page(&right, size);
    for (uint64_t i = 0; i < spoilt; i++)
        spoil_coefficients(&right, i == 0 && chance_below(4) == 0 ? last : some_place(table));
    if (spoilt > 0)
        write_page(&right, size);
}

static void make_pages(void)
{
    for (uint64_t i = 0; i < SMALL_PAGES; i++) {
        const struct table table = small_table_by_chance();
        make_page_of(&table, i % 4);
    }
    for (uint64_t i = 0; i < LARGE_PAGES; i++) {
        const struct table table = large_table_by_chance();
        make_page_of(&table, i % 2);
    }
}

/* Lengths that a file can have. Every third page has an unusable coefficient too. */
static void make_wrong_runs(void)
{
    for (uint64_t i = 0; i < WRONG_RUNS; i++) {
        const struct table table = small_table_by_chance();
        send_by_chance(&right, &table);
        uint64_t length = wrong_run_length(&right);
        while (length > MOST_RUN_LENGTH)
            length = wrong_run_length(&right);
        if (i % 3 == 0)
            spoil_coefficients(&right, 0);
        write_page(&right, F32_SIZE * length);
    }
}

/* Files that end within a coefficient: the last one that is wanted, or one more. */
static void make_cut_files(void)
{
    for (uint64_t i = 0; i < CUT_FILES; i++) {
        const struct table table = small_table_by_chance();
        send_by_chance(&right, &table);
        write_page(&right, F32_SIZE * (right.run_length - i % 2) + 1 + chance_below(F32_SIZE - 1));
    }
}

/* Bad tables of every kind, with a run of a page that is right, or with a wrong one. */
static void make_bad_tables(void)
{
    for (uint64_t i = 0; i < BAD_TABLES * FAULTS; i++) {
        const struct table table = small_table_by_chance();
        send_by_chance(&wrong, &table);
        uint64_t size = F32_SIZE * wrong.run_length;
        if (i % 2) {
            spoil_coefficients(&wrong, 0);
            size -= 1 + chance_below(size);
        }
        wrong.table = bad_table_by_chance((enum fault)(i / BAD_TABLES));
        write_page(&wrong, size);
    }
}

/* As many places as there can be, each as long as can be. */
static void make_longest(void)
{
    struct table table = rows_by_chance(1, MOST_PLACES);
    while (table.bytes[AT_LENGTH] != MOST_LENGTH)
        table = rows_by_chance(1, MOST_PLACES);
    aim_total(&table, 0, MOST_PLACES);
    send_by_chance(&right, &table);
    own_figure("coefficients of the longest page", right.run_length, MOST_SENT);
    write_named("longest", &right, F32_SIZE * right.run_length);
}

int main(int words, char **word)
{
    if (words != 2) {
        printf("pages FOLDER\n");
        return 1;
    }
    to = word[1];
    count_points();
    count_for_ranking();
    chance_from(SEED);
    make_pages();
    make_wrong_runs();
    make_cut_files();
    make_bad_tables();
    make_longest();
    require_file_kinds(1);
    for (uint64_t bytes = 1; bytes < F32_SIZE; bytes++)
        require_number(cut[bytes], 1, "files that end with a number of bytes of a coefficient of", bytes);
    printf("drawn: %lu pages; %lu are sent, %lu refused with 7, ", pages, refusals[0], refusals[7]);
    printf("%lu with 4, %lu with 11\n", refusals[4], refusals[11]);
    return 0;
}
