/* The case `sent_full`: a page of every length, with coefficients by chance. Its records come from the rules of the
   second program. The test ends with an error of its own if the page lacks something that tells wrong senders. */

#include "../../second/draws/send_draws.h"
#include "../../second/kinds/kinds.h"
#include "../listing.h"

#include <stdio.h>

enum { SEED = 2026 };

static const enum kind wanted[] = {
    TURNED_HALF_DOWN,   TURNED_HALF_UP, TURNED_BELOW_HALF, TURNED_ABOVE_HALF, TIE_OF_RADII, ONE_BELOW_TIE,       ONE_ABOVE_TIE,
    SUM_PAST_2_24,      MORE_UNITS,     TIE_OF_EQUAL,      TIE_OF_DIFFERENT,  SINGLY_OFF,   NEGATIVE_ZERO_AMONG, SUBNORMAL,
    CODEWORD_PAST_2_24, STEP_1,         STEP_65535,        PRODUCT_TOLD,      MAGNITUDE_TOLD, PRODUCT_PRODUCT_TOLD,
};

/* The first 16 rows of the full table, which have every length and 8 radii, with few places. */
static struct table table_of_few(void)
{
    struct table table = full_table();
    table.size = ROW_SIZE * MOST_LENGTH;
    for (uint64_t number = 0; number < MOST_LENGTH; number++)
        set_two_bytes(table.bytes + ROW_SIZE * number + AT_PLACES, 1 + 3 * number % 7);
    return table;
}

static void require_wanted(const struct sending *sending)
{
    uint64_t numbers[MOST_RADII] = {0};
    for (uint64_t place = 0; place < sending->buffer_length / RECORD_SIZE; place++) {
        const struct vector vector = vector_at(sending, place);
        const struct quantizing made = quantize(&vector);
        note_kinds(&vector, &made);
        numbers[made.number]++;
    }
    for (uint64_t i = 0; i < ENTRIES(wanted); i++)
        require_kind(wanted[i], 1);
    for (uint64_t number = 0; number < MOST_RADII; number++)
        require_number(numbers[number], 1, "sent_full, places with radius number", number);
}

void make_sent_full(const char *folder)
{
    static struct sending sending;
    static struct sent sent;
    static uint8_t run[F32_SIZE * MOST_SENT];
    chance_from(SEED);
    const struct table table = table_of_few();
    send_by_chance(&sending, &table);
    send_page(&sending, &sent);
    own_figure("refusal of the page that is sent", sent.list.items[0], 0);
    require_wanted(&sending);
    put_run(run, sending.run, sending.run_length);
    const struct sent_case made = {
        .listed = {"sent_full", {table.bytes, table.size}, {sent.records, sending.buffer_length}, NULL},
        .coefficients = {run, F32_SIZE * sending.run_length},
    };
    write_sent_case(folder, &made);
    printf("sent_full: %lu places, %lu coefficients\n", sending.buffer_length / RECORD_SIZE, sending.run_length);
}
