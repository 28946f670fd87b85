/* One comparison of send with what is expected of it: each item of its list, and one past the end. What a call is
   lent lies among guards, and every byte of it is compared afterwards: only the buffer may change, and only where
   there is no refusal. */

#include "../draws/draws.h"
#include "lent.h"
#include "lent_send.h"

#include <stdio.h>
#include <stdlib.h>
#include <string.h>

enum {
    LENT_RUN = GUARDS + MOST_SENT + SPARE + GUARDS,
    LENT_BUFFER = GUARDS + MOST_BUFFER + SPARE + GUARDS,
    MOST_PRINTED = 64 /* the coefficients of a run that are printed */
};

/* All that a call is lent; what is beyond the lengths guards it too. The calls take the bits for floats; here nothing
   is done with a float. */
struct send_room {
    struct table_room table;
    union {
        uint32_t bits[LENT_RUN];
        float floats[LENT_RUN];
    } run;
    uint8_t buffer[LENT_BUFFER];
};

/* A call under way: its name, what is lent, and what of it the call must leave. */
static const char *named;
static struct send_room room, wanted;

/* How many elements of a room are in use, with the guards: all that are lent, as far as they are there. */
static uint64_t used(uint64_t length, uint64_t room_length)
{
    return length < room_length - 2 * GUARDS ? length + 2 * GUARDS : room_length;
}

/* Guards among the coefficients are usable numbers and NaN in turn. */
static void lend_run(const struct sending *sending)
{
    const uint64_t in_use = used(sending->run_length, LENT_RUN);
    for (uint32_t i = 0; i < in_use; i++)
        wanted.run.bits[i] = i % 2 ? 0x42280000 + i : 0x7fc00000 + i;
    for (uint64_t i = 0; i < in_use - 2 * GUARDS; i++)
        wanted.run.bits[GUARDS + i] = sending->run[i];
    __builtin_memcpy(room.run.bits, wanted.run.bits, in_use * sizeof *room.run.bits);
}

/* No byte of the buffer is what it must become. */
static void lend_buffer(const struct sending *sending, const struct sent *expected)
{
    const uint64_t in_use = used(sending->buffer_length, LENT_BUFFER);
    for (uint64_t i = 0; i < in_use; i++)
        wanted.buffer[i] = (uint8_t)(1 + i % 255);
    __builtin_memcpy(room.buffer, wanted.buffer, in_use);
    for (uint64_t i = 0; expected->list.items[0] == 0 && i < sending->buffer_length; i++) {
        room.buffer[GUARDS + i] ^= expected->records[i];
        wanted.buffer[GUARDS + i] = expected->records[i];
    }
}

static void lend(const struct sending *sending, const struct sent *expected)
{
    wanted.table = table_among_guards(&sending->table);
    room.table = wanted.table;
    lend_run(sending);
    lend_buffer(sending, expected);
}

/* The first coefficients as bits, in hexadecimal. */
static void print_sending(const struct sending *sending)
{
    print_table(named, &sending->table);
    printf(", book %lu of %lu, %lu coefficients", sending->book, sending->books, sending->run_length);
    for (uint64_t i = 0; i < sending->run_length && i < MOST_PRINTED; i++)
        printf(" %08x", sending->run[i]);
    printf(", buffer of %lu", sending->buffer_length);
}

/* An item of the list that is another one. */
static _Noreturn void wrong_answer(const struct sending *sending, uint64_t which, uint64_t expected, uint64_t got)
{
    print_sending(sending);
    printf(", item %lu of its list: expected %lu, got %lu\n", which, expected, got);
    exit(1);
}

/* What was lent is not as it must be. */
static _Noreturn void wrong_room(const struct sending *sending, int is_run_same, int is_refused)
{
    print_sending(sending);
    if (!same_table(&room.table, &wanted.table))
        end("something is written at the table");
    if (!is_run_same)
        end("something is written at the run");
    const int64_t at = first_other_byte(wanted.buffer, room.buffer);
    if (is_refused || at < 0 || (uint64_t)at >= sending->buffer_length) {
        printf(", byte %ld", at);
        end(is_refused ? "the buffer is changed on a refusal" : "something is written beside the buffer");
    }
    const uint64_t record = GUARDS + (uint64_t)at / RECORD_SIZE * RECORD_SIZE;
    printf(", place %lu", (uint64_t)at / RECORD_SIZE);
    print_bytes(": expected record", wanted.buffer + record, RECORD_SIZE);
    print_bytes(", got", room.buffer + record, RECORD_SIZE);
    printf("\n");
    exit(1);
}

/* What is in use, and now and then all of the room: the rest is as it was. */
static void compare_room(const struct sending *sending, int is_refused)
{
    const int is_all = chance_below(64) == 0;
    const uint64_t run = is_all ? LENT_RUN : used(sending->run_length, LENT_RUN);
    const uint64_t buffer = is_all ? LENT_BUFFER : used(sending->buffer_length, LENT_BUFFER);
    const int is_run_same = memcmp(&room.run, &wanted.run, run * sizeof *room.run.bits) == 0;
    const int is_buffer_same = memcmp(room.buffer, wanted.buffer, buffer) == 0;
    if (!same_table(&room.table, &wanted.table) || !is_run_same || !is_buffer_same)
        wrong_room(sending, is_run_same, is_refused);
}

/* A call for each item. What has no elements is lent as a null pointer where `by_null` says so. */
static void call_send(send_call *call, const struct sending *sending, const struct sent *expected, int by_null)
{
    const uint64_t table_size = sending->table.size, run_length = sending->run_length, buffer_length = sending->buffer_length;
    for (uint64_t which = 0; which <= SENT_ITEMS; which++) {
        lend(sending, expected);
        const uint64_t got = call(by_null && table_size == 0 ? 0 : room.table.bytes, table_size, sending->books,
                                  sending->book,
                                  by_null && run_length == 0 ? 0 : room.run.floats + GUARDS, run_length,
                                  by_null && buffer_length == 0 ? 0 : room.buffer + GUARDS, buffer_length, which);
        if (got != expected->list.items[which])
            wrong_answer(sending, which, expected->list.items[which], got);
        compare_room(sending, expected->list.items[0] != 0);
    }
}

void expect_send(const char *name, send_call *call, const struct sending *sending, const struct sent *expected)
{
    named = name;
    call_send(call, sending, expected, 0);
    if (sending->table.size == 0 || sending->run_length == 0 || sending->buffer_length == 0)
        call_send(call, sending, expected, 1);
}
