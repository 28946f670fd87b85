/* One comparison of quantize with what is expected of it, by both of its calls. What they are lent lies among guards,
   and every byte of it is compared afterwards: only the record may change, and only where there is no refusal. */

#include "lent_calls.h"

#include <stdio.h>
#include <stdlib.h>
#include <string.h>

enum { LENT_TABLE = ROW_SIZE * MOST_LENT_ROWS, MOST_LENT_RECORD = 16 /* the room for the record that a call is lent */ };

/* All that a call is lent; what of the coefficients and of the record is beyond their lengths guards them too. The
   calls take the bits for floats; here nothing is done with a float. */
struct room {
    uint8_t table[GUARDS + LENT_TABLE + GUARDS];
    union {
        uint32_t bits[GUARDS + MOST_LENT + GUARDS];
        float floats[GUARDS + MOST_LENT + GUARDS];
    } coefficients;
    uint8_t record[GUARDS + MOST_LENT_RECORD + GUARDS];
};

/* Guards among the coefficients are usable numbers and NaN in turn. No byte of the room for the record is what
   it must become. */
static struct room lend(const struct vector *vector, const struct answer *expected)
{
    struct room room;
    for (uint64_t i = 0; i < sizeof room.table; i++)
        room.table[i] = (uint8_t)(0x91 + i);
    for (uint64_t i = 0; i < LENT_TABLE; i++)
        room.table[GUARDS + i] = vector->table.bytes[i];
    for (uint32_t i = 0; i < ENTRIES(room.coefficients.bits); i++)
        room.coefficients.bits[i] = i % 2 ? 0x42280000 + i : 0x7fc00000 + i;
    for (uint64_t i = 0; i < vector->length && i < MOST_LENT; i++)
        room.coefficients.bits[GUARDS + i] = vector->coefficients[i];
    for (uint64_t i = 0; i < sizeof room.record; i++)
        room.record[i] = (uint8_t)(0xe7 - i);
    for (uint64_t i = 0; i < RECORD_SIZE; i++)
        room.record[GUARDS + i] ^= expected->record[i];
    return room;
}

static void take_over_record(struct room *room, const struct answer *expected)
{
    for (uint64_t i = 0; i < RECORD_SIZE && expected->refusal == 0; i++)
        room->record[GUARDS + i] = expected->record[i];
}

/* The coefficients as bits, in hexadecimal. */
static void print_vector(const char *name, const struct vector *vector)
{
    print_table(name, &vector->table);
    printf(", book %lu of %lu, place %lu, ", vector->book, vector->books, vector->place);
    printf("%lu coefficients", vector->length);
    for (uint64_t i = 0; i < vector->length && i < MOST_LENT; i++)
        printf(" %08x", vector->coefficients[i]);
    printf(", record of %lu", vector->record_length);
}

/* What was lent, after a call, and what it must be. */
static void compare_rooms(const char *name, const struct vector *vector, const struct room *room, const struct room *wanted)
{
    if (memcmp(room, wanted, sizeof *room) == 0)
        return;
    print_vector(name, vector);
    if (memcmp(room->table, wanted->table, sizeof room->table) != 0)
        end("something is written at the table");
    if (memcmp(&room->coefficients, &wanted->coefficients, sizeof room->coefficients) != 0)
        end("something is written at the coefficients");
    if (memcmp(room->record + GUARDS, wanted->record + GUARDS, RECORD_SIZE) == 0)
        end("something is written beside the record");
    print_bytes(": expected record", wanted->record + GUARDS, RECORD_SIZE);
    print_bytes(", got", room->record + GUARDS, RECORD_SIZE);
    printf("\n");
    exit(1);
}

/* Both calls, each with a room of its own. What has no elements is lent as a null pointer where `by_null` says so. */
static void call_both(const char *name, struct quantize_calls calls, const struct vector *vector, const struct answer *expected,
                      int by_null)
{
    const struct room before = lend(vector, expected);
    struct room wanted = before, room = before, other = before;
    take_over_record(&wanted, expected);
    const int no_table = by_null && vector->table.size == 0, no_coefficients = by_null && vector->length == 0;
    const int no_record = by_null && vector->record_length == 0;
    const uint32_t got = calls.refusal(no_table ? 0 : room.table + GUARDS, vector->table.size, vector->books,
                                       vector->book, vector->place,
                                       no_coefficients ? 0 : room.coefficients.floats + GUARDS, vector->length,
                                       no_record ? 0 : room.record + GUARDS, vector->record_length);
    if (got != expected->refusal) {
        print_vector(name, vector);
        differ(as_answer(expected->refusal), as_answer(got));
    }
    compare_rooms(name, vector, &room, &wanted);
    const uint64_t got_value = calls.value(no_table ? 0 : other.table + GUARDS, vector->table.size, vector->books,
                                           vector->book, vector->place,
                                           no_coefficients ? 0 : other.coefficients.floats + GUARDS, vector->length,
                                           no_record ? 0 : other.record + GUARDS, vector->record_length);
    if (got_value != expected->value) {
        print_vector(name, vector);
        printf(", value: expected %lu, got %lu\n", expected->value, got_value);
        exit(1);
    }
    compare_rooms(name, vector, &other, &wanted);
}

void expect_quantizing(const char *name, struct quantize_calls calls, const struct vector *vector, const struct answer *expected)
{
    const int is_any_empty = vector->table.size == 0 || vector->length == 0 || vector->record_length == 0;
    for (int by_null = 0; by_null <= is_any_empty; by_null++)
        call_both(name, calls, vector, expected, by_null);
}
