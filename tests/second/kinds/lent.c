/* What a call is lent among guards, and the words for a difference: the table, bytes, what was expected and what came.
   Nothing here calls what is under test, so that every test can use it. */

#include "../probe.h" /* for REFUSED alone */
#include "lent.h"

#include <stdio.h>
#include <stdlib.h>
#include <string.h>

void set_guards(uint8_t *front, uint8_t *back)
{
    for (int i = 0; i < GUARDS; i++) {
        front[i] = (uint8_t)(0x91 + i);
        back[i] = (uint8_t)(0xe7 - i);
    }
}

struct table_room table_among_guards(const struct table *table)
{
    struct table_room room;
    set_guards(room.front, room.back);
    for (uint64_t i = 0; i < sizeof room.bytes; i++)
        room.bytes[i] = table->bytes[i];
    return room;
}

int same_table(const struct table_room *one, const struct table_room *other)
{
    return memcmp(one, other, sizeof *one) == 0;
}

/* The first byte that differs between two rooms that do differ, counted from the end of the guards that
   they begin with. */
int64_t first_other_byte(const void *one, const void *other)
{
    const uint8_t *byte = one, *other_byte = other;
    int64_t at = -GUARDS;
    for (; *byte == *other_byte; at++) {
        byte++;
        other_byte++;
    }
    return at;
}

/* In hexadecimal, a space before each. */
void print_bytes(const char *what, const uint8_t *bytes, uint64_t size)
{
    printf("%s", what);
    for (uint64_t i = 0; i < size; i++)
        printf(" %02x", bytes[i]);
}

/* In hexadecimal, a space between rows. */
void print_table(const char *call, const struct table *table)
{
    printf("%s, table of %lu bytes ", call, table->size);
    for (uint64_t i = 0; i < table->size && i < sizeof table->bytes; i++)
        printf(i % ROW_SIZE == 0 && i > 0 ? " %02x" : "%02x", table->bytes[i]);
}

static void print_answer(const char *what, uint64_t answer)
{
    if (answer > REFUSED)
        printf("%s refusal %lu", what, answer - REFUSED);
    else
        printf("%s %lu", what, answer);
}

void differ(uint64_t expected, uint64_t got)
{
    print_answer(": expected", expected);
    print_answer(", got", got);
    printf("\n");
    exit(1);
}

void end(const char *last_words)
{
    printf(": %s\n", last_words);
    exit(1);
}

/* What probe_check, probe_quantize and aldrynja_take return, as an answer of the first two calls of probe.h. */
uint64_t as_answer(uint32_t number)
{
    return number ? REFUSED + number : 0;
}
