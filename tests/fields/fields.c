/* The fields of a line, one after the other. What is not there as it must be ends the test. */

#include "fields.h"

#include <stdio.h>
#include <stdlib.h>
#include <string.h>

enum { BITS_SIZE = 4 };

void malformed(const struct text *text, const char *why)
{
    printf("the cases, line %lu: malformed: %s\n", text->line, why);
    exit(1);
}

/* Which of the words stands next, or how many there are where none does. */
static uint64_t find_word(const struct text *text, const char *const *words, uint64_t number)
{
    uint64_t found = 0;
    while (found < number && ((size_t)(text->end - text->at) < strlen(words[found]) ||
                              memcmp(text->at, words[found], strlen(words[found])) != 0))
        found++;
    return found;
}

/* The very characters of one of the words, spaces included; which it is. */
uint64_t read_one_of(struct text *text, const char *const *words, uint64_t number)
{
    const uint64_t found = find_word(text, words, number);
    if (found == number)
        malformed(text, "another word is wanted");
    text->at += strlen(words[found]);
    return found;
}

void read_word(struct text *text, const char *word)
{
    read_one_of(text, &word, 1);
}

static int is_next(const struct text *text, char character)
{
    return text->at < text->end && *text->at == character;
}

/* The next digit below the base, or the base where there is none. */
static uint64_t digit(const struct text *text, uint64_t base)
{
    const char digits[] = "0123456789abcdef";
    uint64_t value = 0;
    while (value < base && !is_next(text, digits[value]))
        value++;
    return value;
}

static uint8_t read_byte(struct text *text)
{
    uint64_t byte = 0;
    for (int i = 0; i < 2; i++) {
        const uint64_t value = digit(text, 16);
        if (value == 16)
            malformed(text, "a hexadecimal digit is wanted");
        byte = 16 * byte + value;
        text->at++;
    }
    return (uint8_t)byte;
}

/* Bytes up to the next space or the end of the line, or a minus sign for none; how many there are. */
uint64_t read_bytes(struct text *text, uint8_t *bytes, uint64_t most)
{
    uint64_t size = 0;
    if (is_next(text, '-')) {
        text->at++;
        return 0;
    }
    do {
        if (size == most)
            malformed(text, "too many bytes");
        bytes[size++] = read_byte(text);
    } while (!is_next(text, ' ') && !is_next(text, '\n'));
    return size;
}

void read_table(struct text *text, struct table *to)
{
    to->size = read_bytes(text, to->bytes, sizeof to->bytes);
}

/* The bits of coefficients, high digit first; how many there are. */
uint64_t read_coefficients(struct text *text, uint32_t *bits, uint64_t most)
{
    static uint8_t bytes[BITS_SIZE * MOST_SENT];
    const uint64_t size = read_bytes(text, bytes, BITS_SIZE * most);
    if (size % BITS_SIZE != 0)
        malformed(text, "part of a coefficient");
    for (uint64_t at = 0; at < size; at += BITS_SIZE)
        bits[at / BITS_SIZE] = (uint32_t)(two_bytes(bytes + at) * 65536 + two_bytes(bytes + at + 2));
    return size / BITS_SIZE;
}

uint64_t read_number(struct text *text)
{
    uint64_t number = 0;
    if (digit(text, 10) == 10)
        malformed(text, "a number is wanted");
    for (uint64_t value = digit(text, 10); value < 10; value = digit(text, 10)) {
        if (number > (UINT64_MAX - value) / 10)
            malformed(text, "a number of more than 64 bits");
        number = 10 * number + value;
        text->at++;
    }
    return number;
}

/* And the space behind it. */
uint64_t read_number_field(struct text *text)
{
    const uint64_t number = read_number(text);
    read_word(text, " ");
    return number;
}

/* With a minus sign where it is negative. */
static int32_t read_coordinate(struct text *text)
{
    const int is_minus = is_next(text, '-');
    text->at += is_minus;
    const uint64_t number = read_number(text);
    if (number > (uint64_t)INT32_MAX + (uint64_t)is_minus)
        malformed(text, "a coordinate of more than 32 bits");
    return (int32_t)(is_minus ? -(int64_t)number : (int64_t)number);
}

/* So many, with a space between: a vector that is lent, or all that an output must hold. */
void read_coordinates(struct text *text, int32_t *point, uint64_t length)
{
    if (length > MOST_LENGTH)
        malformed(text, "more coordinates than a point can have");
    for (uint64_t i = 0; i < length; i++) {
        if (i > 0)
            read_word(text, " ");
        point[i] = read_coordinate(text);
    }
}

/* Whether the call is answered, with `ok` and what follows; else its refusal and the values that it names, as the list
   that the call gives. `lengths` has the length of that list for each number, and 0 for what is no refusal of it. */
int read_answer(struct text *text, struct list *refusal, const uint8_t *lengths)
{
    static const char *const words[] = {"refused ", "ok "};
    *refusal = (struct list){{0}};
    if (read_one_of(text, words, ENTRIES(words)) == 1)
        return 1;
    const uint64_t number = read_number(text);
    if (number > MOST_REFUSAL || lengths[number] == 0)
        malformed(text, "no refusal of the call");
    refusal->items[0] = number;
    for (uint64_t i = 1; i < lengths[number]; i++) {
        read_word(text, " ");
        refusal->items[i] = read_number(text);
    }
    return 0;
}
