/* The listing program as plain C, for speed: it reads and writes in blocks and makes its own decimals; docs/RULES.md,
   "Listing program". The page has one book, so the field of a place is the place, and it is kept cell by cell. */

#include "../plain/plain.h"
#include "filling.h"

#include <fcntl.h>
#include <unistd.h>

enum { BLOCK = 65536, MOST_LINE = 160, ONE_BOOK = 1 };

/* What is to be written, and how much of it there is. */
static struct {
    char bytes[BLOCK];
    size_t size;
} text;

static uint8_t page[MOST_PLACES * CELL_SIZE];

static void flush(void)
{
    for (size_t done = 0; done < text.size;) {
        const ssize_t more = write(STDOUT_FILENO, text.bytes + done, text.size - done);
        if (more <= 0)
            _exit(1);
        done += (size_t)more;
    }
    text.size = 0;
}

/* Where the next line begins, with room for the longest one. */
static char *next_line(void)
{
    if (text.size + MOST_LINE > sizeof text.bytes)
        flush();
    return text.bytes + text.size;
}

static void end_line(char *to)
{
    *to++ = '\n';
    text.size = (size_t)(to - text.bytes);
}

static char *put_word(char *to, const char *word, size_t size)
{
    __builtin_memcpy(to, word, size);
    return to + size;
}

static char *put_number(char *to, uint64_t number)
{
    char digits[20];
    size_t at = sizeof digits;
    do {
        digits[--at] = (char)('0' + number % 10);
        number /= 10;
    } while (number > 0);
    return put_word(to, digits + at, sizeof digits - at);
}

/* A place, or a reason: at most four digits. */
static char *put_small(char *to, uint32_t number)
{
    if (number >= 1000)
        *to++ = (char)('0' + number / 1000);
    if (number >= 100)
        *to++ = (char)('0' + number / 100 % 10);
    if (number >= 10)
        *to++ = (char)('0' + number / 10 % 10);
    *to++ = (char)('0' + number % 10);
    return to;
}

/* A coordinate has at most two digits. */
static char *put_coordinate(char *to, int32_t coordinate)
{
    *to++ = ' ';
    if (coordinate < 0) {
        *to++ = '-';
        coordinate = -coordinate;
    }
    if (coordinate >= 10)
        *to++ = (char)('0' + coordinate / 10);
    *to++ = (char)('0' + coordinate % 10);
    return to;
}

/* All the bytes of a word are copied, and those behind its end are written over. */
static char *put_answer(char *to, struct plain_reading reading)
{
    static const struct {
        char word[16];
        size_t size;
    } answers[READINGS] = {{" sound ", 7}, {" mended ", 8}, {" missing ", 9}, {" contested ", 11}, {" unreadable ", 12}};
    __builtin_memcpy(to, answers[reading.answer].word, sizeof answers->word);
    to += answers[reading.answer].size;
    return reading.answer == MENDED ? put_number(to, reading.distance) : put_small(to, reading.reason);
}

static void put_line(uint64_t place, uint64_t length, struct plain_reading reading, const int32_t *point)
{
    char *to = put_small(next_line(), (uint32_t)place);
    to = put_answer(to, reading);
    for (uint64_t i = 0; i < length; i++)
        to = put_coordinate(to, point[i]);
    end_line(to);
}

/* The lines of all places, row by row. A page that only takes have written passes its checks. */
static void put_places(const uint8_t *table, uint64_t places, uint64_t *tally)
{
    int32_t point[MOST_LENGTH];
    uint64_t number = 0, end = pair_at(table + AT_PLACES);
    for (uint64_t place = 0; place < places; place++) {
        for (; place >= end; end += pair_at(table + number * ROW_SIZE + AT_PLACES))
            number++;
        const uint8_t *row = table + number * ROW_SIZE;
        const uint8_t *cell = page + place * CELL_SIZE;
        const struct plain_reading reading =
            plain_look(MENDING_MODE, row, number, cell[AT_STATE], cell + AT_RECORD, place, point);
        put_line(place, row[AT_LENGTH], reading, point);
        tally[reading.answer]++;
    }
}

static void put_tally(const uint64_t *tally, uint64_t refused)
{
    char *to = put_word(next_line(), "tally", 5);
    for (int i = 0; i < READINGS; i++) {
        *to++ = ' ';
        to = put_number(to, tally[i]);
    }
    *to++ = ' ';
    end_line(put_number(to, refused));
}

/* How many takes are refused. */
static uint64_t take_all(const uint8_t *table, uint64_t table_length)
{
    static uint8_t block[BLOCK];
    const struct row_ends rows = plain_row_ends(table, table_length);
    const int file = open("records.bin", O_RDONLY);
    uint64_t refused = 0;
    for (size_t size = sizeof block; size == sizeof block;) {
        size = fill(file, block, sizeof block);
        for (size_t at = 0; at + RECORD_SIZE <= size; at += RECORD_SIZE)
            refused += (uint64_t)plain_claim(&rows, ONE_BOOK, CELL_BY_CELL, page, block + at);
        refused += size % RECORD_SIZE != 0;
    }
    close(file);
    return refused;
}

int main(void)
{
    uint8_t table[ROW_SIZE * MOST_ROWS + 1];
    uint64_t tally[READINGS] = {0};
    const int file = open("pairing.bin", O_RDONLY);
    const size_t size = fill(file, table, sizeof table);
    close(file);
    plain_begin();
    const uint64_t places = plain_survey(table, size, 0).places;
    if (places == 0) {
        end_line(put_word(next_line(), "refused 7", 9));
    } else {
        const uint64_t refused = take_all(table, size);
        put_places(table, places, tally);
        put_tally(tally, refused);
    }
    flush();
    return 0;
}
