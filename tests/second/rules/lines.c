/* What the call lines must answer, and the text that it must write, by rules of the program's own. See docs/RULES.md,
   "Listing program", "Books", "Refusal numbers" and "Order of checks". */

#include "page.h"

static void put_character(struct written *to, char character)
{
    to->bytes[to->size++] = (uint8_t)character;
}

static void put_word(struct written *to, const char *word)
{
    for (; *word; word++)
        put_character(to, *word);
}

/* Decimal, "without zeros in front". */
static void put_number(struct written *to, uint64_t number)
{
    uint64_t power = 1;
    while (number / power >= 10)
        power *= 10;
    for (; power > 0; power /= 10)
        put_character(to, (char)('0' + number / power % 10));
}

/* "place, answer, reason or distance (0 where there is neither), then the l coordinates of the point or l zeros". An
   unreadable place has its reason there, and not the distance that comes with 6. */
static void put_line(struct written *to, uint64_t place, struct reading reading, uint64_t length)
{
    int32_t point[MOST_LENGTH];
    write_point(reading, point);
    put_number(to, place);
    put_word(to, " ");
    put_word(to, reading_words[reading.word]);
    put_word(to, " ");
    put_number(to, reading.word == MENDED ? reading.distance : reading.reason);
    for (uint64_t i = 0; i < length; i++) {
        put_word(to, point[i] < 0 ? " -" : " ");
        put_number(to, magnitude(point[i]));
    }
    put_word(to, "\n");
}

/* "as many as the buffer has room for with 256 bytes a line"; the place must be in the table. */
uint64_t lines_asked(const struct question *question)
{
    const uint64_t left = judge(question->table->bytes, question->table->size).places - question->place;
    const uint64_t room = question->number / LINE_SPACE;
    return room < left ? room : left;
}

/* "lines | 16, 17, 7, 8, 4, 12"; 12 names the lowest place at fault, one in the book, as the lines do. On a refusal
   nothing is said of the text. Behind the 0 there are the place to go on from, and how many bytes are written. */
struct list lines_from(const struct question *question, struct written *written)
{
    const struct list list = check_question(question);
    if (list.items[0] != 0)
        return list;
    if (question->number < LINE_SPACE)
        return (struct list){{4}};
    const uint64_t end = question->place + lines_asked(question);
    written->size = 0;
    for (uint64_t place = question->place; place < end; place++) {
        if (is_fault_at(question, place))
            return (struct list){{12, place}};
        put_line(written, place, reading_at(question, place), row_at(question->table, place)[AT_LENGTH]);
    }
    return (struct list){{0, end, written->size}};
}
