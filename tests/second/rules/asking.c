/* What read, coefficient and the tally must answer, by rules of the program's own. See docs/RULES.md, "The page",
   "Books", "Refusal numbers" and "Order of checks". */

#include "page.h"

static struct list refused(uint64_t refusal, uint64_t named)
{
    return (struct list){{refusal, named}};
}

/* 16: the mode is neither 0 nor 1. */
static int is_no_mode(uint64_t mode)
{
    return mode != PLAIN_MODE && mode != MENDING_MODE;
}

/* The first checks of the calls that look, which begin alike: "16, 17, 7, 8, 4", the last as far as it is for the
   page. */
struct list check_question(const struct question *question)
{
    const struct judgment judgment = judge(question->table->bytes, question->table->size);
    const uint64_t books = question->page->books;
    if (is_no_mode(question->mode))
        return refused(16, 0);
    if (is_no_number_of_books(books))
        return refused(17, 0);
    if (judgment.faults)
        return refused(7, judgment.row);
    if (question->place >= judgment.places || question->book >= books)
        return refused(8, 0);
    return refused(question->page->size != CELL_SIZE * judgment.places * books ? 4 : 0, 0);
}

/* The cell of a place in the book that is asked for, whether it is at fault, and how it is read if it is not. */
const uint8_t *cell_asked(const struct question *question, uint64_t place)
{
    return cell_at(question->page, place_field(question->book, place));
}

int is_fault_at(const struct question *question, uint64_t place)
{
    return is_at_fault(question->table, place_field(question->book, place), cell_asked(question, place));
}

struct reading reading_at(const struct question *question, uint64_t place)
{
    return read_cell(question->mode, question->table, place_field(question->book, place), cell_asked(question, place));
}

/* The column "what is written" under "Reading a place". */
void write_point(struct reading reading, int32_t *point)
{
    for (int i = 0; i < MOST_LENGTH; i++)
        point[i] = 0;
    if (reading.word == SOUND || reading.word == MENDED)
        point_of(reading.shell, reading.index, point);
}

/* 12, or how the cell of a place is read; its point is written, whatever it is. */
static struct list looked_at(const struct question *question, int32_t *point)
{
    if (is_fault_at(question, question->place))
        return refused(12, 0);
    const struct reading reading = reading_at(question, question->place);
    write_point(reading, point);
    return (struct list){{0, reading.word, reading.reason, reading.distance}};
}

/* "read | 16, 17, 7, 8, 4, 12". On a refusal nothing is said of the point. */
struct list read_place(const struct question *question, int32_t *point)
{
    const struct list list = check_question(question);
    if (list.items[0] != 0)
        return list;
    if (question->number != row_at(question->table, question->place)[AT_LENGTH])
        return refused(4, 0);
    return looked_at(question, point);
}

/* "coordinate x step / 256, as an f32. The value is exact, and a zero is positive zero": its bits, which
   must lead back. */
static uint32_t value_of(int32_t coordinate, uint64_t step)
{
    const uint64_t product = magnitude(coordinate) * step;
    const uint32_t bits = bits_of(product, 8) | (coordinate < 0 ? NEGATIVE : 0);
    const struct rounding back = nearest(bits);
    own_figure("256 times a value", back.whole, product);
    own_figure("way to 256 times a value", back.way, EXACT);
    return bits;
}

/* "coefficient | 16, 17, 7, 8, 4, 13, 12". The bits of the value are 0 where there is none. */
struct list coefficient(const struct question *question, uint32_t *bits)
{
    int32_t point[MOST_LENGTH];
    const struct list list = check_question(question);
    *bits = 0;
    if (list.items[0] != 0)
        return list;
    const uint8_t *row = row_at(question->table, question->place);
    if (question->number >= row[AT_LENGTH])
        return refused(13, 0);
    const struct list answer = looked_at(question, point);
    if (answer.items[0] == 0)
        *bits = value_of(point[question->number], two_bytes(row + AT_STEP));
    return answer;
}

/* "tally | 16, 17, 7, 8, 4, 12"; 12 names "the lowest such place", which is one in the book. Without a place, 8 is for
   the book alone: every good table has place 0. */
struct list tally(const struct question *question)
{
    struct question whole = *question;
    whole.place = 0;
    struct list list = check_question(&whole);
    const uint64_t places = judge(question->table->bytes, question->table->size).places;
    for (uint64_t place = 0; list.items[0] == 0 && place < places; place++) {
        if (is_fault_at(question, place))
            return refused(12, place);
        list.items[1 + reading_at(question, place).word]++;
    }
    return list;
}
