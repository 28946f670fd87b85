/* A run of coefficients into the records of a page, by rules of the program's own: place by place, each as the
   program's own quantizer has it. See docs/RULES.md, "Sending a page", "Books", "Refusal numbers" and "Order of
   checks". */

#include "sending.h"

/* "places in order, each place's coordinates together": so many stand before those of a place of a good table, or in
   all for the place behind the last one. */
uint64_t coordinates_before(const struct table *table, uint64_t place)
{
    uint64_t before = 0, first = 0;
    for (const uint8_t *row = table->bytes; row < table->bytes + table->size && first < place; row += ROW_SIZE) {
        const uint64_t places = two_bytes(row + AT_PLACES), counted = place - first < places ? place - first : places;
        before += counted * row[AT_LENGTH];
        first += places;
    }
    return before;
}

/* What quantize is lent for a place of a good table, with a run that is long enough. */
struct vector vector_at(const struct sending *sending, uint64_t place)
{
    struct vector vector = {.table = sending->table, .books = sending->books, .book = sending->book, .place = place};
    vector.record_length = RECORD_SIZE;
    const uint32_t *coefficients = sending->run + coordinates_before(&sending->table, place);
    vector.length = row_at(&sending->table, place)[AT_LENGTH];
    for (uint64_t i = 0; i < vector.length; i++)
        vector.coefficients[i] = coefficients[i];
    return vector;
}

/* Every place in turn, so that 11 names the lowest place at fault; the quantizer names its lowest coordinate. */
static struct list send_places(const struct sending *sending, uint64_t places, uint8_t *records)
{
    uint64_t coordinates = 0;
    for (uint64_t place = 0; place < places; place++) {
        const struct vector vector = vector_at(sending, place);
        const struct quantizing made = quantize(&vector);
        if (made.answer.refusal)
            return (struct list){{made.answer.refusal, place, made.answer.value}};
        for (uint64_t i = 0; i < RECORD_SIZE; i++)
            records[RECORD_SIZE * place + i] = made.answer.record[i];
        coordinates += vector.length;
    }
    own_figure("coordinates of all places together", coordinates, sending->run_length);
    return (struct list){{0}};
}

/* "send | 17, 7, 8, 4, 11"; without a place, 8 is for the book alone. */
void send_page(const struct sending *sending, struct sent *sent)
{
    const struct table *table = &sending->table;
    const struct judgment judgment = judge(table->bytes, table->size);
    if (is_no_number_of_books(sending->books))
        sent->list = (struct list){{17}};
    else if (judgment.faults)
        sent->list = (struct list){{7, judgment.row}};
    else if (sending->book >= sending->books)
        sent->list = (struct list){{8}};
    else if (sending->run_length != coordinates_before(table, judgment.places) ||
             sending->buffer_length != RECORD_SIZE * judgment.places)
        sent->list = (struct list){{4}};
    else
        sent->list = send_places(sending, judgment.places, sent->records);
}
