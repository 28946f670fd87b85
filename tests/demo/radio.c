/* The radio of the demo: what befalls the records of the page, written out place by place. How often a record comes,
   and in what order they all come, is left to chance, the same in every run. */

#include "demo.h"

enum { SEED = 1996, MOST_COPIES = 3, LAST_PART = 5 /* the bytes that come of a record that is cut */ };

/* What comes of a record: itself, a changed one, both, nothing, or a part of it when all else is there. */
enum coming { UNCHANGED, CHANGED, BOTH, LOST, CUT };

struct event {
    uint64_t place;
    enum coming coming;
    uint64_t byte; /* of the record, in which it is changed */
    uint8_t bits;  /* of that byte, which are changed */
    enum fate fate;
};

/* To the places that are not here nothing happens. The record of place 4 comes as one of place 5, which is of the same
   row, that of place 47 as one of place 15, which is of another row, and that of place 45 as one of place 109, which
   the table does not have. */
static const struct event events[] = {
    {4, CHANGED, AT_PLACE + 1, 1, NOTHING_CAME},
    {5, UNCHANGED, 0, 0, TWO_CAME},
    {14, BOTH, AT_CODEWORD + 3, 4, TWO_CAME},
    {15, UNCHANGED, 0, 0, AS_SENT_BESIDE_FOREIGN},
    {17, LOST, 0, 0, NOTHING_CAME},
    {20, CHANGED, AT_CODEWORD + 2, 2, MENDED_AS_SENT},
    {29, BOTH, AT_RADIUS_NUMBER, 1, TWO_CAME},
    {30, CHANGED, AT_ROW, 2, FOREIGN_CAME},
    {31, CHANGED, AT_CODEWORD + 3, 1, SOUND_NOT_AS_SENT},
    {35, CHANGED, AT_CODEWORD + 2, 32, MENDED_NOT_AS_SENT},
    {40, CHANGED, AT_RADIUS_NUMBER, 4, RADIUS_NUMBER_CHANGED},
    {45, CHANGED, AT_PLACE + 1, 64, NOTHING_CAME},
    {47, CHANGED, AT_PLACE + 1, 32, NOTHING_CAME},
    {49, CHANGED, AT_CODEWORD, 8, CODEWORD_PAST_WIDTH},
    {52, CUT, 0, 0, NOTHING_CAME},
};

static const struct event *event_at(uint64_t place)
{
    static const struct event none = {.coming = UNCHANGED, .fate = AS_SENT};
    for (uint64_t i = 0; i < ENTRIES(events); i++)
        if (events[i].place == place)
            return &events[i];
    return &none;
}

enum fate fate_meant(uint64_t place)
{
    return event_at(place)->fate;
}

static void put_copies(struct capture *to, const uint8_t *record)
{
    for (uint64_t copies = 1 + chance_below(MOST_COPIES); copies > 0; copies--)
        put(to, record, RECORD_SIZE);
}

static void put_changed(struct capture *to, const uint8_t *record, const struct event *event)
{
    uint8_t changed[RECORD_SIZE];
    for (uint64_t i = 0; i < RECORD_SIZE; i++)
        changed[i] = record[i] ^ (i == event->byte ? event->bits : 0);
    put_copies(to, changed);
}

void broadcast(const struct sent *sent, struct capture *to)
{
    chance_from(SEED);
    for (uint64_t place = 0; place < PLACES; place++) {
        const struct event *event = event_at(place);
        if (event->coming == UNCHANGED || event->coming == BOTH)
            put_copies(to, sent->records[place]);
        if (event->coming == CHANGED || event->coming == BOTH)
            put_changed(to, sent->records[place], event);
    }
    shuffle(to);
    for (uint64_t place = 0; place < PLACES; place++)
        if (event_at(place)->coming == CUT)
            put(to, sent->records[place], LAST_PART);
}
