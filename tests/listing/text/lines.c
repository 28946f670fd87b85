/* The text of a listing; docs/RULES.md, "Listing program". */

#include "../listing.h"

#include <stdio.h>

/* "place, answer, reason or distance (0 where there is neither), then the l coordinates of the point or l zeros". */
static void print_place(uint64_t place, struct reading reading, uint64_t length)
{
    int32_t point[MOST_LENGTH];
    write_point(reading, point);
    printf("%lu %s %lu", place, reading_words[reading.word], reading.word == MENDED ? reading.distance : reading.reason);
    for (uint64_t i = 0; i < length; i++)
        printf(" %d", point[i]);
    printf("\n");
}

/* The table must be good. "`tally`, the five counts of the tally, the number of refused takes" */
void print_listing(const struct table *table, const struct gathering *from)
{
    uint64_t counts[READINGS] = {0};
    for (uint64_t place = 0; place < from->places; place++) {
        const struct reading reading = reading_of(table, from, place);
        print_place(place, reading, row_at(table, place)[AT_LENGTH]);
        counts[reading.word]++;
    }
    printf("tally");
    for (int word = 0; word < READINGS; word++)
        printf(" %lu", counts[word]);
    printf(" %lu\n", from->refused);
}
