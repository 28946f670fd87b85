/* What became of each place of the demo, by the rules of the second program: it must be what the radio's list says,
   and there must be every fate, so that the demo cannot lose one. */

#include "demo.h"

static const char *const names[FATES] = {
    [AS_SENT] = "sound places",
    [AS_SENT_BESIDE_FOREIGN] = "sound places that records of a foreign row name too",
    [SOUND_NOT_AS_SENT] = "sound places with another point than was sent",
    [MENDED_AS_SENT] = "mended places with the point that was sent",
    [MENDED_NOT_AS_SENT] = "mended places with another point",
    [NOTHING_CAME] = "missing places that no record names",
    [FOREIGN_CAME] = "missing places that only records of a foreign row name",
    [TWO_CAME] = "contested places",
    [RADIUS_NUMBER_CHANGED] = "places with reason 10",
    [CODEWORD_PAST_WIDTH] = "places with reason 14",
};

/* A place that shows a point. */
static enum fate fate_of_point(struct reading reading, struct reading sent, int is_foreign_too)
{
    const int is_as_sent = reading.shell.radius == sent.shell.radius && reading.index == sent.index;
    if (reading.word == MENDED)
        return is_as_sent ? MENDED_AS_SENT : MENDED_NOT_AS_SENT;
    if (!is_as_sent)
        return SOUND_NOT_AS_SENT;
    return is_foreign_too ? AS_SENT_BESIDE_FOREIGN : AS_SENT;
}

static enum fate fate_of(struct reading reading, struct reading sent, int is_foreign_too)
{
    if (reading.word == MISSING)
        return is_foreign_too ? FOREIGN_CAME : NOTHING_CAME;
    if (reading.word == CONTESTED)
        return TWO_CAME;
    if (reading.word == UNREADABLE)
        return reading.reason == 10 ? RADIUS_NUMBER_CHANGED : CODEWORD_PAST_WIDTH;
    return fate_of_point(reading, sent, is_foreign_too);
}

/* Takes what came, part by part, and counts the refusals. */
static void count_takes(const struct capture *capture, struct fates *to)
{
    static struct page page;
    begin_page(&page, PLACES);
    for (uint64_t at = 0; at < capture->size; at += RECORD_SIZE) {
        const uint64_t left = capture->size - at;
        struct arrival part = {.length = left < RECORD_SIZE ? left : RECORD_SIZE};
        for (uint64_t i = 0; i < part.length; i++)
            part.bytes[i] = capture->bytes[at + i];
        const uint64_t refusal = take(&demo_table, &page, &part).items[0];
        to->takes[refusal]++;
        if (refusal == 9)
            to->foreign[two_bytes(part.bytes + AT_PLACE)]++;
    }
}

/* "how many takes were refused". */
static uint64_t refused_takes(const struct fates *fates)
{
    uint64_t refused = 0;
    for (int refusal = 1; refusal <= MOST_REFUSAL; refusal++)
        refused += fates->takes[refusal];
    return refused;
}

void judge_fates(const struct sent *sent, const struct capture *capture, struct fates *to)
{
    static struct gathering all_sent, gathering;
    begin_gathering(&all_sent, &demo_table);
    begin_gathering(&gathering, &demo_table);
    gather_run(&all_sent, sent->records[0], sizeof sent->records);
    gather_run(&gathering, capture->bytes, capture->size);
    *to = (struct fates){0};
    count_takes(capture, to);
    own_figure("takes of the demo that are refused", refused_takes(to), gathering.refused);
    for (uint64_t place = 0; place < PLACES; place++) {
        const struct reading reading = reading_of(&demo_table, &gathering, place);
        to->answers[place] = reading.word;
        to->at[place] = fate_of(reading, reading_of(&demo_table, &all_sent, place), to->foreign[place] > 0);
    }
}

/* All that can be refused with a good table and a page that was new. */
static void require_refused(const struct fates *fates)
{
    require(fates->takes[4], 1, "demo,", "short last parts");
    require(fates->takes[8], 1, "demo,", "records of places that are not in the table");
    require(fates->takes[9], 1, "demo,", "records of a foreign row");
    own_figure("takes of the demo that are refused for their length, place or row",
               fates->takes[4] + fates->takes[8] + fates->takes[9], refused_takes(fates));
}

void require_fates(const struct fates *fates)
{
    uint64_t counted[FATES] = {0};
    for (uint64_t place = 0; place < PLACES; place++) {
        const enum fate fate = fates->at[place];
        if (fate != fate_meant(place)) {
            printf("demo, place %lu is among the %s, not the %s\n", place, names[fate], names[fate_meant(place)]);
            exit(1);
        }
        counted[fate]++;
    }
    for (int fate = 0; fate < FATES; fate++)
        require(counted[fate], 1, "demo,", names[fate]);
    require_refused(fates);
}
