/* How the answer of a place is drawn: by a colour, and by a sign for the reader who does not see the colour. The
   colours are those of Okabe and Ito, which colour-blind readers can tell apart. */

#include "drawing.h"

enum {
    LEGEND_TOP = 614,
    LEGEND_WIDTH = 852,
    LEGEND_HEIGHT = 52,
    LEGEND_STEP = 170, /* from an answer to the next one */
    SIDE = 32          /* of an answer's box */
};

static const struct {
    const char *word;
    const char *meaning;
    const char *colour;
    const char *edge;
    const char *sign; /* around the point 0 0 */
} looks[READINGS] = {
    [SOUND] = {"sound", "shown as it came", "none", GREY, ""},
    [MENDED] = {"mended", "one bit taken off", "#009e73", DARK, "<path d='M-6 0H6M0-6V6'/>"},
    [MISSING] = {"missing", "no record claims it", "#56b4e9", DARK, "<circle r='5'/>"},
    [CONTESTED] = {"contested", "records that differ", "#e69f00", DARK,
                   "<path d='M-8-6L0 0L-8 6zM8-6L0 0L8 6z' fill='" DARK "' stroke='none'/>"},
    [UNREADABLE] = {"unreadable", "cannot be right", "#cc79a7", DARK, "<path d='M-4-3C-4-8 4-8 4-3C4 0 0 0 0 3M0 5V8'/>"},
};

void draw_box(FILE *to, enum reading_word answer, struct area area)
{
    draw_area(to, area, looks[answer].colour, looks[answer].edge);
}

void draw_sign(FILE *to, enum reading_word answer, uint64_t x, uint64_t y)
{
    if (answer != SOUND)
        fprintf(to, "<g transform='translate(%lu %lu)' fill='none' stroke='" DARK "' stroke-width='3'>%s</g>\n", x, y, looks[answer].sign);
}

static uint64_t count(const struct fates *fates, enum reading_word answer)
{
    uint64_t places = 0;
    for (uint64_t place = 0; place < PLACES; place++)
        places += fates->answers[place] == answer;
    return places;
}

void draw_legend(FILE *to, const struct fates *fates)
{
    draw_area(to, (struct area){MARGIN, LEGEND_TOP, LEGEND_WIDTH, LEGEND_HEIGHT}, WHITE, GREY);
    for (enum reading_word answer = 0; answer < READINGS; answer++) {
        const struct area area = {MARGIN + 10 + LEGEND_STEP * answer, LEGEND_TOP + 10, SIDE, SIDE};
        draw_box(to, answer, area);
        draw_sign(to, answer, area.x + SIDE / 2, area.y + SIDE / 2);
        fprintf(to, "<text x='%lu' y='%lu' " BOLD ">", area.x + 40, area.y + 13);
        fprintf(to, "%lu %s</text>\n", count(fates, answer), looks[answer].word);
        draw_text(to, area.x + 40, area.y + 30, SMALL, looks[answer].meaning);
    }
}

/* How many places have each answer, and the places that are not sound. */
void tell_answers(FILE *to, const struct fates *fates)
{
    for (enum reading_word answer = 0; answer < READINGS; answer++) {
        fprintf(to, "%lu %s%s", count(fates, answer), looks[answer].word, answer == SOUND ? "" : ", places");
        for (uint64_t place = 0; place < PLACES; place++)
            if (answer != SOUND && fates->answers[place] == answer)
                fprintf(to, " %lu", place);
        fprintf(to, ".\n");
    }
}

/* What the radio made another point of, where the answer does not show it. */
void tell_not_as_sent(FILE *to, const struct fates *fates)
{
    const char *before = "Not as it was sent, though no slate can tell: ";
    for (uint64_t place = 0; place < PLACES; place++)
        if (fates->at[place] == SOUND_NOT_AS_SENT || fates->at[place] == MENDED_NOT_AS_SENT) {
            fprintf(to, "%splace %lu (%s)", before, place, looks[fates->answers[place]].word);
            before = ", ";
        }
    fprintf(to, ".\n");
}
