/* The maps of the demo's drawing, one a band: the picture that a slate shows, in pale grey, and over it a box for each
   place of the band. */

#include "drawing.h"

enum {
    MAPS_TOP = 448,
    MAP_STEP = 220, /* from a map to the next one */
    PIXEL_SIDE = 8, /* of the picture in a map */
    NARROW = 32     /* the width of a box in which the number stands below the sign, and not beside it */
};

static const char *const names[BANDS] = {"ink", "left less right", "upper less lower", "diagonals"};

static uint64_t left_of_map(uint64_t band)
{
    return MARGIN + MAP_STEP * band;
}

/* The name stands above the map, and below it which places the band has. */
static void draw_name(FILE *to, uint64_t band)
{
    uint64_t first = 0;
    while (row_of(&demo_table, first) != band)
        first++;
    draw_text(to, left_of_map(band), MAPS_TOP - 9, BOLD, names[band]);
    fprintf(to, "<text x='%lu' y='%d' " SMALL ">places %lu to ", left_of_map(band), MAPS_TOP + LINES * PIXEL_SIDE + 18, first);
    fprintf(to, "%lu</text>\n", first + two_bytes(row_at(&demo_table, first) + AT_PLACES) - 1);
}

static struct area area_of(uint64_t place)
{
    const struct box box = box_of(place);
    return (struct area){
        .x = left_of_map(row_of(&demo_table, place)) + box.column * PIXEL_SIDE,
        .y = MAPS_TOP + box.line * PIXEL_SIDE,
        .width = box.columns * PIXEL_SIDE,
        .height = box.lines * PIXEL_SIDE,
    };
}

/* The number stands beside the sign, below it in a narrow box, and alone in the box of a sound place. */
static void draw_mark(FILE *to, enum reading_word answer, uint64_t place)
{
    const struct area area = area_of(place);
    const int is_beside = answer != SOUND && area.width > NARROW, is_below = answer != SOUND && area.width <= NARROW;
    const uint64_t x = area.x + area.width / 2, y = area.y + area.height / 2;
    draw_sign(to, answer, is_beside ? x - 12 : x, is_below ? y - 7 : y);
    fprintf(to, "<text x='%lu' y='%lu' " NUMBER ">%lu</text>\n", is_beside ? x + 12 : x, is_below ? y + 13 : y + 5, place);
}

/* The places of a band that are sound, or those that are not. A sound place has a number only if its point is not the
   one that was sent. */
static void draw_places(FILE *to, uint64_t band, const struct fates *fates, int are_sound)
{
    for (uint64_t place = 0; place < PLACES; place++)
        if (row_of(&demo_table, place) == band && (fates->answers[place] == SOUND) == are_sound) {
            draw_box(to, fates->answers[place], area_of(place));
            if (!are_sound || fates->at[place] == SOUND_NOT_AS_SENT)
                draw_mark(to, fates->answers[place], place);
        }
}

/* The sound places come first, so that their thin lines do not cross the boxes of the others. */
void draw_maps(FILE *to, const struct picture *shown, const struct fates *fates)
{
    for (uint64_t band = 0; band < BANDS; band++) {
        draw_name(to, band);
        begin_picture(to, left_of_map(band), MAPS_TOP, PIXEL_SIDE);
        draw_tone(to, shown, INK, "#c4c4c4");
        draw_tone(to, shown, HALF_INK, "#e2e2e2");
        end_picture(to);
        draw_places(to, band, fates, 1);
        draw_places(to, band, fates, 0);
    }
}
