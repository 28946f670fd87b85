/* The drawing of the demo, demo/page.svg: the picture that was sent, the one that a slate shows, and what became of
   each place. */

#include "drawing.h"

enum {
    MOST_PATH = 4096,
    WIDTH = 900,
    HEIGHT = 708,
    FIRST_PANEL = MARGIN,
    SECOND_PANEL = 468,
    PANELS_TOP = 52,
    PIXEL_SIDE = 17, /* of the pictures in the first two panels */
    THIRD_TITLE = 388
};

#define TITLE "font-size='18' font-weight='bold'"

void draw_area(FILE *to, struct area area, const char *colour, const char *edge)
{
    fprintf(to, "<rect x='%lu' y='%lu' width='%lu' height='%lu'", area.x, area.y, area.width, area.height);
    fprintf(to, " fill='%s' stroke='%s' shape-rendering='crispEdges'/>\n", colour, edge);
}

void draw_text(FILE *to, uint64_t x, uint64_t y, const char *look, const char *text)
{
    fprintf(to, "<text x='%lu' y='%lu' %s>%s</text>\n", x, y, look, text);
}

/* How many pixels of a kind follow each other from here on: 0 unless the first of them is here. */
static uint64_t run_from(const char *line, uint64_t column, char pixel)
{
    uint64_t end = column;
    if (column > 0 && line[column - 1] == pixel)
        return 0;
    while (line[end] == pixel)
        end++;
    return end - column;
}

/* Within a picture all lengths are in its own pixels. */
void begin_picture(FILE *to, uint64_t x, uint64_t y, uint64_t pixel_side)
{
    fprintf(to, "<g transform='translate(%lu %lu) scale(%lu)' shape-rendering='crispEdges'>\n", x, y, pixel_side);
    fprintf(to, "<rect width='%d' height='%d' fill='" WHITE "'/>\n", COLUMNS, LINES);
}

void end_picture(FILE *to)
{
    fprintf(to, "</g>\n");
}

/* All pixels of a kind, a box for each run of them. */
void draw_tone(FILE *to, const struct picture *picture, char pixel, const char *colour)
{
    uint64_t runs = 0;
    fprintf(to, "<path fill='%s' d='", colour);
    for (uint64_t line = 0; line < LINES; line++)
        for (uint64_t column = 0; column < COLUMNS; column++) {
            const uint64_t run = run_from(picture->pixels[line], column, pixel);
            if (run > 0)
                fprintf(to, "%sM%lu %luh%luv1h-%luz", runs++ % 8 == 0 ? "\n" : "", column, line, run, run);
        }
    fprintf(to, "'/>\n");
}

/* A screen reader tells these words in the place of the drawing. */
static void draw_head(FILE *to, const struct fates *fates)
{
    fprintf(to, "<svg xmlns='http://www.w3.org/2000/svg' width='%d' height='%d' viewBox='0 0 %d %d'\n", WIDTH, HEIGHT, WIDTH, HEIGHT);
    fprintf(to, "role='img' aria-labelledby='title desc' font-family='sans-serif' fill='" DARK "'>\n");
    fprintf(to, "<title id='title'>A page over a bad radio</title>\n<desc id='desc'>\n");
    fprintf(to, "1. As it was sent: the characters for mountain and river, each with its reading above it.\n");
    fprintf(to, "2. As the slate shows it: some strokes are gone, grey or out of place.\n");
    fprintf(to, "3. What became of each place, on a map of each of the four bands.\n");
    tell_answers(to, fates);
    tell_not_as_sent(to, fates);
    fprintf(to, "</desc>\n<rect width='%d' height='%d' rx='8' fill='#f3f2ee'/>\n", WIDTH, HEIGHT);
}

/* The title stands above the picture. */
static void begin_panel(FILE *to, uint64_t x, const char *title)
{
    draw_text(to, x, PANELS_TOP - 14, TITLE, title);
    begin_picture(to, x, PANELS_TOP, PIXEL_SIDE);
}

/* The caption stands below the picture. */
static void end_panel(FILE *to, uint64_t x, const char *caption)
{
    end_picture(to);
    draw_area(to, (struct area){x, PANELS_TOP, COLUMNS * PIXEL_SIDE, LINES * PIXEL_SIDE}, "none", GREY);
    draw_text(to, x, PANELS_TOP + LINES * PIXEL_SIDE + 21, PLAIN, caption);
}

static void draw_panels(FILE *to, const struct picture *shown)
{
    begin_panel(to, FIRST_PANEL, "1. As it was sent");
    draw_tone(to, &picture_sent, INK, DARK);
    end_panel(to, FIRST_PANEL, "Mountain and river, each with its reading above it.");
    begin_panel(to, SECOND_PANEL, "2. As the slate shows it");
    draw_tone(to, shown, INK, DARK);
    draw_tone(to, shown, HALF_INK, "#9a9a9a");
    end_panel(to, SECOND_PANEL, "After the radio. Black is ink, grey is half ink.");
}

static void draw_third_panel(FILE *to, const struct picture *shown, const struct fates *fates)
{
    draw_text(to, MARGIN, THIRD_TITLE, TITLE, "3. What became of each place");
    draw_text(to, MARGIN, THIRD_TITLE + 23, PLAIN,
              "The picture is sent as four bands, each of them cut into places. The numbers are those of the listing.");
    draw_maps(to, shown, fates);
    draw_legend(to, fates);
    fprintf(to, "<text x='%d' y='%d' " PLAIN ">", MARGIN, HEIGHT - 18);
    tell_not_as_sent(to, fates);
    fprintf(to, "</text>\n");
}

static _Noreturn void no_file(const char *path)
{
    printf("demo, cannot write %s\n", path);
    exit(1);
}

void write_drawing(const char *folder, const char *name, const struct picture *shown, const struct fates *fates)
{
    char path[MOST_PATH];
    snprintf(path, sizeof path, "%s/%s/page.svg", folder, name);
    FILE *to = fopen(path, "wb");
    if (!to)
        no_file(path);
    draw_head(to, fates);
    draw_panels(to, shown);
    draw_third_panel(to, shown, fates);
    fprintf(to, "</svg>\n");
    if (fclose(to) != 0)
        no_file(path);
}
