/* The parts of the drawing of the demo, an SVG file. Lengths are in pixels of the screen if the drawing is shown in its
   own size. */

#ifndef DEMO_DRAWING_H
#define DEMO_DRAWING_H

#include "demo.h"

enum { MARGIN = 24 };

/* Colours, and how text looks. */
#define DARK "#1a1a1a"
#define GREY "#8a8a8a"
#define WHITE "#ffffff"
#define PLAIN "font-size='14'"
#define BOLD "font-size='14' font-weight='bold'"
#define SMALL "font-size='13'"
#define NUMBER "font-size='13' font-weight='bold' text-anchor='middle'"

/* A part of the drawing: where it begins, and its size. */
struct area {
    uint64_t x;
    uint64_t y;
    uint64_t width;
    uint64_t height;
};

/* drawing.c: what the other parts are made of */
void draw_area(FILE *to, struct area area, const char *colour, const char *edge);
void draw_text(FILE *to, uint64_t x, uint64_t y, const char *look, const char *text);
void begin_picture(FILE *to, uint64_t x, uint64_t y, uint64_t pixel_side);
void end_picture(FILE *to);
void draw_tone(FILE *to, const struct picture *picture, char pixel, const char *colour);

/* maps.c: a map of each band, with its places over the picture that a slate shows */
void draw_maps(FILE *to, const struct picture *shown, const struct fates *fates);

/* answers.c: how the answer of a place is drawn, and what is said of all of them */
void draw_box(FILE *to, enum reading_word answer, struct area area);
void draw_sign(FILE *to, enum reading_word answer, uint64_t x, uint64_t y);
void draw_legend(FILE *to, const struct fates *fates);
void tell_answers(FILE *to, const struct fates *fates);
void tell_not_as_sent(FILE *to, const struct fates *fates);

#endif
