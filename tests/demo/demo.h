/* The parts of the makers of demo/: a picture and its desk, then the radio, a slate and a drawing. The slate uses our
   own calls, which probe.h declares; what came is judged by the rules of the second program. */

#ifndef DEMO_DEMO_H
#define DEMO_DEMO_H

#include "../listing/listing.h"
#include "../second/probe.h"

#include <stdio.h>
#include <stdlib.h>

enum {
    COLUMNS = 24, /* of the picture, in pixels */
    LINES = 16,
    BANDS = 4,
    BAND_COLUMNS = COLUMNS / 2, /* of a band, in coefficients */
    BAND_LINES = LINES / 2,
    PLACES = 54
};

/* A picture: # is ink, + half ink, and a dot paper. A zero ends each line. */
enum { INK = '#', HALF_INK = '+', PAPER = '.' };
struct picture {
    char pixels[LINES][COLUMNS + 1];
};

/* The coefficients of a picture. */
struct bands {
    float at[BANDS][BAND_LINES][BAND_COLUMNS];
};

/* Where a coefficient stands. */
struct spot {
    uint64_t band;
    uint64_t line;
    uint64_t column;
};

/* The record of each place, as it is sent. */
struct sent {
    uint8_t records[PLACES][RECORD_SIZE];
};

/* The pixels that a place covers. */
struct box {
    uint64_t column;
    uint64_t line;
    uint64_t columns;
    uint64_t lines;
};

/* What becomes of a place, judged by what was sent for it. A record of a foreign row names the place, but claims
   nothing. */
enum fate {
    AS_SENT,
    AS_SENT_BESIDE_FOREIGN,
    SOUND_NOT_AS_SENT,
    MENDED_AS_SENT,
    MENDED_NOT_AS_SENT,
    NOTHING_CAME,
    FOREIGN_CAME,
    TWO_CAME,
    RADIUS_NUMBER_CHANGED,
    CODEWORD_PAST_WIDTH,
    FATES /* how many there are */
};

/* What became of the page. */
struct fates {
    enum reading_word answers[PLACES];
    enum fate at[PLACES];
    uint64_t foreign[PLACES];         /* records of a foreign row that name each place */
    uint64_t takes[MOST_REFUSAL + 1]; /* by the number of their refusal, 0 where there is none */
};

/* picture.c: the picture, into bands and back */
extern const struct picture picture_sent;
void split(struct bands *to);
void show(const struct bands *received, struct picture *to);
uint64_t pixels_not_as_sent(const struct picture *shown);
void print_pictures(const struct picture *shown);

/* places.c: the pairing table, where a coordinate of a place stands, the pixels of a place, and its length */
extern const struct table demo_table;
struct spot spot(uint64_t place, uint64_t coordinate);
struct box box_of(uint64_t place);
uint64_t length_at(uint64_t place);

/* slate.c: what a slate makes of all that came */
void receive(const struct capture *capture, struct bands *to);

/* radio.c: what befalls the records, and what is to become of a place */
enum fate fate_meant(uint64_t place);
void broadcast(const struct sent *sent, struct capture *to);

/* fates.c: the fates, and an error if a place has another one than is meant, or no place has one of them */
void judge_fates(const struct sent *sent, const struct capture *capture, struct fates *to);
void require_fates(const struct fates *fates);

/* drawing.c: the pictures and what became of each place, as an SVG file */
void write_drawing(const char *folder, const char *name, const struct picture *shown, const struct fates *fates);

#endif
