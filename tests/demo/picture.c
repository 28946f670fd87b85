/* The picture of the demo, a part of a page of a graded reader: two characters with their readings above them. A
   plain band split stands here for the editor's own: sums and differences of 2 x 2 pixels, all of them exact in f32. */

#include "demo.h"

const struct picture picture_sent = {{
    ".#.#....#....#..#...#...",
    ".####.#####.####.#.##.#.",
    "##..#...#....#.#.#..##.#",
    ".#.#..#####..#.#...##..#",
    "..#...#.#...#..#..#.#..#",
    "..#....#.##.#.##....#.#.",
    "........................",
    ".....#.......#.........#",
    ".....#.......#....#....#",
    ".....#.......#....#....#",
    "#....#....#..#....#....#",
    "#....#....#..#....#....#",
    "#....#....#..#....#....#",
    "#....#....#..#....#....#",
    "#....#....#..#.........#",
    "###########.#..........#",
}};

/* Band 0 is the sum of the 2 x 2 pixels. Band 1 takes off the right ones, band 2 the lower ones, band 3 those that
   are one of both. */
static float sign(uint64_t band, uint64_t column, uint64_t line)
{
    return (band % 2 * column + band / 2 * line) % 2 == 0 ? 1 : -1;
}

/* Ink is 1, paper 0. */
void split(struct bands *to)
{
    *to = (struct bands){0};
    for (uint64_t band = 0; band < BANDS; band++)
        for (uint64_t line = 0; line < LINES; line++)
            for (uint64_t column = 0; column < COLUMNS; column++)
                to->at[band][line / 2][column / 2] += picture_sent.pixels[line][column] == INK ? sign(band, column, line) : 0;
}

/* The four bands together are four times the pixel: ink where that is more ink than paper, half ink where it is half of
   each. */
static char pixel_of(const struct bands *received, uint64_t column, uint64_t line)
{
    float pixels = 0;
    for (uint64_t band = 0; band < BANDS; band++)
        pixels += sign(band, column, line) * received->at[band][line / 2][column / 2];
    return pixels > 2 ? INK : pixels < 2 ? PAPER : HALF_INK;
}

void show(const struct bands *received, struct picture *to)
{
    *to = (struct picture){0};
    for (uint64_t line = 0; line < LINES; line++)
        for (uint64_t column = 0; column < COLUMNS; column++)
            to->pixels[line][column] = pixel_of(received, column, line);
}

uint64_t pixels_not_as_sent(const struct picture *shown)
{
    uint64_t others = 0;
    for (uint64_t line = 0; line < LINES; line++)
        for (uint64_t column = 0; column < COLUMNS; column++)
            others += shown->pixels[line][column] != picture_sent.pixels[line][column];
    return others;
}

/* The picture that was sent, and beside it what a slate shows. */
void print_pictures(const struct picture *shown)
{
    for (uint64_t line = 0; line < LINES; line++)
        printf("%s    %s\n", picture_sent.pixels[line], shown->pixels[line]);
}
