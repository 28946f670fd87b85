/* The desk of the demo: writes the pairing table and the run of the picture's coefficients in a new folder, the same
   bytes in every run. A sender program makes the records of these. See docs/RULES.md, "Sending a page". */

#include "demo.h"

enum { COEFFICIENTS = BANDS * BAND_LINES * BAND_COLUMNS };

/* "places in order, each place's coordinates together". */
static uint64_t put_coefficients(const struct bands *bands, uint32_t *run)
{
    uint64_t length = 0;
    for (uint64_t place = 0; place < PLACES; place++)
        for (uint64_t i = 0; i < length_at(place); i++) {
            const struct spot from = spot(place, i);
            __builtin_memcpy(run + length++, &bands->at[from.band][from.line][from.column], sizeof *run);
        }
    return length;
}

int main(int words, char **word)
{
    struct bands bands;
    uint32_t run[COEFFICIENTS];
    uint8_t file[F32_SIZE * COEFFICIENTS];
    if (words != 3) {
        printf("desk FOLDER NAME\n");
        return 1;
    }
    count_points();
    own_figure("faults of the demo's table", judge(demo_table.bytes, demo_table.size).faults, 0);
    own_figure("places of the demo's table", judge(demo_table.bytes, demo_table.size).places, PLACES);
    split(&bands);
    own_figure("coefficients of the demo's page", put_coefficients(&bands, run), COEFFICIENTS);
    put_run(file, run, COEFFICIENTS);
    const struct sent_case page = {.listed = {.name = word[2], .pairing = {demo_table.bytes, demo_table.size}},
                                   .coefficients = BYTES(file)};
    write_sent_case(word[1], &page);
    return 0;
}
