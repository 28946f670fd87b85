/* A layout program in small, for a page of two books: the teacher's edition and the pupil's. It asks how many points a
   shell has, converts the page that version 5 left, takes the records that came since, and draws the progress strip of
   each book, a sign for each place: `.` where nothing came, `#` where a record is held, `?` where records that differ
   came. The strip is drawn from the states alone. First the program makes sure that the archive is of the version for
   which it was built. */

#include <aldrynja.h>

#include <stdio.h>

enum { TEACHER, PUPIL, BOOKS };
enum { PLACES = 4, CELL = 9, RECORD = 8 };

/* One row: length 3, radii 0 and 2, step 1, four places. Both books have it. */
static const uint8_t table[] = {3, 2, 0, 2, 0, 0, 0, 0, 0, 0, 1, 0, 0, PLACES, 0, 0};

/* The first two bytes of a record: the book above the twelve bits of the place. */
#define AT(book, place) (book) << 4 | (place) >> 8, (place) & 255

/* The page as version 5 left it, cell by cell: the pupil's place 2 is held, and nothing else. */
static const uint8_t cell_by_cell[BOOKS][PLACES][CELL] = {[PUPIL][2] = {1, AT(PUPIL, 2), 0, 1, 0, 0, 0, 5}};

/* The page as it is kept now, states first. */
static struct {
    uint8_t states[BOOKS][PLACES];
    uint8_t records[BOOKS][PLACES][RECORD];
} states_first;

static const uint8_t came[][RECORD] = {
    {AT(TEACHER, 0), 0, 1, 0, 0, 0, 5},
    {AT(TEACHER, 3), 0, 1, 0, 0, 0, 7},
    {AT(TEACHER, 0), 0, 1, 0, 0, 0, 5}, /* once more, the same */
    {AT(TEACHER, 3), 0, 1, 0, 0, 0, 6}, /* another one for this place */
    {AT(TEACHER, 9), 0, 1, 0, 0, 0, 5}, /* for place 9, which the table does not have */
    {AT(TEACHER, 0), 1, 1, 0, 0, 0, 5}, /* of row 1, which is not the row of place 0 */
    {AT(PUPIL, 0), 0, 1, 0, 0, 0, 7},   /* another one than the teacher's, in a book of its own */
    {AT(PUPIL, 2), 0, 1, 0, 0, 0, 5},   /* the one that the old page held */
    {AT(BOOKS, 1), 0, 1, 0, 0, 0, 5},   /* for book 2, which the page does not have */
};

/* The states of a book's places, as signs. */
static void draw_strip(const char *edition, const uint8_t *states)
{
    printf("%s: ", edition);
    for (size_t place = 0; place < PLACES; place++)
        printf("%c", ".#?"[states[place]]);
    printf("\n");
}

static void draw_strips(void)
{
    draw_strip("teacher", states_first.states[TEACHER]);
    draw_strip("pupil", states_first.states[PUPIL]);
}

int main(void)
{
    uint8_t *page = (uint8_t *)&states_first;

    if (aldrynja_version() != ALDRYNJA_VERSION) {
        printf("built for version %d, linked with version %u\n", ALDRYNJA_VERSION, aldrynja_version());
        return 1;
    }
    printf("points of length 3 and radius 2: %llu\n", (unsigned long long)aldrynja_count(3, 2));
    printf("old page: %u\n",
           aldrynja_to_states_first(table, sizeof table, BOOKS, cell_by_cell[0][0], sizeof cell_by_cell, page,
                                    sizeof states_first));
    draw_strips();
    for (size_t i = 0; i < sizeof came / RECORD; i++)
        printf("record %zu: %u\n", i,
               aldrynja_take(table, sizeof table, BOOKS, page, sizeof states_first, came[i], RECORD));
    draw_strips();
    return 0;
}
