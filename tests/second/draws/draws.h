/* What is drawn by chance, the same in every run: numbers, points, pairing tables and vectors. Nothing here calls what
   is under test. */

#ifndef SECOND_DRAWS_H
#define SECOND_DRAWS_H

#include "../rules/rules.h"

/* chance.c: numbers, signs, points, empty shapes, rows and tables */
void chance_from(uint64_t seed);
uint64_t chance_below(uint64_t bound);
void sign_by_chance(const uint64_t *magnitudes, uint64_t length, int32_t *point);
void point_by_chance(struct shell shell, int32_t *point);
uint64_t empty_by_chance(struct shell shell);
struct table rows_by_chance(uint64_t rows, uint64_t most);
void aim_total(struct table *table, uint64_t number, uint64_t total);
void spoil_selector(struct table *table);
void spoil_table(struct table *table);
struct table table_by_chance(void);
struct table good_table_by_chance(void);

/* coefficients.c: vectors, and places of a table */
void spoil(struct vector *vector);
uint64_t some_place(const struct table *table);
void place_by_chance(struct vector *vector);
void coefficients_by_chance(struct vector *vector);

/* others.c: the shells that are usable by the selectors 0 and 1 and not by 2, modes that there are not, a place that is
   not in a table, and another number than the right one */
enum { LOST_SHELLS = 4, NO_MODES = 7 };
extern const struct shell lost_shells[LOST_SHELLS];
extern const uint64_t no_modes[NO_MODES];
uint64_t no_mode_by_chance(void);
uint64_t wrong_place(uint64_t places);
uint64_t other_than(uint64_t right, uint64_t most);

#endif
