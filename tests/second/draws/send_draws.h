/* What is drawn by chance for the call send: runs of coefficients for whole pages, right ones and wrong ones. */

#ifndef SECOND_SEND_DRAWS_H
#define SECOND_SEND_DRAWS_H

#include "../rules/sending.h"
#include "page_draws.h"

/* What is wrong with a call of send, as the bits of a set; the lower three are those of the page. */
enum { WRONG_RUN = 8, WRONG_BUFFER = 16, WRONG_COEFFICIENT = 32, SEND_SETS = 64 };

/* send_chance.c: all that the call is lent, and what can be wrong with it */
void send_by_chance(struct sending *to, const struct table *table);
void put_vector(struct sending *to, const struct vector *vector);
void spoil_coefficients(struct sending *to, uint64_t place);
uint64_t wrong_run_length(const struct sending *right);
uint64_t wrong_buffer_length(const struct sending *right);
void make_wrong(struct sending *to, int set);
void make_right(struct sending *to);

#endif
