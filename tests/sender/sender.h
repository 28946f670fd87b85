/* The parts of the independent sender and of the maker of pages by chance. Both are written from docs/RULES.md,
   "Sender program", on top of the second program's rules; they share nothing with the program that they test. */

#ifndef SENDER_SENDER_H
#define SENDER_SENDER_H

#include "../listing/listing.h"
#include "../second/rules/sending.h"

/* answering.c: what a sender must make of a page whose coefficients.bin has that size, the records that it must write
   and the text that it must print; none of these where there is nothing to write, or to print */
void answer(struct sending *sending, uint64_t size, struct sent *to);
struct bytes records_of(const struct sending *sending, const struct sent *sent);
const char *refusal_of(const struct sent *sent);

#endif
