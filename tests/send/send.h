/* The parts of the test that holds send to stored cases; cases.txt tells what a line of them has. */

#ifndef SEND_SEND_H
#define SEND_SEND_H

#include "../fields/fields.h"
#include "../second/kinds/lent_send.h"

/* What a case lends, and what it expects. */
struct send_case {
    struct sending sending;
    struct sent expected;
};

/* cases.c: a line of the text, which is a case */
void read_case(struct text *text, struct send_case *to);

#endif
