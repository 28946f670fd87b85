/* What send is lent, and one comparison of the call with what is expected of it. The call is handed over, so that
   nothing here names what is under test. */

#ifndef SECOND_LENT_SEND_H
#define SECOND_LENT_SEND_H

#include "../rules/sending.h"

/* The call, as probe.h declares it. */
typedef uint64_t send_call(const uint8_t *table, uint64_t table_length, uint64_t books, uint64_t book, const float *run,
                           uint64_t run_length, uint8_t *buffer, uint64_t buffer_length, uint64_t which);

/* lent_send.c: the name is what a difference is told with */
void expect_send(const char *name, send_call *call, const struct sending *sending, const struct sent *expected);

#endif
