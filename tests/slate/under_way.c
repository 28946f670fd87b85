/* The call that is under way: one that reads or writes where it may not is told like any other difference. */

#include "slate.h"

#include <signal.h>
#include <stdio.h>

static print_call *volatile print_it;
static const void *volatile under_way;

static void on_fault(int number)
{
    if (under_way)
        print_it(under_way);
    else
        printf("signal %d outside a comparison of a call", number);
    end("something is read or written that is not lent");
}

/* Linux would end the program with one of these two signals. */
void tell_faults(void)
{
    signal(SIGBUS, on_fault);
    signal(SIGSEGV, on_fault);
}

void begin_call(print_call *print, const void *what)
{
    print_it = print;
    under_way = what;
}

void end_call(void)
{
    under_way = 0;
}
