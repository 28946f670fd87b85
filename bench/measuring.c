/* One call, ours and as plain C: its instructions and its time. */

#include "bench.h"

#include <time.h>

#define ROUND_NANOSECONDS 1e6
enum { ROUNDS = 60 };

static int is_measuring;

void begin_measuring(void)
{
    is_measuring = 1;
    print_head();
}

double nanoseconds_now(void)
{
    struct timespec now;
    clock_gettime(CLOCK_MONOTONIC, &now);
    return (double)now.tv_sec * 1e9 + (double)now.tv_nsec;
}

/* Without what it takes to run an empty call. */
static double instructions_of(struct side side, uint64_t counted)
{
    const double with = steps_of_run(side.run, side.call, counted), without = steps_of_run(side.run, side.empty, counted);
    return with < 0 || without < 0 ? UNCOUNTED : (with - without) / (double)counted;
}

/* Nanoseconds a call, when all inputs are run so many times. */
static double time_of(struct side side, uint64_t times)
{
    const double begin = nanoseconds_now();
    for (uint64_t i = 0; i < times; i++)
        side.run(side.call, INPUTS);
    return (nanoseconds_now() - begin) / (double)(times * INPUTS);
}

/* How many times make a round that is long enough for the clock. */
static uint64_t times_of_round(struct side side)
{
    uint64_t times = 1;
    while (time_of(side, times) * (double)(times * INPUTS) < ROUND_NANOSECONDS)
        times *= 2;
    return times;
}

static double smaller(double one, double other)
{
    return one < other ? one : other;
}

/* The least of all rounds, ours and plain C by turns. The time has the call itself in it. */
void measure(struct rivals rivals)
{
    if (!is_measuring)
        return;
    struct figures ours = {instructions_of(rivals.ours, rivals.counted), 1e9}, plain = {instructions_of(rivals.plain, rivals.counted), 1e9};
    const uint64_t times = times_of_round(rivals.plain);
    for (int round = 0; round < ROUNDS; round++) {
        ours.nanoseconds = smaller(ours.nanoseconds, time_of(rivals.ours, times));
        plain.nanoseconds = smaller(plain.nanoseconds, time_of(rivals.plain, times));
    }
    print_figures(rivals.what, ours, plain);
}
