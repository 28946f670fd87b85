/* The listing of a page by whole programs: ours, plain C, one that only reads and writes the same bytes, and one
   that does nothing. */

#include "bench.h"

#include <stdio.h>
#include <stdlib.h>

enum { OURS, PLAIN, COPY, NOTHING, PROGRAMS };
enum { RUNS = 200, MOST_WORDS = 16 };

struct program {
    char *words[MOST_WORDS]; /* the command */
    double times[RUNS];      /* in microseconds; in the end the least is the first */
};

static struct program programs[PROGRAMS];

/* The words that start a program, and the program. */
static void set_command(struct program *program, char *const *words, char *path)
{
    int at = 0;
    for (; words[at]; at++) {
        if (at + 2 == MOST_WORDS)
            fail("command", "too many words");
        program->words[at] = words[at];
    }
    program->words[at] = path;
}

static void time_programs(const char *folder, const char *output, int run)
{
    for (struct program *program = programs; program < programs + PROGRAMS; program++) {
        const double begin = nanoseconds_now();
        wait_for(start(program->words, folder, output, 0));
        program->times[run] = (nanoseconds_now() - begin) / 1000;
    }
}

static int compare_times(const void *one, const void *other)
{
    const double a = *(const double *)one, b = *(const double *)other;
    return (a > b) - (a < b);
}

/* One figure of all programs, and the ratio of ours to plain C. */
static void print_row(const char *what, const double *figures)
{
    printf("| %s |", what);
    print_count(figures[OURS]);
    print_count(figures[PLAIN]);
    print_ratio("listing", what, figures[OURS], figures[PLAIN]);
    print_count(figures[COPY]);
    print_count(figures[NOTHING]);
    printf("\n");
}

/* A figure of each program beyond that of the one that does nothing, which keeps its own. */
static void print_row_beyond(const char *what, const double *figures)
{
    double beyond[PROGRAMS];
    for (int i = 0; i < PROGRAMS; i++)
        beyond[i] = i == NOTHING || figures[i] < 0 ? figures[i] : figures[i] - figures[NOTHING];
    print_row(what, beyond);
}

/* The arguments: the folder of the page, a file for what is written, the four programs, and the words that
   start a program. */
void bench_programs(char **arguments)
{
    const char *folder = arguments[0], *output = arguments[1];
    double instructions[PROGRAMS], least[PROGRAMS], median[PROGRAMS];
    for (int i = 0; i < PROGRAMS; i++)
        set_command(&programs[i], arguments + 2 + PROGRAMS, arguments[2 + i]);
    for (int run = 0; run < RUNS; run++)
        time_programs(folder, output, run);
    for (int i = 0; i < PROGRAMS; i++) {
        instructions[i] = steps_of_program(programs[i].words, folder, output);
        qsort(programs[i].times, RUNS, sizeof *programs[i].times, compare_times);
        least[i] = programs[i].times[0];
        median[i] = programs[i].times[RUNS / 2];
    }
    printf("\n| listing, a whole process | ours | C | ratio | reading and writing alone | nothing |\n|---|--:|--:|--:|--:|--:|\n");
    print_row_beyond("instructions beyond `nothing`", instructions);
    print_row("µs, least", least);
    print_row("µs, median", median);
    print_row_beyond("µs beyond `nothing`, least", least);
}
