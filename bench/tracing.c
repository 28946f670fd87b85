/* How many instructions something takes: it is run by another process, which is stopped after each of them. An
   instruction that repeats itself counts as often as it does so. */

#include "bench.h"

#include <fcntl.h>
#include <sched.h>
#include <signal.h>
#include <stddef.h>
#include <sys/ptrace.h>
#include <sys/wait.h>
#include <unistd.h>

/* From where the process has stopped by itself to its end. It ends without stopping where it cannot be traced. */
static double steps_to_end(int process)
{
    double steps = 0;
    int status;
    waitpid(process, &status, 0);
    if (!WIFSTOPPED(status))
        return UNCOUNTED;
    for (;;) {
        ptrace(PTRACE_SINGLESTEP, process, NULL, NULL);
        waitpid(process, &status, 0);
        if (!WIFSTOPPED(status))
            break;
        if (WSTOPSIG(status) != SIGTRAP)
            fail("a process that is traced", "another signal");
        steps++;
    }
    if (status != 0)
        fail("a process that is traced", "a status other than 0");
    return steps;
}

/* Keeps this process, and what it starts, to one processor, where stopping and going on take less time; those of
   before are returned. */
static cpu_set_t keep_to_one(void)
{
    cpu_set_t before, one;
    const int number = sched_getcpu();
    CPU_ZERO(&before);
    CPU_ZERO(&one);
    sched_getaffinity(0, sizeof before, &before);
    if (0 <= number && number < CPU_SETSIZE) {
        CPU_SET(number, &one);
        sched_setaffinity(0, sizeof one, &one);
    }
    return before;
}

static void go_back_to(cpu_set_t processors)
{
    sched_setaffinity(0, sizeof processors, &processors);
}

/* The call is run twice, and the second time is counted, so that whatever is done once is done. What the process does
   besides is the same for every call. */
double steps_of_run(run_call *run, any_call *call, uint64_t inputs)
{
    const cpu_set_t before = keep_to_one();
    const int process = fork();
    if (process == 0) {
        run(call, inputs);
        if (ptrace(PTRACE_TRACEME, 0, NULL, NULL) == 0) {
            raise(SIGSTOP);
            run(call, inputs);
        }
        _exit(0);
    }
    const double steps = steps_to_end(process);
    go_back_to(before);
    return steps;
}

/* Starts a program in a folder; the words are the command. One that is traced stops before its first instruction. */
int start(char *const *words, const char *folder, const char *output, int is_traced)
{
    const int process = fork();
    if (process == 0) {
        const int file = open(output, O_WRONLY | O_CREAT | O_TRUNC, 0644);
        if (file < 0 || dup2(file, STDOUT_FILENO) < 0 || chdir(folder) < 0)
            _exit(1);
        if (is_traced && ptrace(PTRACE_TRACEME, 0, NULL, NULL) != 0)
            _exit(0);
        execv(words[0], words);
        _exit(1);
    }
    return process;
}

void wait_for(int process)
{
    int status;
    if (waitpid(process, &status, 0) != process || status != 0)
        fail("a program", "a status other than 0");
}

double steps_of_program(char *const *words, const char *folder, const char *output)
{
    const cpu_set_t before = keep_to_one();
    const double steps = steps_to_end(start(words, folder, output, 1));
    go_back_to(before);
    return steps;
}
