/* measure.h: the clock, and how many system calls something makes. */
#ifndef MEASURE_H
#define MEASURE_H

#include <limits.h>
#include <signal.h>
#include <stdbool.h>
#include <sys/ptrace.h>
#include <sys/syscall.h>
#include <sys/wait.h>
#include <time.h>
#include <unistd.h>

static inline long now(void)
{
    struct timespec time;
    clock_gettime(CLOCK_MONOTONIC, &time);
    return time.tv_sec * 1000000000L + time.tv_nsec;
}

/* The nanoseconds that it takes to read the clock. */
static inline long clock_cost(void)
{
    long least = LONG_MAX;
    for (int turn = 0; turn < 10000; turn++) {
        long from = now(), took = now() - from;
        least = took < least ? took : least;
    }
    return least;
}

/* Each kind is run twice, so that what a first call opens isn't counted. getppid(2) stands before and behind the second. */
static void run_each(void (*run)(int kind), int kinds)
{
    ptrace(PTRACE_TRACEME, 0, NULL, NULL);
    raise(SIGSTOP);
    for (int kind = 0; kind < kinds; kind++) {
        run(kind);
        syscall(SYS_getppid);
        run(kind);
        syscall(SYS_getppid);
    }
    _exit(0);
}

/* Counts the system calls of each kind, in a child. */
static void count_calls(void (*run)(int kind), int kinds, double calls[])
{
    int status, marks = 0;
    bool enters = false;
    pid_t child = fork();
    if (child == 0)
        run_each(run, kinds);
    waitpid(child, &status, 0);
    ptrace(PTRACE_SETOPTIONS, child, NULL, (void *)PTRACE_O_TRACESYSGOOD);
    for (;;) {
        ptrace(PTRACE_SYSCALL, child, NULL, NULL);
        if (waitpid(child, &status, 0) < 0 || WIFEXITED(status) || WIFSIGNALED(status))
            return;
        enters = !enters;
        struct ptrace_syscall_info { unsigned char op, pad[3]; unsigned arch; unsigned long at, stack, number, more[8]; } about;
        if (!enters || ptrace((enum __ptrace_request)0x420e, child, (void *)sizeof about, &about) <= 0)
            continue;
        if (about.number == SYS_getppid)
            marks++;
        else if (marks % 2 == 1)
            calls[marks / 2]++;
    }
}

#endif
