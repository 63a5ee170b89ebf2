/* driver.h: what the files of the driver share. A program includes inroot.h alone. */
#ifndef INROOT_DRIVER_H
#define INROOT_DRIVER_H

#include "calls.h"
#include "inroot.h"

#include <stdbool.h>
#include <stddef.h>
#include <stdint.h>
#include <sys/stat.h>
#include <sys/types.h>

/* A call: what is asked for, with its texts, of which NULL is none; and where what it gives is to lie. */
struct inroot_call {
    struct inroot_demand demand;
    const char *first, *second;
    const struct timespec *times;
    struct stat *about;
    const char *attribute;
    void *value;                   /* of an attribute */
    char *text;                    /* of so much of a text as there is room for, by SIZE */
    size_t size;
    char *name;                    /* of a text in the room, with its NUL */
};

#pragma GCC visibility push(hidden)

/* exchange.c */
/*
 * Makes a call: what it gives, or -errno, which is kept with the step to blame. A thread that is cancelled meanwhile finishes the
 * call.
 */
int64_t inroot_exchange(struct inroot_call *call);

/* program.c */
/* What is known of the program and of the thread. */
void inroot_program_known(struct inroot_known *known);
/* What is due and no system call: 0, or -1 with errno. */
long inroot_program_does(const struct inroot_due *due);

/* error.c */
/* Keeps why the thread's last call failed: the error, the step's number (crates/kernel_calls/src/steps.rt), and a name. */
void inroot_error_keep(int error, unsigned step, const char *name);

#pragma GCC visibility pop

#endif
