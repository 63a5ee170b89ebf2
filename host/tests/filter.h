/* filter.h: system calls that are refused from here on, as by a sandbox or an older kernel. */
#ifndef FILTER_H
#define FILTER_H

#include "support.h"

#include <errno.h>
#include <linux/filter.h>
#include <linux/seccomp.h>
#include <stddef.h>
#include <sys/prctl.h>
#include <sys/syscall.h>

/*
 * Each call of this number fails so from here on whose argument, of which the lower half is looked at, has this value in these
 * bits: in this thread and in those that it makes.
 */
static inline void refuse_where(long number, unsigned argument, unsigned mask, unsigned value, int error)
{
    struct sock_filter lines[] = {
        BPF_STMT(BPF_LD | BPF_W | BPF_ABS, offsetof(struct seccomp_data, nr)),
        BPF_JUMP(BPF_JMP | BPF_JEQ | BPF_K, (unsigned)number, 0, 4),
        BPF_STMT(BPF_LD | BPF_W | BPF_ABS, (unsigned)(offsetof(struct seccomp_data, args) + argument * sizeof(uint64_t))),
        BPF_STMT(BPF_ALU | BPF_AND | BPF_K, mask),
        BPF_JUMP(BPF_JMP | BPF_JEQ | BPF_K, value, 0, 1),
        BPF_STMT(BPF_RET | BPF_K, SECCOMP_RET_ERRNO | ((unsigned)error & SECCOMP_RET_DATA)),
        BPF_STMT(BPF_RET | BPF_K, SECCOMP_RET_ALLOW),
    };
    const struct sock_fprog program = {
        .len = sizeof lines / sizeof *lines,
        .filter = lines,
    };
    if (prctl(PR_SET_NO_NEW_PRIVS, 1, 0, 0, 0) != 0 || prctl(PR_SET_SECCOMP, SECCOMP_MODE_FILTER, &program) != 0)
        _exit(NO_RIGHT);
}

/* Each call of this number. */
static inline void refuse(long number, int error)
{
    refuse_where(number, 0, 0, 0, error);
    errno = 0;
    long result = syscall(number, -1, "", 0, 0, 0);
    gives(result == -1 ? errno : 0, error, "the refusal of system call %ld", number);
}

#endif
