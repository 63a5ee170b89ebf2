/*
 * wraps.h: what a test puts in the place of a function that the driver calls (ld, --wrap), where that takes any number of
 * arguments. The test writes a function that takes all of them, and names it here.
 */
#ifndef WRAPS_H
#define WRAPS_H

#include <fcntl.h>
#include <stdarg.h>
#include <sys/stat.h>
#include <sys/types.h>

int __real_openat(int dir, const char *name, int flags, ...);
int __real_fcntl(int fd, int what, ...);
long __real_syscall(long number, ...);

/* glibc before 2.33 calls fstat(2) and mknodat(2) by names of its own, in whose place nothing comes. */
#ifdef _MKNOD_VER
enum { WRAPS_ALL = 0 };
#else
enum { WRAPS_ALL = 1 };
#endif

#define WRAPPED(type, name, ...) type __real_##name(__VA_ARGS__); type __wrap_##name(__VA_ARGS__)

WRAPPED(int, close, int fd);
WRAPPED(int, fstat, int fd, struct stat *about);
WRAPPED(int, mkdirat, int dir, const char *name, mode_t mode);
WRAPPED(int, mknodat, int dir, const char *name, mode_t mode, dev_t dev);
WRAPPED(ssize_t, readlinkat, int dir, const char *name, char *text, size_t size);
WRAPPED(int, statx, int dir, const char *name, int flags, unsigned what, struct statx *about);
WRAPPED(int, unlinkat, int dir, const char *name, int flags);

/* INSTEAD(dir, name, flags, mode) in the place of openat(2). What makes nothing has no mode. */
#define INSTEAD_OF_OPENAT(INSTEAD)                                                        \
    int __wrap_openat(int dir, const char *name, int flags, ...);                         \
    int __wrap_openat(int dir, const char *name, int flags, ...)                          \
    {                                                                                     \
        va_list more;                                                                     \
        va_start(more, flags);                                                            \
        mode_t mode = flags & O_CREAT || (flags & O_TMPFILE) == O_TMPFILE                 \
                          ? va_arg(more, mode_t) : 0;                                     \
        va_end(more);                                                                     \
        return INSTEAD(dir, name, flags, mode);                                           \
    }

/* INSTEAD(fd, what, with) in the place of fcntl(2), which takes a number last. It takes one where none was handed in, too. */
#define INSTEAD_OF_FCNTL(INSTEAD)                                                         \
    int __wrap_fcntl(int fd, int what, ...);                                              \
    int __wrap_fcntl(int fd, int what, ...)                                               \
    {                                                                                     \
        va_list more;                                                                     \
        va_start(more, what);                                                             \
        int with = va_arg(more, int);                                                     \
        va_end(more);                                                                     \
        return INSTEAD(fd, what, with);                                                   \
    }

/* INSTEAD(number, with) in the place of syscall(2), with six arguments. It takes more than were handed in. */
#define INSTEAD_OF_SYSCALL(INSTEAD)                                                       \
    long __wrap_syscall(long number, ...);                                                \
    __attribute__((no_sanitize("address"))) long __wrap_syscall(long number, ...)         \
    {                                                                                     \
        long with[6];                                                                     \
        va_list more;                                                                     \
        va_start(more, number);                                                           \
        for (int one = 0; one < 6; one++)                                                 \
            with[one] = va_arg(more, long);                                               \
        va_end(more);                                                                     \
        return INSTEAD(number, with);                                                     \
    }

/* Counts in `made` how often the test's subject calls this function. */
#define COUNTED(type, name, parameters, arguments)               \
    type __real_##name parameters;                               \
    type __wrap_##name parameters;                               \
    type __wrap_##name parameters                                \
    {                                                            \
        made++;                                                  \
        return __real_##name arguments;                          \
    }

/* The system call itself. */
#define REAL_SYSCALL(number, with) __real_syscall(number, (with)[0], (with)[1], (with)[2], (with)[3], (with)[4], (with)[5])

#endif
