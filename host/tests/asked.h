/*
 * asked.h: the system calls of a call are counted, and somebody acts before one of them, or it fails.
 */
#ifndef ASKED_H
#define ASKED_H

#include "../openat2.h"
#include "support.h"
#include "wraps.h"

#include <errno.h>
#include <string.h>
#include <sys/stat.h>
#include <sys/syscall.h>
#include <sys/sysmacros.h>
#include <sys/vfs.h>
#include <time.h>

/* The second act, where there is one, comes so many system calls behind the first. */
struct act {
    const char *name;
    void (*first)(void), (*second)(void);
    int later;
    int fault;             /* that system call fails by this */
};

/* Each path that the kernel is to walk it doesn't, so that the steps do; and the numbers of inodes on this device tell nothing. */
static bool no_kernel_walk, lies;
static dev_t lied_about;

static bool counting;
/* Which function failed, and whether a call makes it once more after a signal. */
static const char *failed_call = "";
static bool repeats;
static int moment, moment_of_first, moment_of_second, changes, twice_closed;
static const struct act *acting;

/* From the first moment on no descriptor is left: each call that would give one fails by this, if it isn't zero. */
static int shortage;

static void begin_counting(void) { counting = true; }
static void end_counting(void) { counting = false; }

/* Of what kind each system call of a call was, the last time that it was counted: the function, and what it was about. */
struct kind {
    const char *function;
    long about;
};
enum { KINDS = 1024 };
static struct kind kinds[KINDS];

/* Whether this system call is the one that fails. */
#define ask() ask_of(__func__, 0)
static bool ask_of(const char *function, long about)
{
    if (!counting)
        return false;
    if (moment < KINDS)
        kinds[moment] = (struct kind){function, about};
    counting = false;
    int error = errno;
    moment++;
    if (moment == moment_of_first)
        acting->first();
    if (moment == moment_of_second && acting->second != NULL)
        acting->second();
    bool fails = acting->fault != 0 && moment == moment_of_first;
    if (fails)
        failed_call = function;
    errno = fails ? acting->fault : error;
    counting = true;
    return fails;
}

static bool is_short(void)
{
    bool fails = counting && shortage != 0 && moment >= moment_of_first;
    if (fails)
        errno = shortage;
    return fails;
}

#define BESIDE(type, name, parameters, arguments)                \
    type __real_##name parameters;                               \
    type __wrap_##name parameters;                               \
    type __wrap_##name parameters                                \
    {                                                            \
        return ask() ? -1 : __real_##name arguments;             \
    }

#define CHANGING(name, parameters, arguments)                    \
    int __real_##name parameters;                                \
    int __wrap_##name parameters;                                \
    int __wrap_##name parameters                                 \
    {                                                            \
        int failed = ask() ? -1 : __real_##name arguments;       \
        changes += counting && failed == 0;                      \
        return failed;                                           \
    }

int __wrap_fstat(int fd, struct stat *about)
{
    int failed = ask() ? -1 : __real_fstat(fd, about);
    if (lies && counting && about->st_dev == lied_about)
        about->st_ino = about->st_dev = 1;
    return failed;
}

BESIDE(int, fstatfs, (int fd, struct statfs *about), (fd, about))
int __wrap_statx(int dir, const char *name, int flags, unsigned what, struct statx *about)
{
    int failed = ask() ? -1 : __real_statx(dir, name, flags, what, about);
    if (lies && counting && makedev(about->stx_dev_major, about->stx_dev_minor) == lied_about)
        about->stx_ino = about->stx_dev_major = about->stx_dev_minor = 1;
    return failed;
}
BESIDE(int, fchmodat, (int dir, const char *name, mode_t mode, int how), (dir, name, mode, how))
BESIDE(int, fchownat, (int dir, const char *name, uid_t user, gid_t group, int how), (dir, name, user, group, how))
BESIDE(int, utimensat, (int dir, const char *name, const struct timespec *times, int how), (dir, name, times, how))
CHANGING(mkdirat, (int dir, const char *name, mode_t mode), (dir, name, mode))
CHANGING(mknodat, (int dir, const char *name, mode_t mode, dev_t dev), (dir, name, mode, dev))
CHANGING(symlinkat, (const char *text, int dir, const char *name), (text, dir, name))
CHANGING(linkat, (int dir, const char *name, int to, const char *new, int how), (dir, name, to, new, how))
CHANGING(unlinkat, (int dir, const char *name, int how), (dir, name, how))

static int my_fcntl(int fd, int what, int with)
{
    return ask() || (what == F_DUPFD_CLOEXEC && is_short()) ? -1 : __real_fcntl(fd, what, with);
}

INSTEAD_OF_FCNTL(my_fcntl)

int __wrap_close(int fd)
{
    bool fails = ask();
    int fault = errno, failed = __real_close(fd);
    twice_closed += counting && failed != 0 && errno == EBADF;
    if (fails)
        errno = fault;
    return fails ? -1 : failed;
}

/* Nobody waits here. */
int __wrap_nanosleep(const struct timespec *time, struct timespec *rest);
int __wrap_nanosleep(const struct timespec *time, struct timespec *rest)
{
    (void)time;
    (void)rest;
    return 0;
}

/* Of a descriptor that is open, or by a link in /proc, or of an entry. */
static long about_name(const char *name)
{
    return name[0] == 0 ? 1 : strcmp(name, ".") == 0 ? 2 : strcmp(name, "..") == 0 ? 3 : name[0] == 't' && name[1] == 'h' ? 4 : 5;
}

ssize_t __wrap_readlinkat(int dir, const char *name, char *text, size_t size)
{
    return ask_of(__func__, about_name(name)) ? -1 : __real_readlinkat(dir, name, text, size);
}

static int my_openat(int dir, const char *name, int how, mode_t mode)
{
    bool fails = ask_of(__func__, (how & (O_DIRECTORY | O_CREAT)) + about_name(name));
    repeats = fails && how & O_PATH;
    int fd = fails || is_short() ? -1 : __real_openat(dir, name, how, mode);
    changes += counting && fd >= 0 && (how & (O_CREAT | O_EXCL)) == (O_CREAT | O_EXCL);
    return fd;
}

INSTEAD_OF_OPENAT(my_openat)

static long my_syscall(long number, const long *with)
{
    const struct open_how *how = number == SYS_openat2 ? (const struct open_how *)with[2] : NULL;
    if (ask_of(__func__, how == NULL ? number : number + ((long)how->resolve << 16))) {
        repeats = number == SYS_getdents64 || (how != NULL && how->flags & O_PATH);
        return -1;
    }
    if (number == SYS_openat2 && is_short())
        return -1;
    if (no_kernel_walk && how != NULL && how->resolve & RESOLVE_IN_ROOT) {
        errno = EAGAIN;
        return -1;
    }
    long result = REAL_SYSCALL(number, with);
    changes += counting && result == 0 && number == SYS_renameat2;
    return result;
}

INSTEAD_OF_SYSCALL(my_syscall)

#endif
