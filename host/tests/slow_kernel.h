/*
 * slow_kernel.h: a kernel whose calls take their time, and others who move directories meanwhile, between any two
 * system calls of the driver or within one: openat2(2) looks up one name after another and at last where it is;
 * readlinkat(2) of a link in /proc looks first whether the object is gone and then for its names, as the kernel does.
 */
#ifndef SLOW_KERNEL_H
#define SLOW_KERNEL_H

#include "../openat2.h"
#include "support.h"
#include "wraps.h"

#include <errno.h>
#include <limits.h>
#include <string.h>
#include <sys/stat.h>
#include <sys/syscall.h>

/*
 * The text of a link in /proc in the two halves in which the kernel makes it (d_path() in fs/d_path.c): it looks whether the object
 * is gone, and takes its names after that. What has that ending counts as gone.
 */
static const char deleted[] = " (deleted)";

static bool is_called_gone(const char *text, ssize_t length)
{
    ssize_t tail = sizeof deleted - 1;
    return length > tail && memcmp(text + length - tail, deleted, (size_t)tail) == 0;
}

/* Somebody acts between both halves. */
static ssize_t read_in_halves(int dir, const char *name, char *text, size_t size, void (*acts)(void))
{
    bool was_gone = is_called_gone(text, __real_readlinkat(dir, name, text, size));
    acts();
    ssize_t length = __real_readlinkat(dir, name, text, size);
    return !was_gone && is_called_gone(text, length) ? length - (ssize_t)(sizeof deleted - 1) : length;
}

/* ---- others */

/* Where all this is; and /proc. */
static char where[PATH_MAX];
static int proc;

/* One after another, and again from the first on, at these moments of a call, which are counted from its beginning. */
enum { MOST = 4 };
struct moves {
    void (*each[MOST])(void);
    int count;
};
static const struct moves *moves;
static int moments[MOST], count_of_moments, next_move, moment;
/* The numbers of inodes tell nothing; and /proc lies. */
static bool lies, proc_lies;

static void ask(void)
{
    moment++;
    for (; next_move < count_of_moments && moments[next_move] == moment; next_move++)
        moves->each[next_move % moves->count]();
}

/* ---- a kernel whose calls take their time */

/* The path of what is in the outer directory becomes that of the inner one. */
static ssize_t tell_lie(char *text, size_t size, size_t length)
{
    char told[2 * PATH_MAX];
    size_t same = strlen(where);
    if (length < same + 2 || memcmp(text, where, same) != 0 || text[same + 1] != 'q')
        return (ssize_t)length;
    int all = snprintf(told, sizeof told, "%s/box%.*s", where, (int)length, text);
    length = (size_t)all < size ? (size_t)all : size;
    memcpy(text, told, length);
    return (ssize_t)length;
}

ssize_t __wrap_readlinkat(int dir, const char *name, char *text, size_t size)
{
    ask();
    ssize_t length = name[0] != 0 ? read_in_halves(dir, name, text, size, ask) : __real_readlinkat(dir, name, text, size);
    return length > 0 && proc_lies ? tell_lie(text, size, (size_t)length) : length;
}

static int my_openat(int dir, const char *name, int flags, mode_t mode)
{
    ask();
    return __real_openat(dir, name, flags, mode);
}

INSTEAD_OF_OPENAT(my_openat)

#ifdef STATX_INO

int __wrap_statx(int dir, const char *name, int flags, unsigned asked, struct statx *about)
{
    int result = __real_statx(dir, name, flags, asked, about);
    if (lies)
        about->stx_ino = about->stx_dev_major = about->stx_dev_minor = 1;
    return result;
}
#endif

static bool is_one(int fd, int other)
{
    struct stat a, b;
    return fstat(fd, &a) == 0 && fstat(other, &b) == 0 && a.st_ino == b.st_ino && a.st_dev == b.st_dev;
}

/* Whether `..` leads there from this directory, by as many as it takes. */
static bool is_under(int top, int dir)
{
    int at_last = fcntl(dir, F_DUPFD_CLOEXEC, 0);
    for (;;) {
        bool found = is_one(top, at_last);
        int above = __real_openat(at_last, "..", O_PATH | O_DIRECTORY | O_CLOEXEC);
        bool ends = found || above < 0 || is_one(above, at_last);
        close(at_last);
        at_last = above;
        if (!ends)
            continue;
        close(above);
        return found;
    }
}

static bool is_gone(int fd)
{
    char name[48], text[PATH_MAX];
    snprintf(name, sizeof name, "thread-self/fd/%d", fd);
    return is_called_gone(text, __real_readlinkat(proc, name, text, sizeof text));
}

/* Where it was found in a directory: what is gone counts as in that one still, and what was moved is outside here. */
static bool is_below(int top, int dir, const char *name, int fd)
{
    int now = __real_openat(dir, name, O_PATH | O_NOFOLLOW | O_CLOEXEC);
    bool is_there = is_gone(fd) || (now >= 0 && is_one(now, fd));
    if (now >= 0)
        close(now);
    return is_there && is_under(top, dir);
}

/* Names one after another, through no link; under RESOLVE_BENEATH it is seen at last where the last one is. */
static long look_up(int top, const char *names, const struct open_how *how)
{
    char text[PATH_MAX], *rest = text, *part, *last = text;
    int dir = -1, fd = __real_openat(top, ".", O_PATH | O_DIRECTORY | O_CLOEXEC);
    strcpy(text, names);
    while (fd >= 0 && (part = strsep(&rest, "/")) != NULL) {
        int flags = rest != NULL ? O_DIRECTORY : (int)how->flags & O_DIRECTORY;
        ask();
        close(dir);
        dir = fd;
        last = part;
        fd = __real_openat(dir, part, O_PATH | O_NOFOLLOW | O_CLOEXEC | flags);
    }
    int error = fd < 0 ? errno : 0;
    ask();
    if (error == 0 && how->resolve & RESOLVE_BENEATH && !is_below(top, dir, last, fd))
        error = EXDEV;
    close(dir);
    if (error != 0 && fd >= 0)
        close(fd);
    ask();
    errno = error;
    return error != 0 ? -1 : fd;
}

/* One name, or `..`, takes one moment. */
static long my_syscall(long number, const long *with)
{
    const struct open_how *how = (const struct open_how *)with[2];
    if (number == SYS_openat2 && how->resolve & RESOLVE_BENEATH)
        return look_up((int)with[0], (const char *)with[1], how);
    if (number == SYS_openat2)
        ask();
    return REAL_SYSCALL(number, with);
}

INSTEAD_OF_SYSCALL(my_syscall)

#endif
