/*
 * far_errors: a system call of a step fails by any number up to 4095, also by one that isn't told in a byte: the call
 * gives just this, at its first try.
 *
 * usage: far_errors DIR. Exits 0 where that holds.
 */
#define _GNU_SOURCE
#include "support.h"
#include "wraps.h"

#include <errno.h>
#include <fcntl.h>
#include <string.h>
#include <sys/stat.h>

/* By which each such call on the name `x` fails, and how many did. */
static int error;
static unsigned failed;

static bool fails(const char *name)
{
    if (error == 0 || strcmp(name, "x") != 0)
        return false;
    failed++;
    errno = error;
    return true;
}

static int my_openat(int dir, const char *name, int flags, mode_t mode)
{
    return fails(name) ? -1 : __real_openat(dir, name, flags, mode);
}

INSTEAD_OF_OPENAT(my_openat)

int __wrap_mkdirat(int dir, const char *name, mode_t mode)
{
    return fails(name) ? -1 : __real_mkdirat(dir, name, mode);
}

int __wrap_mknodat(int dir, const char *name, mode_t mode, dev_t dev)
{
    return fails(name) ? -1 : __real_mknodat(dir, name, mode, dev);
}

int __wrap_unlinkat(int dir, const char *name, int flags)
{
    return fails(name) ? -1 : __real_unlinkat(dir, name, flags);
}

/* ENOTSUPP, EBADHANDLE and others of the kernel's own, and those whose last byte is ENOENT, EAGAIN, ENOMEM, EEXIST. */
static const int numbers[] = {133, 255, 256, 258, 267, 268, 273, 276, 511, 512, 515, 521, 524, 527, 1024, 4095};

static int call(int root, int which)
{
    switch (which) {
    case 0: return inroot_open(root, "a/x", INROOT_EXACT);
    case 1: return inroot_openat(root, "a/x", O_WRONLY | O_CREAT | O_EXCL, 0600, 0);
    case 2: return inroot_mkdir(root, "a/x", 0755, 0);
    case 3: return inroot_mknod(root, "a/x", S_IFREG | 0644, 0, 0);
    case 4: return inroot_unlink(root, "a/x", 0);
    case 5: return inroot_rmdir(root, "a/x", 0);
    case 6: return inroot_mkdir_all(root, "a/x/y", 0755, INROOT_EXACT);
    default: return (int)inroot_remove_all(root, "a/x", 0);
    }
}

int main(int count, char **words)
{
    if (count != 2)
        return 2;
    if (!WRAPS_ALL)
        return NO_WRAP;
    int root = sure(open(words[1], O_PATH | O_DIRECTORY | O_CLOEXEC), words[1]);
    sure(mkdirat(root, "a", 0755), "a");
    open_proc();
    int before = open_descriptors();
    for (size_t at = 0; at < sizeof numbers / sizeof *numbers; at++)
        for (int which = 0; which < 8; which++) {
            struct inroot_error why = {0};
            failed = 0;
            error = numbers[at];
            int got = call(root, which);
            error = 0;
            gives(got, -numbers[at], "call %d by error %d", which, numbers[at]);
            gives(inroot_last_error(&why), 0, "call %d by error %d: its last error", which, numbers[at]);
            gives(why.error, numbers[at], "call %d by error %d: the error told", which, numbers[at]);
            gives(failed, 1, "call %d by error %d: tries", which, numbers[at]);
        }
    gives(open_descriptors(), before, "open descriptors");
    printf("far_errors: %d not as they are to be\n", wrong);
    return wrong != 0;
}
