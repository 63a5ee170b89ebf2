/*
 * magic: which links are followed below the root `/` with its proc(5): along a text, and none of the kernel's own.
 * openat2(2) with RESOLVE_IN_ROOT and RESOLVE_NO_MAGICLINKS says the same, and comes to the same objects. And if the
 * kernel can't say which kind a link is, by any error, or since no descriptor is left or the object is gone just then,
 * no call follows the link.
 *
 * usage: magic DIR. Exits 0 where that holds. 77: no openat2(2) here.
 */
#define _GNU_SOURCE
#include "support.h"
#include "wraps.h"

#include <string.h>
#include <sys/resource.h>
#include <sys/stat.h>

static int root;

static const char *const paths[] = {
    "proc/self/root", "proc/self/root/proc", "proc/self/cwd", "proc/self/exe", "proc/thread-self/fd/0", "proc/self/ns/mnt",
    "proc/self/ns/mnt/x", "proc/self/task/../cwd/x", "proc/self/fd/../root",
    /* Links along a text. */
    "proc/self/comm", "proc/thread-self/comm", "proc/mounts", "proc/net/dev", "proc/self/root/..", "proc/self/../version",
};
enum { PATHS = sizeof paths / sizeof *paths };

/* Behind `..` it gives EAGAIN, too, if somebody has renamed anything on the machine meanwhile. */
static int by_kernel(const char *path, uint64_t flags)
{
    const struct open_how how = {.flags = flags | O_PATH | O_CLOEXEC, .resolve = RESOLVE_IN_ROOT | RESOLVE_NO_MAGICLINKS};
    int fd;
    do
        fd = (int)syscall(SYS_openat2, root, path, &how, sizeof how);
    while (fd < 0 && errno == EAGAIN);
    return fd < 0 ? -errno : fd;
}

static void agrees(const char *path, int flags)
{
    const bool nofollow = flags & INROOT_NOFOLLOW;
    struct stat a, b;
    int mine = inroot_open(root, path, flags), kernels = by_kernel(path, nofollow ? O_NOFOLLOW : 0);
    if (mine < 0 || kernels < 0) {
        expect(mine == kernels, "%s with %d: %d, and by the kernel %d", path, flags, mine, kernels);
    } else {
        sure(fstat(mine, &a), "fstat");
        sure(fstat(kernels, &b), "fstat");
        expect(a.st_dev == b.st_dev && a.st_ino == b.st_ino, "%s with %d: another than the kernel's", path, flags);
    }
    if (mine >= 0)
        close(mine);
    if (kernels >= 0)
        close(kernels);
}

static void each(void)
{
    char text[64];
    int before = open_descriptors();
    for (int one = 0; one < PATHS; one++) {
        agrees(paths[one], way);
        agrees(paths[one], way | INROOT_NOFOLLOW);
    }
    /* A link that is read, or removed, isn't followed. */
    gives_least(inroot_readlink(root, "proc/self/root", way, text, sizeof text), 1, "its text");
    gives(inroot_readlink(root, "proc/self/cwd/x", way, text, sizeof text), -ELOOP, "a text behind one");
    gives(inroot_mkdir(root, "proc/self/cwd/x", 0700, way), -ELOOP, "a directory behind one");
    gives(inroot_mkdir_all(root, "proc/self/cwd/x/y", 0700, way | INROOT_FOLLOW), -ELOOP, "directories behind one");
    gives(inroot_openat(root, "proc/self/exe", O_RDONLY, 0, way), -ELOOP, "to be read");
    gives(inroot_openat(root, "proc/self/cwd/x", O_RDWR | O_CREAT, 0600, way), -ELOOP, "to be made behind one");
    gives(inroot_remove_all(root, "proc/self/cwd/x", way), -ELOOP, "a tree behind one");
    gives(inroot_rename(root, "proc/self/cwd/x", "tmp/x", 0, way), -ELOOP, "to be renamed from behind one");
    gives(inroot_rename(root, "none", "proc/self/cwd/x", 0, way), -ELOOP, "to be renamed to behind one");
    expect(open_descriptors() == before, "%d descriptors are left", open_descriptors() - before);
}

/* ---- the kernel can't say of which kind a link is */

enum { GONE = 700 };

static int refusal, kept_open;
static bool is_away;

/* The question is about a name, through which it leads nowhere. A link's object may be gone just as it is asked. */
static long my_syscall(long number, const long *with)
{
    const struct open_how *how = number == SYS_openat2 ? (const struct open_how *)with[2] : NULL;
    const bool is_question = how != NULL && how->resolve == (RESOLVE_BENEATH | RESOLVE_NO_MAGICLINKS);
    if (is_question && refusal != 0) {
        errno = refusal;
        return -1;
    }
    const bool goes = is_question && is_away && strcmp((const char *)with[1], "700") == 0;
    if (goes)
        close(GONE);
    long result = REAL_SYSCALL(number, with);
    int error = errno;
    if (goes)
        sure(dup2(kept_open, GONE), "dup2");
    errno = error;
    return result;
}

INSTEAD_OF_SYSCALL(my_syscall)

static void gives_no_object(const char *path, int flags, int due, const char *what)
{
    int fd = inroot_open(root, path, flags | INROOT_NO_RETRY);
    if (due != 0)
        gives(fd, due, "%s, flags %d, %s", path, flags, what);
    expect(fd < 0, "%s, flags %d, %s: followed", path, flags, what);
    if (fd >= 0)
        close(fd);
}

/* By these errors the kernel says that it has read a text. EINTR has the call ask again. */
static bool tells_of_a_text(int error)
{
    return error == EXDEV || error == ENOTDIR || error == ENAMETOOLONG || error == EINTR;
}

static void by_errors(void)
{
    char what[64];
    for (refusal = 1; refusal < 134; refusal++) {
        snprintf(what, sizeof what, "error %d", refusal);
        if (!tells_of_a_text(refusal))
            gives_no_object("proc/self/cwd", way, refusal == EPERM || refusal == ENOSYS ? -ELOOP : -refusal, what);
    }
    refusal = 0;
}

static void by_few_descriptors(void)
{
    struct rlimit limit, less;
    char what[64];
    sure(getrlimit(RLIMIT_NOFILE, &limit), "getrlimit");
    for (int left = 0; left < 8; left++) {
        less = limit;
        less.rlim_cur = (rlim_t)take_gaps(root) + (rlim_t)left;
        sure(setrlimit(RLIMIT_NOFILE, &less), "setrlimit");
        snprintf(what, sizeof what, "%d descriptors are left", left);
        gives_no_object("proc/self/cwd", way, 0, what);
        gives_no_object("proc/self/root/proc", way, 0, what);
        sure(setrlimit(RLIMIT_NOFILE, &limit), "setrlimit");
    }
}

static void by_what_is_gone(void)
{
    kept_open = sure(open(".", O_PATH | O_CLOEXEC), ".");
    sure(dup2(root, GONE), "dup2");
    gives_no_object("proc/self/fd/700", way, -ELOOP, "while it is there");
    is_away = true;
    gives_no_object("proc/self/fd/700", way, -ENOENT, "while it is gone");
    is_away = false;
}

static void unsaid(void)
{
    by_errors();
    by_what_is_gone();
    by_few_descriptors();
}

/* A directory with magic links as the root. */
static void in_proc(void)
{
    root = sure(open("/proc/self", O_PATH | O_DIRECTORY | O_CLOEXEC), "/proc/self");
    gives(inroot_open(root, "cwd", way), -ELOOP, "a magic link in the root");
    gives_fd(inroot_open(root, "cwd", way | INROOT_NOFOLLOW), "itself");
}

int main(int count, char **words)
{
    if (count != 2 || chdir(words[1]) != 0)
        return 2;
    if (!has_openat2())
        return NO_OPENAT2;
    root = sure(open("/", O_PATH | O_DIRECTORY | O_CLOEXEC), "/");
    open_proc();
    for (way = 0; way <= INROOT_EXACT; way += INROOT_EXACT) {
        apart(each);
        apart(in_proc);
        apart(unsaid);
    }
    printf("magic: %d not as they are to be\n", wrong);
    return wrong != 0;
}
