/*
 * differ: where the calls answer otherwise than openat2(2) on a real file system, as docs/LINUX.md lists it, and the kernel.
 *
 * usage: differ DIR. Exits 0 where both are as listed. 77: no openat2(2) here. 78: no right to mount here,
 * or to become nobody.
 */
#define _GNU_SOURCE
#include "../openat2.h"
#include "support.h"

#include <errno.h>
#include <string.h>
#include <sys/stat.h>
#include <sys/syscall.h>

static const char *where;

static int by_kernel(int root, const char *path, int flags)
{
    struct open_how how = {.flags = (unsigned)flags, .mode = flags & O_CREAT ? 0600 : 0, .resolve = RESOLVE_IN_ROOT};
    long fd;
    /* A rename anywhere on the machine may refuse `..`. */
    do
        fd = syscall(SYS_openat2, root, path, &how, sizeof how);
    while (fd < 0 && errno == EAGAIN);
    return fd < 0 ? -errno : (int)fd;
}

/* What each gives: an error, or 0 where something was opened. */
static void each(int root, const char *path, int kernel, int exact, int here)
{
    int one = by_kernel(root, path, O_PATH), other = inroot_open(root, path, INROOT_EXACT), third = inroot_open(root, path, 0);
    gives((one < 0 ? one : 0), kernel, "%s by openat2(2)", path);
    gives((other < 0 ? other : 0), exact, "%s by inroot_open() with INROOT_EXACT", path);
    gives((third < 0 ? third : 0), here, "%s by inroot_open()", path);
}

static void both(int root, const char *path, int kernel, int here)
{
    each(root, path, kernel, here, here);
}

static void links(void)
{
    int root = sure(open(where, O_PATH | O_DIRECTORY | O_CLOEXEC), where);
    sure(symlinkat("nowhere", root, "dangling"), "dangling");
    sure(mkdirat(root, "made", 0755), "made");
    sure(mknodat(root, "g (deleted)", S_IFREG | 0600, 0), "g");
    each(root, "g (deleted)", 0, -EAGAIN, 0);
    both(root, "dangling", -ENOENT, -ENOENT);
    gives(inroot_mknod(root, "dangling", S_IFREG | 0644, 0, 0), -EEXIST, "a file at a dangling link");
    gives(by_kernel(root, "dangling", O_CREAT | O_EXCL | O_WRONLY), -EEXIST, "the kernel's O_EXCL at a dangling link");
    gives(inroot_mkdir_all(root, "dangling", 0755, 0), -ENOENT, "directories at a dangling link");
    gives(inroot_mkdir_all(root, "made/../dangling/x", 0755, 0), -ENOENT, "directories below a dangling link");
    gives(faccessat(root, "nowhere", F_OK, 0), -1, "what would be made through a dangling link");
    gives_fd(by_kernel(root, "dangling", O_CREAT | O_WRONLY), "the kernel's O_CREAT at a dangling link");
    gives(faccessat(root, "nowhere", F_OK, 0), 0, "what the kernel made through a dangling link");
}

/* Root may search everything: it becomes nobody. */
static void be_a_user(void)
{
    if (geteuid() == 0 && seteuid(65534) != 0)
        _exit(NO_RIGHT);
}

/* The kernel opens a root that may not be searched, but not the `.` of such a directory below it. */
static void shut_directories(void)
{
    int root = sure(open(where, O_PATH | O_DIRECTORY | O_CLOEXEC), where);
    uid_t user = geteuid();
    sure(mkdirat(root, "shut", 0), "shut");
    be_a_user();
    both(root, "shut", 0, 0);
    both(root, "shut/", 0, 0);
    both(root, "shut/.", -EACCES, 0);
    both(root, "shut/..", -EACCES, -EACCES);
    sure(seteuid(user), "seteuid");
    sure(chmod(where, 0), where);
    be_a_user();
    each(root, "/", 0, -EACCES, -EACCES);
}

static void magic_links(void)
{
    own_mounts_or_end();
    int base = sure(open(where, O_PATH | O_DIRECTORY | O_CLOEXEC), where);
    sure(fchdir(base), where);
    sure(mkdir("proc", 0755), "proc");
    if (mount("proc", "proc", "proc", 0, NULL) != 0)
        _exit(NO_RIGHT);
    both(base, "proc/self/exe", -EXDEV, -ELOOP);
    both(base, "proc/self/root/x", -EXDEV, -ELOOP);
    both(base, "proc/self/status", 0, 0);
    both(base, "proc/thread-self", 0, 0);
}

/* Deeper than a path is long. */
static void deep(void)
{
    int root = sure(open(where, O_PATH | O_DIRECTORY | O_CLOEXEC), where);
    int dir = fcntl(root, F_DUPFD_CLOEXEC, 0);
    char name[201] = "", path[4000] = "";
    memset(name, 'n', 200);
    for (int at = 0; at < 30; at++) {
        sure(mkdirat(dir, name, 0755), name);
        int next = sure(openat(dir, name, O_PATH | O_DIRECTORY | O_CLOEXEC), name);
        close(dir);
        dir = next;
        if (at == 15)
            sure(symlinkat("..", dir, "up"), "up");
    }
    for (int at = 0; at < 15; at++)
        strcat(strcat(path, at > 0 ? "/" : ""), name);
    int half = sure(inroot_open(root, path, 0), "half of the way");
    /* The kernel's walk asks for no path. */
    each(half, path, 0, -ENAMETOOLONG, 0);
    gives(inroot_remove_all(root, name, 0), 31, "what is deeper than a path is long");
}

int main(int count, char **words)
{
    static void (*const parts[])(void) = {links, deep, magic_links, shut_directories};
    int skipped = 0;
    if (count != 2)
        return 2;
    if (!has_openat2())
        return NO_OPENAT2;
    where = words[1];
    sure(chmod(where, 0755), where);
    for (size_t at = 0; at < sizeof parts / sizeof *parts; at++) {
        int status = apart(parts[at]);
        skipped = status ? status : skipped;
    }
    sure(chmod(where, 0755), where);
    printf("differ: %d not as they are to be\n", wrong);
    return wrong ? 1 : skipped;
}
