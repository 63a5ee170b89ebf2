/*
 * proc: a /proc that is no proc(5), one whose mount follows no link, one that somebody covers later, one that the
 * program hands in, and one that the program has closed. In a mount namespace of the test's own.
 *
 * usage: proc DIR. Exits 0 where each call says so. 78: no right to mount here.
 */
#define _GNU_SOURCE
#include "support.h"

#include <errno.h>
#include <fcntl.h>
#include <limits.h>
#include <string.h>
#include <sys/vfs.h>
#include <linux/magic.h>
#include <sys/stat.h>

static int root, good;
static char where[PATH_MAX + 8];

/* A file system at /proc whose links say whatever is wanted: for each number the file f below the root, and for the root it. */
static void cover(bool lies)
{
    static const char *const dirs[] = {"/proc/self", "/proc/self/fd", "/proc/thread-self", "/proc/thread-self/fd"};
    char link[64], target[PATH_MAX + 16];
    own_mounts_or_end();
    if (mount("none", "/proc", "tmpfs", 0, NULL) != 0)
        _exit(NO_RIGHT);
    for (size_t at = 0; lies && at < sizeof dirs / sizeof *dirs; at++) {
        sure(mkdir(dirs[at], 0755), dirs[at]);
        for (int fd = 0; at % 2 == 1 && fd < 64; fd++) {
            snprintf(link, sizeof link, "%s/%d", dirs[at], fd);
            snprintf(target, sizeof target, "%s%s", where, fd == root ? "" : "/f");
            sure(symlink(target, link), link);
        }
    }
}

/* What asks /proc to open once more, for second names and for places gives ENOSYS, and has made nothing. */
static void no_use(const char *why)
{
    struct stat about;
    int fd = sure(openat(root, "f", O_PATH | O_CLOEXEC), "f");
    gives(inroot_reopen(fd, O_RDONLY), -ENOSYS, "a file once more %s", why);
    gives(inroot_fchmod(fd, 0600), -ENOSYS, "the mode of a file %s", why);
    gives(inroot_open(root, "f", INROOT_EXACT), -ENOSYS, "a file %s", why);
    gives(inroot_openat(root, "f", O_RDONLY, 0, INROOT_EXACT), -ENOSYS, "a file to be read %s", why);
    gives_fd(inroot_openat(root, "f", O_RDONLY, 0, 0), "a file to be read, by the kernel's walk, %s", why);
    gives_fd(inroot_openat(root, "new", O_RDWR | O_CREAT, 0600, INROOT_EXACT), "a new file in the root itself %s", why);
    gives(inroot_openat(root, "a/new", O_RDWR | O_CREAT, 0600, INROOT_EXACT), -ENOSYS, "a new file %s", why);
    gives(inroot_link_fd(root, fd, "g", 0), -ENOSYS, "a second name %s", why);
    gives(inroot_link(root, "f", "g", 0), -ENOSYS, "a second name of what is found %s", why);
    gives(inroot_stat(root, "f", &about, INROOT_EXACT), -ENOSYS, "what stands there %s", why);
    gives(inroot_proc_open(INROOT_PROC_SELF, "comm", O_RDONLY), -ENOSYS, "a file of it %s", why);
    gives(faccessat(root, "g", F_OK, 0), -1, "g, asked for, %s", why);
    gives(faccessat(root, "a/new", F_OK, 0), -1, "a/new, asked for, %s", why);
    sure(unlinkat(root, "new", 0), "new");
    close(fd);
}

/* A program that closes what it didn't open closes /proc, too. */
static void close_proc(void)
{
    struct statfs about;
    for (int fd = 3; fd < 64; fd++)
        if (fstatfs(fd, &about) == 0 && about.f_type == PROC_SUPER_MAGIC)
            close(fd);
}

static void no_proc(void)
{
    cover(false);
    no_use("without /proc");
    gives(inroot_mkdir(root, "a/x", 0755, INROOT_EXACT), -ENOSYS, "a directory without /proc");
    gives(inroot_open(root, "none", INROOT_EXACT), -ENOENT, "what isn't there, without /proc");
}

static void forged(void)
{
    cover(true);
    no_use("by a /proc that is none");
    gives(inroot_open(root, "a/../f", INROOT_EXACT), -ENOSYS, "a file after `..` by a /proc that is none");
}

static void handed_in(void)
{
    cover(true);
    gives(inroot_use_proc(999), -EBADF, "a /proc that isn't open");
    gives(inroot_use_proc(root), -EINVAL, "a /proc that is another directory");
    int file = sure(openat(good, "version", O_PATH | O_CLOEXEC), "version");
    gives(inroot_use_proc(file), -ENOTDIR, "a file of a /proc");
    close(file);
    gives(inroot_use_proc(good), 0, "a /proc");
    gives(inroot_use_proc(good), -EBUSY, "a second /proc");
    close(good);
    gives_fd(inroot_open(root, "f", INROOT_EXACT), "a file by the /proc that was handed in");
    gives_fd(inroot_openat(root, "f", O_RDWR, 0, INROOT_EXACT), "a file to be used by the /proc that was handed in");
    close_proc();
    no_use("by a /proc that was handed in and closed");
}

/* Opened while it was one, and covered later: what is open stays what it is. */
static void covered_later(void)
{
    gives_fd(inroot_open(root, "f", INROOT_EXACT), "a file");
    cover(true);
    gives_fd(inroot_open(root, "f", INROOT_EXACT), "a file by a /proc that was opened before");
}

/* It is a proc(5), but on a mount where no link of it is followed (nosymfollow, Linux 5.10). */
static void follows_none(void)
{
    enum { NOSYMFOLLOW = 256, ST_FOLLOWS_NONE = 0x2000 };
    struct statfs about;
    const unsigned long flags = MS_REMOUNT | MS_BIND | MS_NOSUID | MS_NODEV | MS_NOEXEC | NOSYMFOLLOW;
    own_mounts_or_end();
    if (mount(NULL, "/proc", NULL, flags, NULL) != 0 || statfs("/proc", &about) != 0 || !(about.f_flags & ST_FOLLOWS_NONE))
        _exit(NO_RIGHT);
    no_use("by a /proc that follows no link");
    gives(inroot_use_proc(good), 0, "another mount of it");
    gives_fd(inroot_open(root, "f", INROOT_EXACT), "a file by another mount of it");
}

/* Below another directory of a proc(5) there is no thread-self. */
static void not_its_top(void)
{
    int below = sure(open("/proc/sys", O_PATH | O_DIRECTORY | O_CLOEXEC), "/proc/sys");
    gives(inroot_use_proc(below), 0, "a directory of /proc");
    no_use("by a directory of /proc");
}

int main(int count, char **words)
{
    static void (*const parts[])(void) = {
        no_proc, forged, handed_in, covered_later, not_its_top, follows_none,
    };
    if (count != 2)
        return 2;
    root = sure(open(words[1], O_PATH | O_DIRECTORY | O_CLOEXEC), words[1]);
    if (realpath(words[1], where) == NULL)
        return 1;
    sure(mknodat(root, "f", S_IFREG | 0600, 0), "f");
    sure(mkdirat(root, "a", 0755), "a");
    sure(mknodat(root, "a/g", S_IFREG | 0600, 0), "a/g");
    good = sure(open("/proc", O_PATH | O_DIRECTORY | O_CLOEXEC), "/proc");
    int skipped = 0;
    for (size_t at = 0; at < sizeof parts / sizeof *parts; at++)
        skipped |= apart(parts[at]) == NO_RIGHT;
    printf("proc: %d not as they are to be\n", wrong);
    return wrong != 0 ? 1 : skipped ? NO_RIGHT : 0;
}
