/*
 * attributes: mode, owner, times and extended attributes of a file, a directory, a link, a FIFO, a socket and a device:
 * by /proc, without /proc, and by another proc(5); with this kernel's system calls, and without the newer ones, which
 * the kernel lacks or a filter refuses. The object that a link leads to doesn't change.
 *
 * usage: attributes DIR. Exits 0 where each case holds. 78: no right here to do what it takes, or a part of it.
 */
#define _GNU_SOURCE
#include "support.h"
#include "wraps.h"

#include <errno.h>
#include <limits.h>
#include <string.h>
#include <sys/stat.h>
#include <sys/syscall.h>
#include <sys/sysmacros.h>
#include <sys/vfs.h>
#include <sys/xattr.h>
#include <time.h>

enum { SET_AT = 463, REMOVE_AT = 466, DEVICE = 5 };

/* What is found below the root, and a file outside to which a link leads. */
static const char *const names[] = {"file", "dir", "link", "fifo", "socket", "device"};
static int base, root, outside;
static char at[PATH_MAX];
static bool lacks_right, has_devices, may_give, has_trusted, has_user;

/* How an older kernel refuses to take a name for attributes; 0 where it doesn't. And how often it took one. */
static int refuses;
static int by_number;

/* How many system calls were made. */
static volatile int made;
COUNTED(int, fstat, (int fd, struct stat *about), (fd, about))
COUNTED(int, statx, (int dir, const char *name, int flags, unsigned mask, struct statx *about), (dir, name, flags, mask, about))
COUNTED(int, fstatfs, (int fd, struct statfs *about), (fd, about))
COUNTED(int, fchmodat, (int dir, const char *name, mode_t mode, int flags), (dir, name, mode, flags))
COUNTED(int, fchownat, (int dir, const char *name, uid_t user, gid_t group, int flags), (dir, name, user, group, flags))
COUNTED(int, utimensat, (int dir, const char *name, const struct timespec times[2], int flags), (dir, name, times, flags))
COUNTED(ssize_t, getxattr, (const char *path, const char *name, void *value, size_t size), (path, name, value, size))

static long my_syscall(long number, const long *with)
{
    made++;
    if (number >= SET_AT && number <= REMOVE_AT && refuses != 0) {
        errno = refuses;
        return -1;
    }
    by_number += number >= SET_AT && number <= REMOVE_AT;
    return REAL_SYSCALL(number, with);
}

INSTEAD_OF_SYSCALL(my_syscall)

static void make_tree(void)
{
    sure(mkdirat(base, "root", 0755), "root");
    root = sure(openat(base, "root", O_PATH | O_DIRECTORY | O_CLOEXEC), "root");
    outside = sure(openat(base, "outside", O_RDWR | O_CREAT | O_CLOEXEC, 0640), "outside");
    close(sure(openat(root, "file", O_RDWR | O_CREAT | O_CLOEXEC, 0600), "file"));
    sure(mkdirat(root, "dir", 0700), "dir");
    sure(symlinkat("../outside", root, "link"), "link");
    sure(mknodat(root, "fifo", S_IFIFO | 0600, 0), "fifo");
    sure(mknodat(root, "socket", S_IFSOCK | 0600, 0), "socket");
    has_devices = mknodat(root, "device", S_IFCHR | 0600, makedev(1, 3)) == 0;
    may_give = fchownat(root, "file", 12, 34, 0) == 0;
    has_trusted = fsetxattr(outside, "trusted.outside", "o", 1, 0) == 0;
    has_user = fsetxattr(outside, "user.outside", "o", 1, 0) == 0;
    lacks_right = !has_devices || !may_give || !has_trusted || !has_user;
}

static int found(const char *name)
{
    int fd = inroot_open(root, name, INROOT_NOFOLLOW);
    expect(fd >= 0, "%s is found: %d", name, fd);
    return fd;
}

static struct stat about(int fd)
{
    struct stat it = {0};
    sure(fstat(fd, &it), "fstat");
    return it;
}

static void step_is(const char *step)
{
    struct inroot_error error;
    expect(inroot_last_error(&error) == 0 && strcmp(error.step, step) == 0, "the step is %s", step);
}

/* ---- each kind */

static void try_mode(int fd, const char *name, bool is_link)
{
    mode_t before = about(fd).st_mode;
    gives(inroot_fchmod(fd, 04751), is_link ? -EOPNOTSUPP : 0, "the mode of %s", name);
    mode_t wanted = is_link ? before : (before & S_IFMT) | 04751;
    gives(about(fd).st_mode, wanted, "%s has it", name);
    if (is_link)
        step_is("Attribute");
    gives(inroot_fchmod(fd, 0), is_link ? -EOPNOTSUPP : 0, "no bits for %s", name);
    /* Attributes of a user need the right to read and write. */
    gives(inroot_fchmod(fd, 0700), is_link ? -EOPNOTSUPP : 0, "bits again for %s", name);
}

static void try_owner(int fd, const char *name)
{
    uid_t user = may_give ? 1234 : geteuid();
    gid_t group = may_give ? 5678 : getegid();
    gives(inroot_fchown(fd, user, group), 0, "the owner of %s", name);
    expect(about(fd).st_uid == user && about(fd).st_gid == group, "%s has it", name);
    gives(inroot_fchown(fd, (uid_t)-1, getegid()), 0, "the group alone of %s", name);
    expect(about(fd).st_uid == user && about(fd).st_gid == getegid(), "%s has that", name);
}

static void times_are(int fd, time_t read, long read_part, time_t changed, long changed_part, const char *name)
{
    struct stat it = about(fd);
    expect(it.st_atim.tv_sec == read && it.st_atim.tv_nsec == read_part && it.st_mtim.tv_sec == changed &&
               it.st_mtim.tv_nsec == changed_part,
           "%s has the times %ld.%ld, %ld.%ld", name, (long)it.st_atim.tv_sec, it.st_atim.tv_nsec,
           (long)it.st_mtim.tv_sec, it.st_mtim.tv_nsec);
}

static void try_times(int fd, const char *name)
{
    const struct timespec times[2] = {{11, 12}, {13, 14}};
    const struct timespec one[2] = {{.tv_nsec = UTIME_OMIT}, {15, 999999999}};
    const struct timespec none[2] = {{1, 1000000000}, {1, 1}};
    gives(inroot_futimens(fd, times), 0, "the times of %s", name);
    times_are(fd, 11, 12, 13, 14, name);
    gives(inroot_futimens(fd, one), 0, "one time of %s", name);
    times_are(fd, 11, 12, 15, 999999999, name);
    gives(inroot_futimens(fd, none), -EINVAL, "no times of %s", name);
    times_are(fd, 11, 12, 15, 999999999, name);
    time_t now = time(NULL);
    gives(inroot_futimens(fd, NULL), 0, "now for %s", name);
    expect(about(fd).st_mtim.tv_sec >= now - 1 && about(fd).st_atim.tv_sec >= now - 1, "%s has the present time", name);
}

static void try_attribute(int fd, const char *name, const char *key)
{
    char value[8] = "";
    gives(inroot_fgetxattr(fd, key, value, sizeof value), -ENODATA, "no %s of %s", key, name);
    gives(inroot_fsetxattr(fd, key, "one", 3, XATTR_REPLACE), -ENODATA, "what isn't there is replaced");
    gives(inroot_fsetxattr(fd, key, "one", 3, XATTR_CREATE), 0, "%s of %s", key, name);
    gives(inroot_fsetxattr(fd, key, "one", 3, XATTR_CREATE), -EEXIST, "%s of %s once more", key, name);
    gives(inroot_fgetxattr(fd, key, value, sizeof value), 3, "%s of %s is asked", key, name);
    expect(memcmp(value, "one", 3) == 0, "%s of %s is what was set", key, name);
    gives(inroot_fgetxattr(fd, key, value, 0), 3, "the length alone");
    gives(inroot_fgetxattr(fd, key, value, 2), -ERANGE, "too little room");
    memset(value, 0, sizeof value);
    gives(inroot_fgetxattr(fd, key, value, (size_t)1 << 33), 3, "room beyond what a number of 32 bits counts");
    expect(memcmp(value, "one", 4) == 0, "%s of %s is written there", key, name);
    gives(inroot_fsetxattr(fd, key, "more", 4, 0), 0, "another value");
    gives(inroot_fgetxattr(fd, key, value, sizeof value), 4, "is as long as it is");
}

/* The names, a NUL behind each. */
static bool has_name(int fd, const char *key)
{
    char list[4096];
    ssize_t length = inroot_flistxattr(fd, list, sizeof list);
    gives(inroot_flistxattr(fd, NULL, 0), length, "the length of the names");
    for (ssize_t from = 0; from < length; from += (ssize_t)strlen(list + from) + 1)
        if (strcmp(list + from, key) == 0)
            return true;
    return false;
}

static void try_attributes(int fd, const char *name, const char *key)
{
    expect(!has_name(fd, key), "%s has no %s yet", name, key);
    try_attribute(fd, name, key);
    expect(has_name(fd, key), "%s lists %s", name, key);
    gives(inroot_fremovexattr(fd, key), 0, "%s of %s is removed", key, name);
    gives(inroot_fremovexattr(fd, key), -ENODATA, "%s of %s is removed again", key, name);
    step_is("Attribute");
    expect(!has_name(fd, key), "%s has no %s", name, key);
}

static void try_kind(const char *name)
{
    int fd = found(name);
    bool is_plain = strcmp(name, "file") == 0 || strcmp(name, "dir") == 0;
    if (fd < 0)
        return;
    try_mode(fd, name, strcmp(name, "link") == 0);
    try_owner(fd, name);
    try_times(fd, name);
    if (has_trusted)
        try_attributes(fd, name, "trusted.inroot");
    if (has_user && is_plain)
        try_attributes(fd, name, "user.inroot");
    if (has_user && !is_plain)
        gives(inroot_fsetxattr(fd, "user.inroot", "x", 1, 0), -EPERM, "an attribute of a user for %s", name);
    close(fd);
}

/* ---- errors */

static void try_errors(void)
{
    static char large[65537];
    static const int numbers[] = {-1, AT_FDCWD, -2, 900};
    const struct timespec times[2] = {{1, 1}, {1, 1}}, stay[2] = {{.tv_nsec = UTIME_OMIT}, {.tv_nsec = UTIME_OMIT}};
    char value[4];
    for (size_t one = 0; one < sizeof numbers / sizeof *numbers; one++) {
        int fd = numbers[one];
        gives(inroot_fchmod(fd, 0600), -EBADF, "the mode of %d", fd);
        gives(inroot_fchown(fd, 0, 0), -EBADF, "the owner of %d", fd);
        gives(inroot_futimens(fd, times), -EBADF, "the times of %d", fd);
        gives(inroot_futimens(fd, stay), -EBADF, "the times of %d, which stay", fd);
        gives(inroot_fgetxattr(fd, "", value, 4), -EBADF, "an attribute without a name of %d", fd);
        gives(inroot_fsetxattr(fd, "user.x", "x", 1, 0), -EBADF, "an attribute of %d", fd);
        gives(inroot_fgetxattr(fd, "user.x", value, 4), -EBADF, "an attribute's value of %d", fd);
        gives(inroot_flistxattr(fd, value, 4), -EBADF, "the attributes of %d", fd);
        gives(inroot_fremovexattr(fd, "user.x"), -EBADF, "an attribute of %d is removed", fd);
        step_is("");
    }
    int fd = found("file");
    gives(inroot_futimens(fd, stay), 0, "times that stay");
    gives(inroot_fchmod(fd, S_IFREG | 0600), -EINVAL, "a mode with a kind");
    gives(inroot_fchmod(-1, 010000), -EINVAL, "a mode that is none comes first");
    gives(inroot_fsetxattr(fd, "user.x", "x", 1, 4), -EINVAL, "a flag that is none");
    gives(inroot_fsetxattr(fd, "user.x", "x", 1, XATTR_CREATE | XATTR_REPLACE), -EINVAL, "two flags that exclude each other");
    gives(inroot_fsetxattr(-1, "user.x", large, sizeof large, 0), -E2BIG, "a value that is too large");
    gives(inroot_fgetxattr(fd, "none.x", value, 4), -EOPNOTSUPP, "a kind of attributes that is none");
    gives(inroot_fgetxattr(fd, "", value, 4), -ERANGE, "a name that is empty");
    close(fd);
}

static void outside_is(const struct stat *before)
{
    struct stat now = about(outside);
    char value[4];
    expect(now.st_mode == before->st_mode && now.st_uid == before->st_uid && now.st_gid == before->st_gid &&
               now.st_mtim.tv_sec == before->st_mtim.tv_sec && now.st_mtim.tv_nsec == before->st_mtim.tv_nsec,
           "what the link leads to is as it was");
    expect(fgetxattr(outside, "trusted.inroot", value, sizeof value) < 0, "and has no new attribute");
}

/* Each kind, by the system calls of this kernel, of an older one, and under a filter. */
static void try_all(void)
{
    static const int ways[] = {0, ENOSYS, EPERM};
    /* The library's own descriptor of it is open before others are counted. */
    open_proc();
    for (size_t way = 0; way < sizeof ways / sizeof *ways; way++) {
        struct stat before = about(outside);
        refuses = ways[way];
        int open_before = open_descriptors();
        for (int one = 0; one < (has_devices ? DEVICE + 1 : DEVICE); one++)
            try_kind(names[one]);
        try_errors();
        gives(open_descriptors(), open_before, "descriptors");
        outside_is(&before);
    }
    refuses = 0;
}

/* No call makes more system calls than docs/HOST-TESTED.md has, where the kernel has them all, and where it is an older one. */
static void count(void)
{
    const struct timespec times[2] = {{1, 1}, {1, 1}};
    char value[4];
    int fd = found("file");
    made = 0;
    gives(inroot_fchmod(fd, 0600), 0, "a mode that is counted");
    gives(made, 3, "system calls for a mode");
    made = 0;
    gives(inroot_fchown(fd, geteuid(), getegid()), 0, "an owner that is counted");
    gives(made, 1, "system calls for an owner");
    made = 0;
    gives(inroot_futimens(fd, times), 0, "times that are counted");
    gives(made, 1, "system calls for times");
    if (has_user) {
        made = 0;
        gives(inroot_fgetxattr(fd, "user.none", value, 4), -ENODATA, "an attribute that is counted");
        gives(made, 2, "system calls for an attribute");
    }
    refuses = ENOSYS;
    if (has_user) {
        made = 0;
        gives(inroot_fgetxattr(fd, "user.none", value, 4), -ENODATA, "an attribute by a path");
        gives(made, 5, "system calls for an attribute by a path");
    }
    refuses = 0;
    close(fd);
}

/* ---- places */

static void by_proc(void)
{
    try_all();
    count();
}

/* Below another root directory, where there is no /proc and none is kept: what needs none goes on. */
static void without_proc(void)
{
    const struct timespec times[2] = {{21, 22}, {23, 24}};
    char value[4];
    int fd = sure(openat(root, "file", O_PATH | O_CLOEXEC), "file");
    int link = sure(openat(root, "link", O_PATH | O_NOFOLLOW | O_CLOEXEC), "link");
    if (fchdir(root) != 0 || chroot(".") != 0)
        _exit(NO_RIGHT);
    mode_t before = about(fd).st_mode;
    gives(inroot_fchmod(fd, 0123), -ENOSYS, "the mode without /proc");
    gives(inroot_fchmod(link, 0123), -EOPNOTSUPP, "a link's mode without /proc");
    gives(inroot_fchown(fd, (uid_t)-1, getegid()), 0, "the owner without /proc");
    gives(inroot_futimens(fd, times), 0, "the times without /proc");
    times_are(fd, 21, 22, 23, 24, "the file");
    gives(inroot_fgetxattr(fd, "user.x", value, 4), -ENOSYS, "an attribute without /proc");
    gives(about(fd).st_mode, before, "the mode is as it was");
}

/* Where the /proc that is handed in isn't what stands at /proc, an older kernel has no way to the attributes. */
static void other_proc(void)
{
    char path[PATH_MAX + 8], value[4];
    own_mounts_or_end();
    snprintf(path, sizeof path, "%s/proc", at);
    sure(mkdir(path, 0755), path);
    if (mount("proc", path, "proc", 0, NULL) != 0)
        _exit(NO_RIGHT);
    int proc = sure(open(path, O_PATH | O_DIRECTORY | O_CLOEXEC), path);
    gives(inroot_use_proc(proc), 0, "it is handed in");
    int fd = found("file");
    gives(inroot_fchmod(fd, 0612), 0, "the mode by another /proc");
    gives(about(fd).st_mode & 07777, 0612, "is set");
    if (has_user)
        gives(inroot_fgetxattr(fd, "user.x", value, 4), -ENODATA, "an attribute by another /proc");
    refuses = ENOSYS;
    gives(inroot_fgetxattr(fd, "user.x", value, 4), -ENOSYS, "an attribute by another /proc, on an older kernel");
    expect(by_number > 0 || !has_user, "the newer system calls were made");
}

/* Somebody who may change nothing. */
static void as_nobody(void)
{
    if (!may_be_nobody())
        _exit(NO_RIGHT);
    int fd = found("file");
    mode_t before = about(fd).st_mode;
    sure(seteuid(65534), "seteuid");
    gives(inroot_fchmod(fd, 0777), -EPERM, "the mode of another's file");
    gives(inroot_fchown(fd, 65534, (gid_t)-1), -EPERM, "the owner of another's file");
    sure(seteuid(0), "seteuid");
    gives(about(fd).st_mode, before, "its mode is as it was");
}

int main(int count, char **words)
{
    void (*const places[])(void) = {by_proc, without_proc, other_proc, as_nobody};
    if (count != 2)
        return 2;
    base = sure(open(words[1], O_PATH | O_DIRECTORY | O_CLOEXEC), words[1]);
    snprintf(at, sizeof at, "%s", words[1]);
    umask(0);
    make_tree();
    for (size_t one = 0; one < sizeof places / sizeof *places; one++)
        lacks_right |= apart(places[one]) == NO_RIGHT;
    printf("attributes: %d wrong\n", wrong);
    return wrong != 0 ? 1 : lacks_right ? NO_RIGHT : 0;
}
