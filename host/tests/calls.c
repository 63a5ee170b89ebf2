/*
 * calls: modes, an entry's directory, opening once more, nodes, second names, stat, why a call failed, and what these
 * calls refuse, as inroot.h says. By the kernel's walk, and with INROOT_EXACT.
 *
 * usage: calls DIR. Exits 0 where each is as it says. 78: no right to become nobody, so that a part is left out.
 */
#define _GNU_SOURCE
#include "support.h"

#include <errno.h>
#include <fcntl.h>
#include <limits.h>
#include <signal.h>
#include <string.h>
#include <sys/fsuid.h>
#include <sys/stat.h>
#include <sys/sysmacros.h>
#include <sys/time.h>

/* FLAGS are 0 or INROOT_EXACT. */
static int root, flags;
static char where[PATH_MAX];

static int closed(int result)
{
    if (result < 0)
        return result;
    close(result);
    return 0;
}

static mode_t mode_of(const char *path)
{
    struct stat about;
    return fstatat(root, path, &about, AT_SYMLINK_NOFOLLOW) == 0 ? about.st_mode : 0;
}

static void modes(void)
{
    umask(027);
    gives(inroot_mknod(root, "m1", S_IFREG | 0666, 0, flags), 0, "a file's mode less the umask");
    gives_mode(mode_of("m1"), (S_IFREG | 0640), "a file's mode less the umask");
    gives(inroot_mknod(root, "m2", S_IFREG | 0600, 0, flags), 0, "a file's mode");
    gives_mode(mode_of("m2"), (S_IFREG | 0600), "a file's mode");
    gives(inroot_mknod(root, "m3", S_IFREG | 0, 0, flags), 0, "no mode");
    gives_mode(mode_of("m3"), S_IFREG, "no mode");
    gives(inroot_mkdir(root, "d1", 0777, flags), 0, "a directory's");
    gives_mode(mode_of("d1"), (S_IFDIR | 0750), "a directory's");
    gives(inroot_mkdir(root, "d2/", 01700, flags), 0, "and its sticky bit");
    gives_mode(mode_of("d2"), (S_IFDIR | 01700), "and its sticky bit");
    gives(closed(inroot_mkdir_all(root, "d1/x/y", 0711, flags)), 0, "directories");
    gives_mode(mode_of("d1"), (S_IFDIR | 0750), "one that was there");
    gives_mode(mode_of("d1/x"), (S_IFDIR | 0710), "new ones");
    gives_mode(mode_of("d1/x/y"), (S_IFDIR | 0710), "new ones");
    gives(closed(inroot_openat(root, "m4", O_WRONLY | O_CREAT, 0666, flags)), 0, "an open one");
    gives_mode(mode_of("m4"), (S_IFREG | 0640), "an open one");
    gives(closed(inroot_openat(root, "m5", O_RDWR | O_CREAT | O_EXCL, 0400, flags)), 0, "for writing");
    gives_mode(mode_of("m5"), (S_IFREG | 0400), "for writing");
    gives(inroot_mknod(root, "m6", S_IFREG | 010000, 0, flags), -EINVAL, "a mode that is none, of a file");
    gives(inroot_mkdir(root, "m6", S_IFDIR | 0700, flags), -EINVAL, "a mode that is none, of a directory");
    gives(closed(inroot_mkdir_all(root, "m6", (mode_t)-1, flags)), -EINVAL, "a mode that is none, of directories");
    gives(closed(inroot_openat(root, "m6", O_RDWR | O_CREAT, 010000, flags)), -EINVAL,
          "a mode that is none, of an open file");
    gives(closed(inroot_openat(root, "m1", O_RDONLY, 0600, flags)), -EINVAL, "a mode where nothing is made");
    gives_mode(mode_of("m6"), 0, "what is made by a mode that is none");
    umask(0);
}

static void wrong_flags(void)
{
    static const int none[] = {
        O_ASYNC, O_WRONLY | O_RDWR, O_PATH | O_RDWR, O_PATH | O_TRUNC, O_PATH | O_CREAT | O_DIRECTORY, O_PATH | O_EXCL, O_EXCL, O_CREAT | O_DIRECTORY,
        O_TMPFILE, O_TMPFILE | O_CREAT | O_RDWR, O_TMPFILE & ~O_DIRECTORY, O_PATH | O_TMPFILE | O_RDWR, 1 << 30,
    };
    static const int not_again[] = {O_CREAT,           O_EXCL,           O_TMPFILE | O_RDWR, O_NOFOLLOW, O_ASYNC,
                                    O_WRONLY | O_RDWR, O_PATH | O_APPEND};
    for (size_t one = 0; one < sizeof none / sizeof *none; one++) {
        gives(closed(inroot_openat(root, "f", none[one], 0, flags)), -EINVAL, "open flags %o", (unsigned)none[one]);
        gives(closed(inroot_openat(999, "", none[one], 0, 0)), -EINVAL,
              "open flags %o of a bad root", (unsigned)none[one]);
    }
    for (size_t one = 0; one < sizeof not_again / sizeof *not_again; one++)
        gives(closed(inroot_reopen(root, not_again[one])), -EINVAL,
              "open flags %o once more", (unsigned)not_again[one]);
    gives(closed(inroot_openat(root, "f", O_RDONLY, 0, flags | INROOT_NOFOLLOW)), -EINVAL, "a flag of another call");
    gives(closed(inroot_open(root, "f", flags | INROOT_FOLLOW)), -EINVAL, "a flag of another call");
    gives(closed(inroot_openat(999, "f", O_RDONLY, 0, 0)), -EBADF, "a root that isn't open");
    gives(closed(inroot_openat(999, "f", O_RDWR | O_CREAT, 0600, 0)), -EBADF, "a root that isn't open, to create");
    gives(closed(inroot_openat(root, "in/up/../f", O_RDONLY, 0, flags | INROOT_BENEATH)), -EXDEV, "beneath");
    gives(closed(inroot_openat(root, "in", O_RDWR | O_CREAT, 0600, flags | INROOT_NO_LINKS)), -ELOOP, "no links");
    gives(closed(inroot_openat(root, "dangling", O_RDWR | O_CREAT, 0600, flags | INROOT_NO_LINKS)), -ELOOP,
          "no links, and none there");
    gives(closed(inroot_openat(root, "absent", O_RDWR | O_CREAT, 0600, flags | INROOT_BENEATH)), -EXDEV,
          "a target beneath the root");
}

/*
 * What was found is opened for use by its descriptor, and by nobody's path: after it was renamed, and after it was
 * removed.
 */
static void again(void)
{
    char text[16];
    int fd = inroot_open(root, "a/f", flags);
    gives_fd(fd, "what is found");
    gives(read(fd, text, sizeof text), -1, "what was found, read");
    gives(errno, EBADF, "what was found, read: errno");
    sure(renameat(root, "a/f", root, "a/g"), "renameat");
    sure(mknodat(root, "a/f", S_IFREG | 0600, 0), "mknodat");
    int use = inroot_reopen(fd, O_RDWR);
    gives_fd(use, "a renamed one is opened once more");
    gives(read(use, text, sizeof text), 6, "a renamed one: its bytes");
    expect(memcmp(text, "inside", 6) == 0, "a renamed one: wanted 'inside', got '%.6s'", text);
    gives(fcntl(use, F_GETFD), FD_CLOEXEC, "its flag FD_CLOEXEC");
    gives(write(use, "!", 1), 1, "it is written");
    close(use);
    use = inroot_reopen(fd, O_WRONLY | O_TRUNC | O_APPEND);
    gives_fd(use, "it is opened to append");
    gives(fcntl(use, F_GETFL) & O_APPEND, O_APPEND, "its flag O_APPEND");
    close(use);
    gives(closed(inroot_reopen(fd, O_PATH)), 0, "it is opened for no use");
    gives(closed(inroot_reopen(fd, O_RDONLY | O_DIRECTORY)), -ENOTDIR, "it is no directory");
    sure(renameat(root, "a/g", root, "a/f"), "renameat");
    gives(closed(inroot_reopen(999, O_RDONLY)), -EBADF, "a descriptor that is none");
    close(fd);
    gives(inroot_mknod(root, "gone", S_IFREG | 0600, 0, flags), 0, "a file");
    fd = inroot_open(root, "gone", flags);
    sure(unlinkat(root, "gone", 0), "unlinkat");
    gives(closed(inroot_reopen(fd, O_RDWR)), 0, "a removed one is opened once more");
    close(fd);
    fd = inroot_open(root, "in", flags | INROOT_NOFOLLOW);
    gives(closed(inroot_reopen(fd, O_RDONLY)), -ELOOP, "a link");
    close(fd);
    fd = inroot_open(root, "a", flags);
    gives(closed(inroot_reopen(fd, O_RDONLY | O_DIRECTORY)), 0, "a directory");
    gives(closed(inroot_reopen(fd, O_RDWR)), -EISDIR, "a directory to be written");
    close(fd);
    gives(inroot_mknod(root, "sock", S_IFSOCK | 0600, 0, flags), 0, "a socket's name");
    gives(closed(inroot_openat(root, "sock", O_RDWR, 0, flags)), -ENXIO, "a socket");
}

static void ring(int number)
{
    (void)number;
}

/* A FIFO that nobody writes to is waited for, until a signal comes whose handler doesn't have the call go on. */
static void interrupted(void)
{
    const struct sigaction rings = {.sa_handler = ring};
    /* Again and again, since it may ring before the call waits. */
    const struct timeval soon = {.tv_usec = 20000};
    const struct itimerval often = {.it_interval = soon, .it_value = soon}, never = {{0, 0}, {0, 0}};
    gives(inroot_mknod(root, "waits", S_IFIFO | 0600, 0, flags), 0, "a FIFO");
    gives(closed(inroot_openat(root, "waits", O_RDONLY | O_NONBLOCK, 0, flags)), 0, "a FIFO that isn't waited for");
    gives(closed(inroot_openat(root, "waits", O_WRONLY | O_NONBLOCK, 0, flags)), -ENXIO, "a FIFO without a reader");
    sigaction(SIGALRM, &rings, NULL);
    setitimer(ITIMER_REAL, &often, NULL);
    gives(closed(inroot_openat(root, "waits", O_RDONLY, 0, flags)), -EINTR, "a FIFO that is waited for");
    setitimer(ITIMER_REAL, &never, NULL);
}

/* As nobody: a file that may not be read is found, and not opened. */
static void rights(void)
{
    if (!may_be_nobody())
        return;
    sure(fchmodat(root, "a/f", 0, 0), "chmod");
    sure(setfsuid(65534) < 0 ? -1 : 0, "setfsuid");
    gives(closed(inroot_open(root, "a/f", flags)), 0, "what may not be read is found");
    gives(closed(inroot_openat(root, "a/f", O_RDONLY, 0, flags)), -EACCES, "what may not be read");
    gives(closed(inroot_openat(root, "a/f", O_WRONLY | O_TRUNC, 0, flags)), -EACCES, "what may not be written");
    gives(closed(inroot_openat(root, "a/new", O_WRONLY | O_CREAT, 0600, flags)), -EACCES,
          "a directory that may not be written");
    setfsuid(0);
    sure(fchmodat(root, "a/f", 0600, 0), "chmod");
}

static void nodes(void)
{
    struct stat about;
    gives(inroot_mknod(root, "n/fifo", S_IFIFO | 0610, 0, flags), 0, "a FIFO");
    gives_mode(mode_of("n/fifo"), (S_IFIFO | 0610), "a FIFO");
    gives(inroot_mknod(root, "n/sock", S_IFSOCK | 0600, 0, flags), 0, "a socket");
    gives_mode(mode_of("n/sock"), (S_IFSOCK | 0600), "a socket");
    gives(inroot_mknod(root, "n/file", S_IFREG | 0604, 0, flags), 0, "a file");
    gives_mode(mode_of("n/file"), (S_IFREG | 0604), "a file");
    gives(inroot_mknod(root, "n/fifo", S_IFIFO | 0600, 0, flags), -EEXIST, "a second FIFO");
    gives(inroot_mknod(root, "n/x", S_IFDIR | 0600, 0, flags), -EINVAL, "a directory as a node");
    gives(inroot_mknod(root, "n/x", S_IFLNK | 0600, 0, flags), -EINVAL, "a link as a node");
    gives(inroot_mknod(root, "n/x", 0600, 0, flags), -EINVAL, "no kind");
    gives(inroot_mknod(root, "n/x", S_IFIFO | 0600, makedev(1, 3), flags), -EINVAL, "a FIFO's device");
    gives(inroot_mknod(999, "n/x", S_IFIFO | 0600, 0, 0), -EBADF, "below a root that isn't open");
    /* The lower bits alone are those of another device; the call refuses it before the C library sees it. */
    gives(inroot_mknod(999, "n/x", S_IFCHR | 0600, makedev(4097, 3), 0), -EINVAL, "a major number of more than 12 bits");
    gives(inroot_mknod(999, "n/x", S_IFBLK | 0600, makedev(1, 1048579), 0), -EINVAL, "a minor number of more than 20 bits");
    int device = inroot_mknod(root, "n/null", S_IFCHR | 0600, makedev(1, 3), flags);
    if (device == -EPERM)
        puts("calls: no right to make a device here");
    else
        gives(device, 0, "a device");
    if (device == 0) {
        sure(fstatat(root, "n/null", &about, 0), "n/null");
        gives((long)about.st_rdev, (long)makedev(1, 3), "the number of a device");
    }
}

static ino_t number_of(const char *path)
{
    struct stat about;
    return fstatat(root, path, &about, AT_SYMLINK_NOFOLLOW) == 0 ? about.st_ino : 0;
}

static void second_names(void)
{
    char text[8] = "";
    gives(inroot_link(root, "in/f", "l1", flags), 0, "a file's second name");
    gives(number_of("l1"), number_of("a/f"), "a file's second name");
    gives(inroot_link(root, "in", "l2", flags), 0, "a link's second name");
    gives(number_of("l2"), number_of("in"), "a link's second name");
    gives(inroot_link(root, "dangling", "l3", flags), 0, "that of a link to nothing");
    gives(number_of("l3"), number_of("dangling"), "that of a link to nothing");
    gives(inroot_link(root, "tofile", "l4", flags | INROOT_FOLLOW), 0, "that of what a link leads to");
    gives(number_of("l4"), number_of("a/f"), "that of what a link leads to");
    gives(inroot_link(root, "../../tofile", "up/../l5", flags), 0, "both below the root");
    gives(number_of("l5"), number_of("tofile"), "both below the root");
    gives(inroot_link(root, "a", "l6", flags), -EPERM, "a directory's");
    gives(inroot_link(root, "a/f", "l1", flags), -EEXIST, "an entry that is there");
    gives(inroot_link(root, "a/f", "dangling", flags), -EEXIST, "a link that is there");
    gives(inroot_link(root, "none", "none/x", flags), -ENOENT, "what isn't there");
    gives(inroot_link(root, "a/f", "none/x", flags), -ENOENT, "a directory that isn't there");
    gives(inroot_link(root, "a/f", "l7/", flags), -ENOTDIR, "a slash at the end");
    gives(inroot_link(root, "a/f", "..", flags), -EINVAL, "no name");
    gives(inroot_link(root, "a/f", "l7", flags | INROOT_NOFOLLOW), -EINVAL, "a flag that is none");
    gives(inroot_link(999, "a/f", "l7", 0), -EBADF, "a root that isn't open");
    gives(inroot_link_fd(root, 999, "l7", 64), -EINVAL, "a flag that is none, and no descriptor");
    gives(inroot_link_fd(root, 999, "l7", flags), -EBADF, "no descriptor");
    int file = inroot_openat(root, "a", O_RDWR | O_TMPFILE, 0600, flags);
    gives_fd(file, "a file without a name");
    gives(write(file, "whole", 5), 5, "a file without a name");
    gives(inroot_link_fd(root, file, "in/whole", flags), 0, "it gets a name");
    gives(pread(file, text, 8, 0), 5, "it gets a name");
    gives_mode(mode_of("a/whole"), (S_IFREG | 0600), "and has its mode");
    close(file);
    file = inroot_openat(root, "a", O_RDWR | O_TMPFILE | O_EXCL, 0600, flags);
    gives(inroot_link_fd(root, file, "a/never", flags), -ENOENT, "one that is to have no name");
    close(file);
    file = inroot_open(root, "l1", flags);
    sure(unlinkat(root, "l1", 0), "unlinkat");
    gives(inroot_link_fd(root, file, "l7", flags), 0, "one of whose names one is removed");
    close(file);
    gives(inroot_mknod(root, "once", S_IFREG | 0600, 0, flags), 0, "a file");
    file = inroot_open(root, "once", flags);
    sure(unlinkat(root, "once", 0), "unlinkat");
    gives(inroot_link_fd(root, file, "l8", flags), -ENOENT, "one that is gone");
    close(file);
}

static void told(void)
{
    struct stat about;
    gives(inroot_stat(root, "in/f", &about, flags), 0, "a file");
    gives((long)about.st_ino, (long)number_of("a/f"), "the inode of a file");
    gives_mode(about.st_mode & S_IFMT, S_IFREG, "the kind of a file");
    gives(inroot_stat(root, "in", &about, flags), 0, "what a link leads to");
    gives(about.st_ino, number_of("a"), "what a link leads to");
    gives(inroot_stat(root, "in", &about, flags | INROOT_NOFOLLOW), 0, "a link");
    gives_mode(about.st_mode & S_IFMT, S_IFLNK, "the kind of a link");
    gives(inroot_stat(root, "/", &about, flags), 0, "the root");
    gives(about.st_ino, number_of("."), "the root");
    gives(inroot_stat(root, "dangling", &about, flags), -ENOENT, "a link to nothing");
    gives(inroot_stat(root, "a/f/x", &about, flags), -ENOTDIR, "below a file");
    gives(inroot_stat(999, "a", &about, 0), -EBADF, "a root that isn't open");
    gives(inroot_stat(root, "a", &about, flags | INROOT_FOLLOW), -EINVAL, "a flag of another call");
}

/* 256 bytes, which are no name. */
#define SIXTEEN "0123456789abcdef"
#define LONG SIXTEEN SIXTEEN SIXTEEN SIXTEEN SIXTEEN SIXTEEN SIXTEEN SIXTEEN SIXTEEN SIXTEEN SIXTEEN SIXTEEN SIXTEEN SIXTEEN \
    SIXTEEN SIXTEEN

/* Why a call failed: the step and its name. */
static void tells(const char *step, const char *name, int number, const char *what)
{
    static const unsigned long long zeros[sizeof((struct inroot_error){0}.reserved) / sizeof(unsigned long long)];
    struct inroot_error error;
    memset(&error, 0xff, sizeof error);
    gives(inroot_last_error(&error), 0, "%s: its last error", what);
    gives(error.error, number, "%s: the error told", what);
    gives_text(error.step, step, "%s: the step", what);
    gives_text(error.name, name, "%s: the name", what);
    expect(memcmp(error.reserved, zeros, sizeof zeros) == 0, "%s: what is reserved isn't zero", what);
}

/* Of a path of plain names the kernel says that one is missing, and not which. */
static void why_of_missing(void)
{
    const char *name = flags & INROOT_EXACT ? "none" : "";
    gives(inroot_open(root, "a/none/x/y", flags), -ENOENT, "a missing name");
    tells("Open", name, ENOENT, "a missing name");
}

static void why(void)
{
    static const struct {
        const char *path;
        int flags, error;
        const char *step, *name;
    } cases[] = {
        {"in/none", 0, ENOENT, "Open", "none"},
        {"//a//..//none//x/", 0, ENOENT, "Open", "none"},
        {"a/./../a/none", 0, ENOENT, "Open", "none"},
        {"a/f/x", 0, ENOTDIR, "Open", "f"},
        {"in/up/../../x", INROOT_BENEATH, EXDEV, "ReadLink", ""},
        {"in/f", INROOT_BENEATH, EXDEV, "ReadLink", ""},
        {"tonone/x", 0, ENOENT, "Open", "nothere"},
        {"in/f", INROOT_NO_LINKS, ELOOP, "Open", "in"},
        {"n/./b/" LONG "/..", 0, ENAMETOOLONG, "Open", "b"},
        {"in/" LONG "/..", 0, ENAMETOOLONG, "Open", "a"},
        {LONG "/", 0, ENAMETOOLONG, "", ""},
        {"a", 64, EINVAL, "", ""},
        {"a", -1, EINVAL, "", ""},
    };
    sure(mkdirat(root, "n/b", 0755), "n/b");
    for (size_t one = 0; one < sizeof cases / sizeof *cases; one++) {
        gives(inroot_open(root, cases[one].path, flags | cases[one].flags), -cases[one].error, "%s", cases[one].path);
        tells(cases[one].step, cases[one].name, cases[one].error, cases[one].path);
    }
    why_of_missing();
    gives(inroot_mkdir(root, "in/f", 0700, flags), -EEXIST, "a directory where a file is");
    tells("MakeDir", "f", EEXIST, "a directory where a file is");
    gives(inroot_mkdir_all(root, "in/f/x", 0700, flags), -ENOTDIR, "directories below a file");
    tells("Open", "f", ENOTDIR, "directories below a file");
    gives(closed(inroot_openat(root, "a", O_WRONLY, 0, flags)), -EISDIR, "a directory to be written");
    tells("Reopen", "", EISDIR, "a directory to be written");
    gives(inroot_rename(root, "a/f", "none/x", 0, flags), -ENOENT, "a rename");
    tells("Open", flags & INROOT_EXACT ? "none" : "", ENOENT, "a rename");
    sure(unlinkat(root, "n/b", AT_REMOVEDIR), "n/b");
}

/* The same of calls that walk no path: each takes the place of what was told before. */
static void why_beside(void)
{
    gives(inroot_open(root, "none", flags), -ENOENT, "what isn't there");
    gives(inroot_use_proc(999), -EBADF, "a /proc that isn't open");
    tells("", "", EBADF, "a /proc that isn't open");
    gives(inroot_use_private_proc(), -EBUSY, "a second /proc");
    tells("", "", EBUSY, "a second /proc");
}

static void untold(void)
{
    struct inroot_error error;
    gives(inroot_last_error(&error), -ENODATA, "a thread whose calls have not failed");
}

/* The directory of an entry; its name takes the place of the path. A slash at the end is taken away where the flag says so. */
static void parents(void)
{
    static const struct {
        const char *path, *name;
        int flag, error;
    } rows[] = {
        {"in/f", "f", 0, 0}, {"in/f/", "", 0, ENOTDIR}, {"in/f", "f", INROOT_DIRECTORY, 0}, {"in/f/", "f", INROOT_DIRECTORY, 0},
        {"in/..", "", INROOT_DIRECTORY, EINVAL},
    };
    for (size_t one = 0; one < sizeof rows / sizeof *rows; one++) {
        char text[256];
        strcpy(text, rows[one].path);
        const int dir = inroot_open_parent(root, text, flags | rows[one].flag, text);
        if (rows[one].error)
            gives(dir, -rows[one].error, "the parent of %s", rows[one].path);
        else
            gives_object(dir, root, "a", "the parent of %s", rows[one].path);
        gives_text(text, rows[one].name, "the name in the parent of %s", rows[one].path);
        if (dir >= 0)
            close(dir);
    }
}

static void make_tree(void)
{
    static const char *const links[][2] = {{"in", "/a"},
                                           {"dangling", "nowhere"},
                                           {"absent", "/../a/absent"},
                                           {"tofile", "in/f"},
                                           {"tonone", "a/../nothere/b"}};
    sure(mkdirat(root, "a", 0755), "a");
    sure(mkdirat(root, "n", 0755), "n");
    sure(mkdirat(root, "up", 0755), "up");
    int file = sure(openat(root, "a/f", O_WRONLY | O_CREAT | O_CLOEXEC, 0600), "a/f");
    sure((int)write(file, "inside", 6), "write");
    close(file);
    for (size_t one = 0; one < sizeof links / sizeof *links; one++)
        sure(symlinkat(links[one][1], root, links[one][0]), links[one][0]);
}

static void each(void)
{
    static void (*const parts[])(void) = {
        wrong_flags, parents, again, interrupted, rights, nodes, told, why, why_beside, modes, second_names,
    };
    int before = open_descriptors();
    untold();
    for (size_t part = 0; part < sizeof parts / sizeof *parts; part++) {
        parts[part]();
        gives(open_descriptors(), before, "part %zu: open descriptors", part);
    }
}

/* Each in a root of its own, whose path the test has. */
static void begin(const char *name)
{
    strcat(strcat(where, "/"), name);
    sure(mkdir(where, 0755), where);
    root = sure(open(where, O_PATH | O_DIRECTORY | O_CLOEXEC), where);
    umask(0);
    make_tree();
}

static void by_kernel(void)
{
    begin("kernel");
    each();
}

static void exactly(void)
{
    begin("exact");
    flags = INROOT_EXACT;
    each();
}

/* The header's version is one, in each form, and that of the library. */
static void versions(void)
{
    char text[32];
    snprintf(text, sizeof text, "%d.%d.%d", INROOT_VERSION_MAJOR, INROOT_VERSION_MINOR, INROOT_VERSION_PATCH);
    gives_text(text, INROOT_VERSION, "the version in the header");
    gives_text(inroot_version(), text, "the version of the library");
}

int main(int count, char **words)
{
    if (count != 2 || realpath(words[1], where) == NULL)
        return 2;
    open_proc();
    versions();
    apart(by_kernel);
    apart(exactly);
    printf("calls: %d not as they are to be\n", wrong);
    return wrong != 0 ? 1 : may_be_nobody() ? 0 : NO_RIGHT;
}
