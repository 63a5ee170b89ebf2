/*
 * opens: inroot_openat() beside openat2(2) with RESOLVE_IN_ROOT, each on a tree of its own: many paths, by many ways to
 * open, to create and to truncate. Both return the same error, or open the same object in the same way, and leave the
 * same trees. By the kernel's walk, and with INROOT_EXACT.
 *
 * usage: opens DIR. Exits 0 where each case agrees. 77: no openat2(2) here.
 */
#define _GNU_SOURCE
#include "../openat2.h"
#include "support.h"

#include <errno.h>
#include <fcntl.h>
#include <ftw.h>
#include <limits.h>
#include <string.h>
#include <sys/stat.h>
#include <sys/syscall.h>

static int base, ours, theirs, cases, opened;
static char at[PATH_MAX];

static const char *const paths[] = {
    "a/b/f",
    "a/l/f",
    "/a/../a/l/./f",
    "tof",
    "a/b",
    "a/l",
    "/",
    ".",
    "a/..",
    "fifo",
    "shut",
    "none",
    "a/b/none",
    "a/l/none",
    "none/x",
    "a/b/f/x",
    "dangling",
    "a/dangling",
    "/a/l/../dangling",
    "absolute",
    "chain",
    "out",
    "loop",
    "deepdangling",
    "a/b/f/",
    "",
    "tosock",
    "socket",
};

static const int ways[] = {
    O_RDONLY,
    O_WRONLY,
    O_RDWR,
    O_RDWR | O_TRUNC,
    O_WRONLY | O_APPEND,
    O_RDONLY | O_DIRECTORY,
    O_RDONLY | O_NOFOLLOW,
    O_WRONLY | O_NOFOLLOW | O_TRUNC,
    O_PATH,
    O_PATH | O_NOFOLLOW,
    O_PATH | O_DIRECTORY,
    O_PATH | O_NOFOLLOW | O_DIRECTORY,
    O_RDONLY | O_CREAT,
    O_WRONLY | O_CREAT,
    O_RDWR | O_CREAT | O_TRUNC,
    O_WRONLY | O_CREAT | O_APPEND,
    O_RDWR | O_CREAT | O_EXCL,
    O_RDONLY | O_CREAT | O_EXCL | O_NOFOLLOW,
    O_RDWR | O_CREAT | O_NOFOLLOW,
    O_RDWR | O_TMPFILE,
    O_WRONLY | O_TMPFILE | O_EXCL,
    O_RDWR | O_TMPFILE | O_NOFOLLOW,
    O_RDWR | O_SYNC,
    O_RDONLY | O_CREAT | O_DIRECTORY,
    O_RDONLY | O_TMPFILE,
    O_RDONLY | O_DIRECTORY | O_NOFOLLOW,
};

static int remove_one(const char *path, const struct stat *about, int kind, struct FTW *how)
{
    (void)about, (void)kind, (void)how;
    return remove(path);
}

static int make_tree(const char *name)
{
    char path[PATH_MAX + 16];
    snprintf(path, sizeof path, "%s/%s", at, name);
    nftw(path, remove_one, 16, FTW_DEPTH | FTW_PHYS);
    sure(mkdir(path, 0755), path);
    int root = sure(open(path, O_PATH | O_DIRECTORY | O_CLOEXEC), path);
    sure(mkdirat(root, "a", 0755), "a");
    sure(mkdirat(root, "a/b", 0755), "a/b");
    int file = sure(openat(root, "a/b/f", O_WRONLY | O_CREAT | O_CLOEXEC, 0644), "a/b/f");
    sure((int)write(file, "inside", 6), "write");
    close(file);
    sure(mknodat(root, "shut", S_IFREG, 0), "shut");
    sure(mknodat(root, "fifo", S_IFIFO | 0600, 0), "fifo");
    sure(mknodat(root, "socket", S_IFSOCK | 0600, 0), "socket");
    static const char *const links[][2] = {
        {"a/l", "/a/b"},
        {"tof", "a/l/f"},
        {"dangling", "nowhere"},
        {"a/dangling", "../a/b/nowhere"},
        {"absolute", "/../a/nowhere"},
        {"chain", "a/dangling"},
        {"out", "../../../../outside"},
        {"loop", "loop"},
        {"deepdangling", "none/none"},
        {"tosock", "socket"},
    };
    for (size_t one = 0; one < sizeof links / sizeof *links; one++)
        sure(symlinkat(links[one][1], root, links[one][0]), links[one][0]);
    return root;
}

/* What stands below a directory, in one text: names, modes, sizes. */
static char listing[8192];
static size_t listed, below;

static int list_one(const char *path, const struct stat *about, int kind, struct FTW *how)
{
    (void)kind, (void)how;
    listed += (size_t)snprintf(listing + listed, sizeof listing - listed, "%s %o %ld\n", path + below, about->st_mode,
                               S_ISDIR(about->st_mode) ? 0L : (long)about->st_size);
    return listed >= sizeof listing;
}

static int by_name(const void *one, const void *other)
{
    return strcmp(*(char *const *)one, *(char *const *)other);
}

/* In the order of the names, which a directory doesn't keep. */
static void list(const char *name, char *text)
{
    char path[PATH_MAX + 16], *lines[64];
    size_t count = 0;
    snprintf(path, sizeof path, "%s/%s", at, name);
    below = strlen(path);
    listed = 0;
    sure(nftw(path, list_one, 16, FTW_PHYS), path);
    for (char *line = strtok(listing, "\n"); line != NULL && count < 64; line = strtok(NULL, "\n"))
        lines[count++] = line;
    qsort(lines, count, sizeof *lines, by_name);
    *text = 0;
    for (size_t line = 0; line < count; line++)
        strcat(strcat(text, lines[line]), "\n");
}

static int by_kernel(const char *path, int way, mode_t mode)
{
    struct open_how how = {.flags = (unsigned)way | O_CLOEXEC, .mode = mode, .resolve = RESOLVE_IN_ROOT};
    long fd;
    do
        fd = syscall(SYS_openat2, theirs, path, &how, sizeof how);
    while (fd < 0 && errno == EAGAIN);
    return fd < 0 ? -errno : (int)fd;
}

/*
 * docs/LINUX.md tells of other errors for a last part that is no name, and for a slash at the end, where a file is
 * made.
 */
static int as_told_here(const char *path, int way, int wanted)
{
    size_t length = strlen(path);
    bool no_name = length > 0 && (path[length - 1] == '.' || strcmp(path, "/") == 0);
    if (way & O_CREAT && way & O_EXCL && no_name && wanted == -EEXIST)
        return -EINVAL;
    if (way & O_CREAT && length > 1 && path[length - 1] == '/' && wanted == -EISDIR)
        return -ENOTDIR;
    return wanted;
}

static void same_use(int wanted, int got, const char *path, int way)
{
    const int kept = O_ACCMODE | O_APPEND | O_NONBLOCK | O_PATH | O_SYNC | O_DIRECTORY;
    struct stat due, came;
    sure(fstat(wanted, &due), "fstat");
    sure(fstat(got, &came), "fstat");
    gives_mode(came.st_mode, due.st_mode, "%s, %o: the mode", path, (unsigned)way);
    gives((long)came.st_size, (long)due.st_size, "%s, %o: the size", path, (unsigned)way);
    gives((long)came.st_nlink, (long)due.st_nlink, "%s, %o: the names", path, (unsigned)way);
    gives(fcntl(got, F_GETFD), FD_CLOEXEC, "%s, %o: the flag FD_CLOEXEC", path, (unsigned)way);
    gives((fcntl(got, F_GETFL) & kept) | O_DIRECTORY, (fcntl(wanted, F_GETFL) & kept) | O_DIRECTORY, "%s, %o: the use", path,
          (unsigned)way);
}

static void compare_trees(const char *path, int way)
{
    char left[8192], right[8192];
    list("theirs", left);
    list("ours", right);
    gives_text(right, left, "%s, %o: the tree that it left, as the kernel leaves it", path, (unsigned)way);
}

static void compare(const char *path, int way, int flags)
{
    bool makes = way & O_CREAT || (way & O_TMPFILE) == O_TMPFILE;
    mode_t mode = makes ? 0640 : 0;
    int how = way & O_PATH ? way : way | O_NONBLOCK;
    int wanted = as_told_here(path, way, by_kernel(path, how, mode)), got = inroot_openat(ours, path, how, mode, flags);
    cases++;
    opened += got >= 0;
    gives(got < 0 ? got : 0, wanted < 0 ? wanted : 0, "%s, %o, as openat2(2) gives it", path, (unsigned)way);
    if (wanted >= 0 && got >= 0)
        same_use(wanted, got, path, way);
    if (wanted >= 0)
        close(wanted);
    if (got >= 0)
        close(got);
}

static void make_trees(void)
{
    close(ours);
    close(theirs);
    ours = make_tree("ours");
    theirs = make_tree("theirs");
}

static void each(int flags, const char *by)
{
    cases = opened = 0;
    for (size_t path = 0; path < sizeof paths / sizeof *paths; path++)
        for (size_t way = 0; way < sizeof ways / sizeof *ways; way++) {
            make_trees();
            compare(paths[path], ways[way], flags);
            compare_trees(paths[path], ways[way]);
        }
    printf("opens: %d of %d cases opened %s\n", opened, cases, by);
    gives_least(opened, 101, "cases that open %s", by);
    gives_most(opened, cases - 1, "cases that open %s", by);
}

int main(int count, char **words)
{
    if (count != 2)
        return 2;
    base = sure(open(words[1], O_PATH | O_DIRECTORY | O_CLOEXEC), words[1]);
    if (realpath(words[1], at) == NULL)
        return 1;
    theirs = fcntl(base, F_DUPFD_CLOEXEC, 0);
    ours = fcntl(base, F_DUPFD_CLOEXEC, 0);
    if (!has_openat2())
        return NO_OPENAT2;
    umask(022);
    open_proc();
    int before = open_descriptors();
    each(0, "by the kernel's walk");
    each(INROOT_EXACT, "with INROOT_EXACT");
    int left = open_descriptors() - before;
    printf("opens: %d not as they are to be, %d descriptors left open\n", wrong, left);
    return wrong != 0 || left != 0;
}
