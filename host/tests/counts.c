/*
 * counts: how many system calls a call makes, by the kernel's walk and with INROOT_EXACT. What is opened is closed by the program,
 * which isn't counted. docs/HOST-TESTED.md has the numbers. And how often inroot_openat() tries to create, and what the calls give
 * where openat2(2) fails.
 *
 * usage: counts DIR. Exits 0 where that holds. 77: no openat2(2) here.
 */
#define _GNU_SOURCE
#include "../openat2.h"
#include "support.h"
#include "wraps.h"

#include <errno.h>
#include <pthread.h>
#include <string.h>
#include <sys/stat.h>
#include <sys/syscall.h>
#include <sys/vfs.h>
#include <time.h>

/* Whoever calls a function of the C library, for the compiler, changes none of these. */
static volatile unsigned made, created, looks;
static bool is_taken;

/* The error by which each openat2(2) fails, or so many of them, or 0. */
static int refusal, refusals = -1;

COUNTED(int, fstat, (int fd, struct stat *about), (fd, about))
COUNTED(int, fstatfs, (int fd, struct statfs *about), (fd, about))
COUNTED(int, statx, (int dir, const char *name, int flags, unsigned what, struct statx *about), (dir, name, flags, what, about))
COUNTED(int, close, (int fd), (fd))
COUNTED(ssize_t, readlinkat, (int dir, const char *name, char *text, size_t size), (dir, name, text, size))
COUNTED(int, mkdirat, (int dir, const char *name, mode_t mode), (dir, name, mode))
COUNTED(int, mknodat, (int dir, const char *name, mode_t mode, dev_t dev), (dir, name, mode, dev))
COUNTED(int, symlinkat, (const char *text, int dir, const char *name), (text, dir, name))
COUNTED(int, unlinkat, (int dir, const char *name, int flags), (dir, name, flags))

static int my_fcntl(int fd, int what, int with)
{
    made++;
    return __real_fcntl(fd, what, with);
}

INSTEAD_OF_FCNTL(my_fcntl)

static int my_openat(int dir, const char *name, int flags, mode_t mode)
{
    made++;
    created += (flags & O_EXCL) != 0;
    if (!is_taken || !(flags & O_EXCL))
        return __real_openat(dir, name, flags, mode);
    errno = EEXIST;
    return -1;
}

INSTEAD_OF_OPENAT(my_openat)

static long my_syscall(long number, const long *with)
{
    made++;
    looks += number == SYS_openat2;
    if (number == SYS_openat2 && refusal != 0 && refusals != 0) {
        refusals -= refusals > 0;
        errno = refusal;
        return -1;
    }
    return REAL_SYSCALL(number, with);
}

INSTEAD_OF_SYSCALL(my_syscall)

static int root;
static char deep[128] = "d";

/* ---- the calls. What is made or unmade beside them isn't counted. */

static int open_it(const char *path, int flags) { return inroot_open(root, path, flags); }
static int read_it(const char *path, int flags) { return inroot_openat(root, path, O_RDONLY, 0, flags); }
static int make_all(const char *path, int flags) { return inroot_mkdir_all(root, path, 0755, flags); }
static int make_file_all(const char *path, int flags) { return inroot_mkfile_all(root, path, 0600, 0755, flags); }

static int look(const char *path, int flags)
{
    struct stat about;
    return inroot_stat(root, path, &about, flags);
}

static int read_link(const char *path, int flags)
{
    char text[256];
    return inroot_readlink(root, path, flags, text, sizeof text) > 0 ? 0 : -1;
}

static int open_parent(const char *path, int flags)
{
    char last[256];
    return inroot_open_parent(root, path, flags, last);
}

/* The place of what stands there. */
static int tell_place(const char *path, int flags)
{
    char place[256];
    (void)flags;
    int fd = sure(__real_openat(root, path, O_PATH | O_CLOEXEC), path);
    int result = inroot_place(root, fd, place, sizeof place) > 0 ? 0 : -1;
    __real_close(fd);
    return result;
}

static int removed(int result, const char *path)
{
    __real_unlinkat(root, path, 0);
    return result;
}

static int create(const char *path, int flags)
{
    return removed(inroot_openat(root, path, O_WRONLY | O_CREAT | O_EXCL, 0600, flags), path);
}

static int make_file(const char *path, int flags)
{
    return removed(inroot_mknod(root, path, S_IFREG | 0600, 0, flags), path);
}

static int give(const char *path, int flags)
{
    return make_file(path, flags | INROOT_GIVE);
}

static int make_link(const char *path, int flags)
{
    return removed(inroot_symlink(root, "f", path, flags), path);
}

static int make_directory(const char *path, int flags)
{
    int result = inroot_mkdir(root, path, 0700, flags);
    __real_unlinkat(root, path, AT_REMOVEDIR);
    return result;
}

static int remove_file(const char *path, int flags)
{
    __real_mknodat(root, path, S_IFREG | 0600, 0);
    return inroot_unlink(root, path, flags);
}

static int remove_directory(const char *path, int flags)
{
    __real_mkdirat(root, path, 0700);
    return inroot_rmdir(root, path, flags);
}

static int rename_it(const char *path, int flags)
{
    __real_mknodat(root, path, S_IFREG | 0600, 0);
    return removed(inroot_rename(root, path, "d/moved", 0, flags), "d/moved");
}

static int remove_all(const char *path, int flags)
{
    __real_mkdirat(root, path, 0700);
    return (int)inroot_remove_all(root, path, flags) - 1;
}

/* So many system calls: by the kernel's walk, and at most with INROOT_EXACT. */
static const struct {
    const char *what, *path;
    int (*call)(const char *path, int flags);
    unsigned kernel, exact;
} rows[] = {
    {"open f, a file", "f", open_it, 1, 10},
    {"open a/b", "a/b", open_it, 1, 11},
    {"open a/b/f, a file", "a/b/f", open_it, 1, 14},
    {"open four times b/..", "a/b/../b/../b/../b/..", open_it, 1, 61},
    {"open 32 directories", deep, open_it, 1, 71},
    {"open l, a link to a/b", "l", open_it, 1, 18},
    {"open d/l/f, l a link to ../a/b", "d/l/f", open_it, 1, 33},
    {"open a/b/u, a link to ../g", "a/b/u", open_it, 1, 32},
    {"open a/b/none", "a/b/none", open_it, 2, 5},
    {"read a/b/f", "a/b/f", read_it, 1, 17},
    {"the status of a/b/f", "a/b/f", look, 3, 16},
    {"the text of d/l", "d/l", read_link, 3, 14},
    {"open the parent of a/b/f", "a/b/f", open_parent, 1, 11},
    {"open the parent of f", "f", open_parent, 1, 1},
    {"create a/b/new", "a/b/new", create, 3, 13},
    {"make a/b/new", "a/b/new", make_file, 3, 13},
    {"make new", "new", make_file, 1, 3},
    {"make and give a/b/new", "a/b/new", give, 7, 17},
    {"make a/b/new, a directory", "a/b/new", make_directory, 3, 13},
    {"make a/b/new, a link", "a/b/new", make_link, 3, 13},
    {"remove a/b/new", "a/b/new", remove_file, 3, 13},
    {"remove a/b/new, a directory", "a/b/new", remove_directory, 3, 13},
    {"rename a/b/new to d/moved", "a/b/new", rename_it, 5, 22},
    {"make n/e/w/s", "n/e/w/s", make_all, 15, 22},
    {"make a/b, which is there", "a/b", make_all, 1, 11},
    {"make a/b/f with all, which is there", "a/b/f", make_file_all, 2, 14},
    {"make n/e/w with all", "n/e/w", make_file_all, 17, 44},
    {"remove a/b/new with all, an empty directory", "a/b/new", remove_all, 12, 20},
    {"tell the place of a/b", "a/b", tell_place, 11, 11},
};

enum { ROWS = sizeof rows / sizeof *rows };

static unsigned count_one(int row, int flags)
{
    made = 0;
    int fd = rows[row].call(rows[row].path, flags);
    unsigned count = made;
    if (strstr(rows[row].path, "none") == NULL)
        gives_fd(fd, "%s", rows[row].what);
    if (fd > 0)
        close(fd);
    if (rows[row].call == make_all || rows[row].call == make_file_all)
        inroot_remove_all(root, "n", 0);
    return count;
}

/* While somebody renames anywhere on the machine, the kernel refuses to walk a path with `..`: the steps are made. */
static unsigned count_by_kernel(int row)
{
    enum { TURNS = 50 };
    unsigned count = count_one(row, 0);
    for (int turn = 1; turn < TURNS && count > rows[row].kernel; turn++)
        count = count_one(row, 0);
    return count;
}

static void count_all(void)
{
    for (int row = 0; row < ROWS; row++) {
        const unsigned kernel = count_by_kernel(row), exact = count_one(row, INROOT_EXACT);
        gives(kernel, rows[row].kernel, "%s: system calls", rows[row].what);
        gives_most(exact, rows[row].exact, "%s: system calls with INROOT_EXACT", rows[row].what);
        printf("counts: %s: %u, with INROOT_EXACT %u\n", rows[row].what, kernel, exact);
    }
}

static long microseconds(void)
{
    struct timespec now;
    clock_gettime(CLOCK_MONOTONIC, &now);
    return now.tv_sec * 1000000 + now.tv_nsec / 1000;
}

/*
 * Where others put an entry in place and take it away each time: so many tries, or one. After the last the call has waited; with
 * one try it is told at once.
 */
static void tries_by(int flags)
{
    is_taken = true;
    created = 0;
    long from = microseconds();
    for (unsigned one = 1; one <= 100; one++) {
        gives(inroot_openat(root, "a/taken", O_WRONLY | O_CREAT, 0600, flags | INROOT_NO_RETRY), -EAGAIN, "one try");
        gives(created, one, "its tries");
    }
    long one = microseconds() - from;
    created = 0;
    from = microseconds();
    gives(inroot_openat(root, "a/taken", O_WRONLY | O_CREAT, 0600, flags), -EAGAIN, "all tries");
    gives(created, INROOT_TRIES, "their number");
    long all = microseconds() - from;
    gives_least(all, 17000, "all tries, in microseconds");
    expect(one / 100 < all, "one try took %ld microseconds, and all %ld", one / 100, all);
    gives(inroot_openat(root, "a/taken", O_WRONLY | O_CREAT | O_EXCL, 0600, flags), -EEXIST, "what is there");
    is_taken = false;
}

static void tries(void)
{
    tries_by(0);
    tries_by(INROOT_EXACT);
}

/* ---- where openat2(2) fails */

/* What the walk's steps find is asked for by a look-up, and so isn't opened. What they don't find they tell. */
static void failing(int flags)
{
    struct stat about;
    looks = 0;
    for (int turn = 0; turn < 3; turn++) {
        gives(inroot_stat(root, "a/b/../b/f", &about, flags), -refusal, "a file");
        gives(inroot_stat(root, "a/b/none", &about, flags), -ENOENT, "what isn't there");
        gives(inroot_stat(root, "a/b/f/x", &about, flags), -ENOTDIR, "what is below a file");
        gives(inroot_stat(root, deep, &about, flags), -refusal, "many directories");
    }
    gives_least(looks, 6, "tries of openat2(2)");
}

/* An EPERM that is a file system's own is of one look-up, and not of the system call: the steps make the call. */
static void refused_once(void)
{
    struct stat about;
    refusals = 1;
    refusal = EPERM;
    for (int turn = 0; turn < 3; turn++) {
        looks = 0;
        gives(inroot_stat(root, "a/b/f", &about, 0), 0, "a file");
        gives_mode(about.st_mode & S_IFMT, S_IFREG, "a file: its kind");
        gives(inroot_stat(root, deep, &about, 0), 0, "many directories");
        gives_mode(about.st_mode & S_IFMT, S_IFDIR, "many directories: its kind");
        gives_least(looks, 2, "turn %d: tries of openat2(2)", turn);
        gives(refusals, 0, "turn %d: refusals of it that are to come still", turn);
    }
    refusal = 0;
    refusals = -1;
}

static void refused_openat2(void)
{
    static const int errors[] = {EIO, EMFILE, EAGAIN};
    for (size_t one = 0; one < sizeof errors / sizeof *errors; one++)
        for (int flags = INROOT_NO_RETRY; flags <= (INROOT_NO_RETRY | INROOT_EXACT); flags += INROOT_EXACT) {
            refusal = errors[one];
            failing(flags);
            refusal = 0;
        }
    refused_once();
}

static void make_tree(void)
{
    static const char *const dirs[] = {"a", "a/b", "d"};
    for (size_t one = 0; one < sizeof dirs / sizeof *dirs; one++)
        sure(mkdirat(root, dirs[one], 0755), dirs[one]);
    sure(mknodat(root, "a/b/f", S_IFREG | 0600, 0), "a/b/f");
    sure(mknodat(root, "f", S_IFREG | 0600, 0), "f");
    sure(symlinkat("../a/b", root, "d/l"), "d/l");
    sure(symlinkat("a/b", root, "l"), "l");
    sure(mknodat(root, "a/g", S_IFREG | 0600, 0), "a/g");
    sure(symlinkat("../g", root, "a/b/u"), "a/b/u");
    for (int one = 1; one < 32; one++)
        sure(mkdirat(root, strcat(deep, "/d"), 0755), deep);
}

int main(int count, char **words)
{
    if (count != 2)
        return 2;
    if (!WRAPS_ALL)
        return NO_WRAP;
    root = sure(open(words[1], O_PATH | O_DIRECTORY | O_CLOEXEC), words[1]);
    if (!has_openat2())
        return NO_OPENAT2;
    make_tree();
    open_proc();
    tries();
    refused_openat2();
    count_all();
    return wrong != 0;
}
