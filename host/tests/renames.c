/*
 * renames: what inroot_rename() does by each of its modes to an entry that is there already, and to one that isn't. By the
 * kernel's walk and with INROOT_EXACT. Its inode shows which object an entry leads to, and kind and device show a whiteout. And for
 * which of several reasons the kernel refuses a rename, as changes_stood of crates/linux_steps has it.
 *
 * usage: renames DIR. Exits 0 where each is as inroot.h says. 78: no whiteouts here, so that a part is left out.
 */
#define _GNU_SOURCE
#include "support.h"

#include <errno.h>
#include <fcntl.h>
#include <sys/stat.h>

/* What stands for the inode of a whiteout. */
enum { WHITEOUT = 3 };
static const ino_t a_whiteout = (ino_t)-1;
static bool has_whiteouts;
static int root;

/* The inode at that path, or 0 where there is none. */
static ino_t inode(const char *path)
{
    struct stat about;
    if (fstatat(root, path, &about, AT_SYMLINK_NOFOLLOW) != 0)
        return 0;
    return S_ISCHR(about.st_mode) && about.st_rdev == 0 ? a_whiteout : about.st_ino;
}

/*
 * What is asked for, what the call gives, and which of the two objects the entries lead to then: 1, 2, 0 for none, or
 * WHITEOUT.
 */
static const struct {
    const char *from, *to;
    int mode, error, at_from, at_to;
} rows[] = {
    {"a/f", "b/g", INROOT_PLAIN, 0, 0, 1},
    {"a/f", "b/g", INROOT_NOREPLACE, EEXIST, 1, 2},
    {"a/f", "b/g", INROOT_EXCHANGE, 0, 2, 1},
    {"a/f", "b/none", INROOT_PLAIN, 0, 0, 1},
    {"a/f", "b/none", INROOT_NOREPLACE, 0, 0, 1},
    {"a/f", "b/none", INROOT_EXCHANGE, ENOENT, 1, 0},
    {"a/f", "l/g", INROOT_NOREPLACE, EEXIST, 1, 2},
    {"a/f", "l/g", INROOT_EXCHANGE, 0, 2, 1},
    {"a/f", "b/g", INROOT_WHITEOUT, 0, WHITEOUT, 1},
    {"a/f", "b/none", INROOT_WHITEOUT, 0, WHITEOUT, 1},
    {"a/f", "l/g", INROOT_WHITEOUT | INROOT_NOREPLACE, EEXIST, 1, 2},
    {"a/f", "l/none", INROOT_WHITEOUT | INROOT_NOREPLACE, 0, WHITEOUT, 1},
    {"a/none", "b/g", INROOT_WHITEOUT, ENOENT, 0, 2},
    {"a/f", "b/g", INROOT_WHITEOUT | INROOT_EXCHANGE, EINVAL, 1, 2},
    {"a/f", "b/g", 2 * INROOT_WHITEOUT, EINVAL, 1, 2},
    {"a/f", "b/g", INROOT_EXCHANGE + 1, EINVAL, 1, 2},
    {"a/f", "b/g", INROOT_PLAIN - 1, EINVAL, 1, 2},
};

/* What renameat2(2) itself gives, where d is above the file d/s/f and the directory d/s/x, which has entries. */
static const struct {
    const char *from, *to;
    unsigned int mode;
    int error;
} kernel_rows[] = {
    {"d", "d/s/f", INROOT_PLAIN, EINVAL},
    {"d", "d/s/x", INROOT_PLAIN, EINVAL},
    {"d", "file", INROOT_PLAIN, ENOTDIR},
    {"file", "d", INROOT_PLAIN, EISDIR},
    {"d/s/f", "d", INROOT_PLAIN, ENOTEMPTY},
    {"d/s/x", "d", INROOT_PLAIN, ENOTEMPTY},
    {"d", "d", INROOT_PLAIN, 0},
    {"none", "file", INROOT_PLAIN, ENOENT},
    {"none", "file", INROOT_NOREPLACE, ENOENT},
    {"d", "d/s/f", INROOT_NOREPLACE, EEXIST},
    {"d", "none", INROOT_EXCHANGE, ENOENT},
    {"none", "d", INROOT_EXCHANGE, ENOENT},
    {"d", "d/s/x", INROOT_EXCHANGE, EINVAL},
    {"d/s/x", "d", INROOT_EXCHANGE, EINVAL},
};

static int renamed(int from_dir, const char *from, int to_dir, const char *to, unsigned int mode)
{
    return syscall(SYS_renameat2, from_dir, from, to_dir, to, mode) == 0 ? 0 : -errno;
}

static void kernels_own(void)
{
    sure(mkdirat(root, "d", 0755), "d");
    sure(mkdirat(root, "d/s", 0755), "d/s");
    sure(mkdirat(root, "d/s/x", 0755), "d/s/x");
    sure(mkdirat(root, "d/s/x/y", 0755), "d/s/x/y");
    sure(mknodat(root, "d/s/f", S_IFREG | 0600, 0), "d/s/f");
    sure(mknodat(root, "file", S_IFREG | 0600, 0), "file");
    for (size_t row = 0; row < sizeof kernel_rows / sizeof *kernel_rows; row++)
        gives(renamed(root, kernel_rows[row].from, root, kernel_rows[row].to, kernel_rows[row].mode), -kernel_rows[row].error,
              "the kernel's own row %zu", row);
    sure(mkdirat(root, "gone", 0755), "gone");
    int gone = sure(openat(root, "gone", O_PATH | O_DIRECTORY | O_CLOEXEC), "gone");
    sure(unlinkat(root, "gone", AT_REMOVEDIR), "gone");
    for (unsigned int mode = INROOT_PLAIN; mode <= INROOT_EXCHANGE; mode++)
        gives(renamed(root, "file", gone, "new", mode), -ENOENT, "into a removed directory, mode %u", mode);
    close(gone);
}

static void one(size_t row, int flags)
{
    sure(mknodat(root, "a/f", S_IFREG | 0600, 0), "a/f");
    sure(mknodat(root, "b/g", S_IFREG | 0600, 0), "b/g");
    const ino_t objects[] = {0, inode("a/f"), inode("b/g"), a_whiteout};
    int got = inroot_rename(root, rows[row].from, rows[row].to, rows[row].mode, flags);
    gives(got, -rows[row].error, "row %zu, flags %d", row, flags);
    gives(inode(rows[row].from), objects[rows[row].at_from],
          "row %zu, flags %d: the inode at %s", row, flags, rows[row].from);
    gives(inode(rows[row].to), objects[rows[row].at_to],
          "row %zu, flags %d: the inode at %s", row, flags, rows[row].to);
    unlinkat(root, "a/f", 0);
    unlinkat(root, "b/g", 0);
    unlinkat(root, "b/none", 0);
}

/* Whether the file system has them, and lets this process make one. */
static bool makes_whiteouts(void)
{
    sure(mknodat(root, "old", S_IFREG | 0600, 0), "old");
    bool has = syscall(SYS_renameat2, root, "old", root, "new", INROOT_WHITEOUT) == 0;
    unlinkat(root, "old", 0);
    unlinkat(root, "new", 0);
    return has;
}

static void each(void)
{
    for (size_t row = 0; row < sizeof rows / sizeof *rows; row++) {
        if (rows[row].mode & INROOT_WHITEOUT && rows[row].error == 0 && !has_whiteouts)
            continue;
        one(row, 0);
        one(row, INROOT_EXACT);
        one(row, INROOT_EXACT | INROOT_NO_RETRY);
    }
}

int main(int count, char **words)
{
    if (count != 2)
        return 2;
    root = sure(open(words[1], O_PATH | O_DIRECTORY | O_CLOEXEC), words[1]);
    sure(mkdirat(root, "a", 0755), "a");
    sure(mkdirat(root, "b", 0755), "b");
    sure(symlinkat("b", root, "l"), "l");
    has_whiteouts = makes_whiteouts();
    kernels_own();
    each();
    printf("renames: %d not as they are to be\n", wrong);
    return wrong != 0 ? 1 : !has_whiteouts ? NO_RIGHT : 0;
}
