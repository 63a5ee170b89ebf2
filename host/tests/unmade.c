/*
 * unmade: a filter refuses the system call of each step by each error that the step table lacks: the call gives that error and
 * says at which step, leaves nothing open, and has changed what its own steps did before and nothing else.
 *
 * usage: unmade DIR. Exits 0 where that holds. 78: no right to be filtered here.
 */
#define _GNU_SOURCE
#include "filter.h"

#include <dirent.h>
#include <limits.h>
#include <string.h>
#include <sys/stat.h>

/* What stands below the root, and may be made or removed. Their inodes are kept, zero of what isn't there. */
static const char *const names[] = {"a",   "a/b", "a/b/f", "a/l", "a/new", "a/n", "a/n/m",
                                    "t",   "t/x", "t/x/y", "t/z", "g"};
enum { NAMES = sizeof names / sizeof *names };

static int root, proc, error, flags;

static ino_t inode(const char *name)
{
    struct stat about;
    return fstatat(root, name, &about, AT_SYMLINK_NOFOLLOW) == 0 ? about.st_ino : 0;
}

/* The descriptors that /proc shows, but for the one by which it is read. */
static int shown(void)
{
    int count = 0;
    DIR *dir = fdopendir(sure(openat(proc, "self/fd", O_RDONLY | O_DIRECTORY | O_CLOEXEC), "fd"));
    while (dir != NULL && readdir(dir) != NULL)
        count++;
    closedir(dir);
    return count;
}

enum what { OPEN, UP, TOP, LINK, PLACE, DIR_MADE, DIRS_MADE, FILE_MADE, FILE_OPENED, TEXT_MADE, SECOND, MOVED, UNLINKED, TREE };

static int call(enum what what)
{
    switch (what) {
    case OPEN: return inroot_open(root, "a/./b/f", flags);
    case UP: return inroot_open(root, "a/../t/z", flags);
    case TOP: return inroot_open(root, "/.", flags);
    case LINK: return inroot_open(root, "a/l/f", flags);
    case PLACE: return inroot_open(root, "a/b/f", flags);
    case DIR_MADE: return inroot_mkdir(root, "a/new", 0755, flags);
    case DIRS_MADE: return inroot_mkdir_all(root, "a/n/m", 0755, flags);
    case FILE_MADE: return inroot_mknod(root, "a/new", S_IFREG | 0644, 0, flags);
    case FILE_OPENED: return inroot_openat(root, "a/new", O_WRONLY | O_CREAT | O_EXCL, 0600, flags);
    case TEXT_MADE: return inroot_symlink(root, "b", "a/new", flags);
    case SECOND: return inroot_link(root, "a/b/f", "a/new", flags);
    case MOVED: return inroot_rename(root, "a/b/f", "g", INROOT_NOREPLACE, flags);
    case UNLINKED: return inroot_unlink(root, "a/b/f", flags);
    default: return (int)inroot_remove_all(root, "t", flags);
    }
}

/* In place of a value: the lowest free number, which the first descriptor that the call opens gets. */
enum { FIRST_OPENED = -1 };

/* A system call that is refused where an argument has these bits, and what the call says of it; `gone` is removed before. */
struct row {
    enum what what;
    long number;
    unsigned argument, mask;
    int value;
    const char *step, *name, *gone;
};

static const struct row rows[] = {
    {OPEN, SYS_openat, 2, O_PATH, O_PATH, "Open", "a", ""},
    {UP, SYS_openat, 0, UINT_MAX, FIRST_OPENED, "Parent", "", ""},
    {TOP, SYS_openat, 2, O_PATH, O_PATH, "Dup", "", ""},
    {LINK, SYS_readlinkat, 0, 0, 0, "ReadLink", "", ""},
    {PLACE, SYS_readlinkat, 0, 0, 0, "NameBelow", "", ""},
    {DIR_MADE, SYS_mkdirat, 0, 0, 0, "MakeDir", "new", ""},
    {DIRS_MADE, SYS_mkdirat, 0, 0, 0, "MakeDir", "n", ""},
    {FILE_MADE, SYS_mknodat, 0, 0, 0, "MakeFile", "new", ""},
    {FILE_OPENED, SYS_openat, 2, O_CREAT, O_CREAT, "MakeFile", "new", ""},
    {TEXT_MADE, SYS_symlinkat, 0, 0, 0, "MakeLink", "new", ""},
    {SECOND, SYS_linkat, 0, 0, 0, "MakeFile", "new", ""},
    {MOVED, SYS_renameat2, 0, 0, 0, "Rename", "f", ""},
    {UNLINKED, SYS_unlinkat, 0, 0, 0, "RemoveFile", "f", ""},
    {TREE, SYS_unlinkat, 2, AT_REMOVEDIR, 0, "RemoveFile", "t", ""},
    {TREE, SYS_getdents64, 0, 0, 0, "List", "", ""},
    /* Two files are removed before the first directory's turn comes. */
    {TREE, SYS_unlinkat, 2, AT_REMOVEDIR, AT_REMOVEDIR, "RemoveDir", "x", "t/x/y"},
};

static const struct row *row;

static unsigned value_of(void)
{
    if (row->value != FIRST_OPENED)
        return (unsigned)row->value;
    const int next = sure(dup(root), "dup");
    close(next);
    return (unsigned)next;
}

static void refused_so(void)
{
    ino_t before[NAMES];
    struct inroot_error why = {0};
    for (size_t one = 0; one < NAMES; one++)
        before[one] = inode(names[one]);
    refuse_where(row->number, row->argument, row->mask, value_of(), error);
    int open_before = row->number == SYS_getdents64 ? open_descriptors() : shown();
    int got = call(row->what);
    int open_after = row->number == SYS_getdents64 ? open_descriptors() : shown();
    gives(got, -error, "%s by error %d", row->step, error);
    expect(open_after == open_before, "%s by error %d leaves %d open", row->step, error, open_after - open_before);
    expect(inroot_last_error(&why) == 0 && why.error == error, "%s by error %d tells %d", row->step, error, why.error);
    expect(strcmp(why.step, row->step) == 0, "%s by error %d is told of %s", row->step, error, why.step);
    expect(strcmp(why.name, row->name) == 0, "%s by error %d is told of '%s'", row->step, error, why.name);
    for (size_t one = 0; one < NAMES; one++) {
        ino_t wanted = strcmp(names[one], row->gone) == 0 ? 0 : before[one];
        expect(inode(names[one]) == wanted, "%s by error %d changes %s", row->step, error, names[one]);
    }
}

static void plant(void)
{
    sure(mkdirat(root, "a", 0755), "a");
    sure(mkdirat(root, "a/b", 0755), "a/b");
    sure(mknodat(root, "a/b/f", S_IFREG | 0600, 0), "a/b/f");
    sure(symlinkat("b", root, "a/l"), "a/l");
    sure(mkdirat(root, "t", 0755), "t");
    sure(mkdirat(root, "t/x", 0755), "t/x");
    sure(mknodat(root, "t/x/y", S_IFREG | 0600, 0), "t/x/y");
    sure(mknodat(root, "t/z", S_IFREG | 0600, 0), "t/z");
}

/* What was removed is put back: other inodes, which are asked for anew. */
static void put_back(void)
{
    if (inode("t/x/y") == 0)
        sure(mknodat(root, "t/x/y", S_IFREG | 0600, 0), "t/x/y");
}

int main(int count, char **words)
{
    static const int errors[] = {EPERM, EIO, ENOMEM, EACCES, EBUSY, EXDEV, ENODEV, ENFILE, EMFILE, ETXTBSY, EFBIG, ENOSPC, EROFS,
                                 EMLINK, ENAMETOOLONG, ELOOP, EPROTO, EOVERFLOW, ESTALE, EDQUOT, EHWPOISON, 255, 256, 524};
    int skipped = 0;
    if (count != 2)
        return 2;
    root = sure(open(words[1], O_PATH | O_DIRECTORY | O_CLOEXEC), words[1]);
    proc = sure(open("/proc", O_PATH | O_DIRECTORY | O_CLOEXEC), "/proc");
    plant();
    open_proc();
    for (row = rows; row < rows + sizeof rows / sizeof *rows; row++)
        for (size_t by = 0; by < sizeof errors / sizeof *errors; by++) {
            error = errors[by];
            /* The kernel makes none of the steps that open. */
            for (flags = INROOT_EXACT; flags >= (row->what <= PLACE ? INROOT_EXACT : 0); flags -= INROOT_EXACT) {
                skipped |= apart(refused_so) == NO_RIGHT;
                put_back();
            }
        }
    printf("unmade: %d not as they are to be\n", wrong);
    return wrong != 0 ? 1 : skipped ? NO_RIGHT : 0;
}
