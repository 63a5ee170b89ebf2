/*
 * facts: what the driver tells the proved library is so. A C library that has no statx(2) gives what fstat(2) says, and leaves
 * the rest alone; a filter may have statx(2) do nothing, and say that it was made: nobody takes either for a mount, or two objects
 * for one by that. `..` of a directory that somebody moved out of its mount is ENOENT: nobody takes it for removed; and of the top
 * of a mount that was taken off it is that top itself: nobody goes on there.
 *
 * usage: facts DIR. Exits 0 where that holds. 77: no openat2(2) here. 78: no right to do what it takes.
 */
#define _GNU_SOURCE
#include "filter.h"
#include "wraps.h"

#include <sys/sysmacros.h>

static int base, root;
static char where[PATH_MAX];

/* ---- a C library without statx(2) */

static bool is_emulated;
/* It does nothing, and says that it was made. */
static bool is_unmade;

/* A directory whose `..` is ENOENT, or -1; and whether it was asked for its links then. */
static int without_parent = -1;
static bool is_asked;

/* What isn't told is left alone. That the mount's number is another one each time shows who reads it all the same. */
int __wrap_statx(int dir, const char *name, int flags, unsigned what, struct statx *about)
{
    static uint64_t left;
    struct stat told;
    is_asked |= dir == without_parent;
    if (is_unmade)
        return 0;
    if (!is_emulated)
        return __real_statx(dir, name, flags, what, about);
    if (fstatat(dir, name, &told, flags & (AT_EMPTY_PATH | AT_SYMLINK_NOFOLLOW | AT_NO_AUTOMOUNT)) != 0)
        return -1;
    about->stx_mask = STATX_BASIC_STATS;
    about->stx_mode = (uint16_t)told.st_mode;
    about->stx_ino = told.st_ino;
    about->stx_nlink = (uint32_t)told.st_nlink;
    about->stx_dev_major = major(told.st_dev);
    about->stx_dev_minor = minor(told.st_dev);
    about->stx_mnt_id = ++left;
    return 0;
}

/* What a function then finds on the stack that it hasn't set. */
__attribute__((noinline)) static void fill_stack(void)
{
    volatile unsigned char bytes[65536];
    for (size_t at = 0; at < sizeof bytes; at++)
        bytes[at] = 0xff;
}

static void lacks(const char *what)
{
    char place[PATH_MAX];
    struct inroot_error error = {0};
    int fd = sure(openat(root, "d/e/f", O_PATH | O_CLOEXEC), "f");
    fill_stack();
    gives(inroot_open(root, "d/e/f", INROOT_EXACT), -ENOSYS, "a file, where %s", what);
    gives(inroot_last_error(&error), 0, "the last error, where %s", what);
    gives_text(error.step, "Kernel", "the step, where %s", what);
    fill_stack();
    gives(inroot_place(root, fd, place, sizeof place), -ENOSYS, "a place, where %s", what);
    fill_stack();
    gives(inroot_reopen(fd, O_RDONLY), -ENOSYS, "a file once more, where %s", what);
    gives(inroot_proc_open(INROOT_PROC_SELF, "comm", O_RDONLY), -ENOSYS, "a file of /proc, where %s", what);
    close(fd);
}

static void emulated(void)
{
    is_emulated = true;
    lacks("the C library has no statx(2)");
}

static void unmade(void)
{
    is_unmade = true;
    lacks("statx(2) does nothing");
}

/* ---- `..` of what has left its mount */

/* What somebody does right before `..` is opened, and right behind it. */
static void (*act)(void), (*undo)(void);

static int my_openat(int dir, const char *name, int flags, mode_t mode)
{
    void (*now)(void) = strcmp(name, "..") == 0 ? act : NULL;
    if (now != NULL) {
        act = NULL;
        now();
    }
    int fd = __real_openat(dir, name, flags, mode);
    const int error = errno;
    if (now != NULL && fd < 0 && error == ENOENT)
        without_parent = dir;
    if (now != NULL && undo != NULL)
        undo();
    errno = error;
    return fd;
}

INSTEAD_OF_OPENAT(my_openat)

static void move_out(void)
{
    sure(renameat(base, "tree/d/e", base, "e"), "out");
}

static void move_in(void)
{
    sure(renameat(base, "e", base, "tree/d/e"), "in");
}

static void remove_it(void)
{
    sure(unlinkat(base, "tree/d/empty", AT_REMOVEDIR), "empty");
}

static void take_off(void)
{
    sure(umount2("box/d/e", MNT_DETACH), "umount");
}

/* In a mount namespace of its own. */
static void mount_over(const char *from, const char *name)
{
    own_mounts_or_end();
    sure(chdir(where), where);
    base = sure(open(".", O_PATH | O_DIRECTORY | O_CLOEXEC), where);
    if (mount(from, name, NULL, MS_BIND, NULL) != 0)
        _exit(NO_RIGHT);
    root = sure(openat(base, "box", O_PATH | O_DIRECTORY | O_CLOEXEC), "box");
}

static int opened_while(void (*is_done)(void), void (*is_undone)(void), const char *path, int flags)
{
    act = is_done;
    undo = is_undone;
    int fd = inroot_open(root, path, flags | INROOT_EXACT);
    gives(act == NULL, 1, "%s, flags %d: somebody acted", path, flags);
    return fd;
}

/* A walk that is led up to what was removed meanwhile begins again, as one does whose directory has no parent. */
static void parents(void)
{
    mount_over("tree", "box");
    gives(opened_while(move_out, move_in, "d/e/../f", INROOT_NO_RETRY), -EAGAIN, "a directory that left its mount");
    gives(without_parent >= 0, true, "the kernel has no `..` of it");
    gives(is_asked, true, "it is asked whether it was removed");
    without_parent = -1;
    int fd = opened_while(move_out, move_in, "d/e/../f", 0);
    gives_object(fd, base, "tree/d/f", "a directory that left its mount, and is back");
    gives(opened_while(remove_it, NULL, "d/empty/../f", INROOT_NO_RETRY), -EAGAIN, "a directory that was removed");
    sure(mkdirat(base, "tree/d/empty", 0755), "empty");
}

/* `..` of the top leads to that itself, since it stands in nothing any more. */
static void top_that_is_taken_off(void)
{
    mount_over("tree/d", "box/d/e");
    const int got = opened_while(take_off, NULL, "d/e/../f", INROOT_NO_RETRY);
    gives(got, -EAGAIN, "the top of a mount that is taken off");
}

/* The text of what is covered is that of what covers it: only which object it is says that the look-up has found another. */
static void covered(void)
{
    char place[PATH_MAX];
    mount_over("tree", "box");
    int fd = sure(openat(root, "d/e", O_PATH | O_CLOEXEC), "e");
    sure(mount("tree/d", "box/d/e", NULL, MS_BIND, NULL), "mount");
    gives(inroot_place(root, fd, place, sizeof place), -EXDEV, "the place of what is covered");
    is_unmade = true;
    gives(inroot_place(root, fd, place, sizeof place), -ENOSYS, "the place of what is covered, where statx(2) does nothing since");
    gives(inroot_open(root, "d/f", INROOT_EXACT | INROOT_NO_RETRY), -ENOSYS, "a file, where statx(2) does nothing since");
}

/* ---- */

static void make_tree(const char *name)
{
    static const char *const dirs[] = {"d", "d/e", "d/empty"};
    int top = sure(openat(base, name, O_PATH | O_DIRECTORY | O_CLOEXEC), name);
    for (size_t one = 0; one < sizeof dirs / sizeof *dirs; one++)
        sure(mkdirat(top, dirs[one], 0755), dirs[one]);
    sure(mknodat(top, "d/f", S_IFREG | 0600, 0), "f");
    sure(mknodat(top, "d/e/f", S_IFREG | 0600, 0), "f");
    close(top);
}

int main(int count, char **words)
{
    static void (*const parts[])(void) = {
        emulated, unmade, parents, top_that_is_taken_off, covered,
    };
    int skipped = 0;
    begin_in_box(count, words, &base, &root);
    if (realpath(words[1], where) == NULL)
        return 1;
    sure(mkdirat(base, "tree", 0755), "tree");
    make_tree("box");
    make_tree("tree");
    for (size_t one = 0; one < sizeof parts / sizeof *parts; one++) {
        const int status = apart(parts[one]);
        skipped = skipped ? skipped : status;
    }
    printf("facts: %d not as they are to be\n", wrong);
    return wrong != 0 ? 1 : skipped;
}
