/*
 * between: somebody acts between two system calls of a call: as a link of /proc is about to be read, a directory to be
 * asked where it stands, or the names that were told to be looked up; also of the steps behind the kernel's walk. To be
 * linked with --wrap=readlinkat and --wrap=syscall.
 *
 * usage: between DIR. Exits 0 where each call tells what was so. 77: no openat2(2) here.
 */
#define _GNU_SOURCE
#include "../openat2.h"
#include "support.h"
#include "wraps.h"

#include <errno.h>
#include <fcntl.h>
#include <string.h>
#include <sys/stat.h>
#include <sys/syscall.h>

/* The root, `box` in the directory of the test. */
static int base, root;

/* The kernel walks no path, so that the steps do. */
static bool no_kernel_walk;

/* What is done, before which question about a place from here on. */
static void (*act)(void);
static int questions;

static void ask(void)
{
    if (act != NULL && --questions == 0) {
        act();
        act = NULL;
    }
}

/* A link of /proc has a name; the link that a descriptor is has none. */
ssize_t __wrap_readlinkat(int dir, const char *name, char *text, size_t size)
{
    if (name[0] != 0)
        ask();
    return __real_readlinkat(dir, name, text, size);
}

static long my_syscall(long number, const long *with)
{
    /* The second witness opens names as they are. */
    const struct open_how *how = number == SYS_openat2 ? (const struct open_how *)with[2] : NULL;
    if (no_kernel_walk && how != NULL && how->resolve & RESOLVE_IN_ROOT) {
        errno = EAGAIN;
        return -1;
    }
    if (how != NULL && how->resolve & RESOLVE_BENEATH && how->flags & O_NOFOLLOW)
        ask();
    return REAL_SYSCALL(number, with);
}

INSTEAD_OF_SYSCALL(my_syscall)

static void move(int from, const char *old, int to, const char *new)
{
    sure(renameat(from, old, to, new), old);
}

/* What others do, and undo. The other root's name is this one's with a letter behind it, as the path of what is in it would be. */
static void move_file(void) { move(root, "2/f", base, "f"); }
static void return_file(void) { move(base, "f", root, "2/f"); }
static void remove_file(void) { sure(unlinkat(root, "2/f", 0), "2/f"); }
static void make_file(void) { sure(mknodat(root, "2/f", S_IFREG | 0600, 0), "2/f"); }
static void move_root(void) { move(base, "box", base, "moved"); }
static void return_root(void) { move(base, "moved", base, "box"); }
static void move_beside(void) { move(root, "2", base, "box2"); }
static void move_back(void) { move(base, "box2", root, "2"); }
static void move_out(void) { move(root, "2/d", base, "d"); }
static void move_in(void) { move(base, "d", root, "2/d"); }
static void remove_directory(void) { sure(unlinkat(root, "2/d", AT_REMOVEDIR), "2/d"); }
static void make_directory(void) { sure(mkdirat(root, "2/d", 0755), "2/d"); }
static void put_link(void) { move(root, "2", root, "3"); sure(symlinkat("3", root, "2"), "2"); }
static void take_link(void) { sure(unlinkat(root, "2", 0), "2"); move(root, "3", root, "2"); }
static void exchange(void) { sure((int)syscall(SYS_renameat2, root, "2/f", root, "2/g", 2), "2/g"); }

/*
 * Each path, what is done before which question of a call with INROOT_EXACT, what undoes it, and what the call gives with one try.
 */
static const struct {
    const char *path;
    int questions;
    void (*done)(void), (*undone)(void);
    int wanted;
} rows[] = {
    {"2/d", 1, move_beside, move_back, -EAGAIN},
    {"2/f", 1, move_beside, move_back, -EAGAIN},
    {"2/d/..", 1, move_beside, move_back, -EAGAIN},
    {"2/d", 2, move_beside, move_back, -EAGAIN},
    {"2/d", 3, move_beside, move_back, -EAGAIN},
    {"2/d", 3, move_out, move_in, -EAGAIN},
    {"2/d", 1, move_out, move_in, -EAGAIN},
    {"2/f", 1, move_file, return_file, -EAGAIN},
    {"2/f", 2, move_file, return_file, -EAGAIN},
    {"2/f", 3, move_file, return_file, -EAGAIN},
    {"2/d", 3, remove_directory, make_directory, -EAGAIN},
    {"2/d", 1, remove_directory, make_directory, -EAGAIN},
    {"2/f", 1, remove_file, make_file, -EAGAIN},
    {"2/d", 1, move_root, return_root, 0},
    {"2/d", 2, move_root, return_root, -EAGAIN},
    {"2/f", 3, move_root, return_root, -EAGAIN},
    {"2/f", 1, exchange, exchange, -EAGAIN},
    {"2/d", 4, remove_directory, make_directory, -EAGAIN},
    {"2/d", 3, put_link, take_link, -EAGAIN},
    {"2/f", 1, put_link, take_link, -EAGAIN},
};

/* One call of a row, whose path stands behind these words. */
static void one(size_t row, const char *before, int flags)
{
    const int wanted = rows[row].wanted;
    char path[16];
    snprintf(path, sizeof path, "%s%s", before, rows[row].path);
    act = rows[row].done;
    questions = rows[row].questions;
    int fd = inroot_open(root, path, flags | INROOT_NO_RETRY);
    bool has_acted = act == NULL;
    act = NULL;
    gives(fd < 0 ? fd : 0, wanted, "row %zu, %s, flags %d", row, path, flags);
    if (fd >= 0)
        close(fd);
    if (has_acted)
        rows[row].undone();
    else
        expect(wanted == 0, "row %zu, %s, flags %d: the question before which somebody was to act didn't come", row, path, flags);
}

static void each(void)
{
    for (size_t row = 0; row < sizeof rows / sizeof *rows; row++) {
        one(row, "", INROOT_EXACT);
        one(row, "./", INROOT_EXACT);
        one(row, "/", INROOT_EXACT);
    }
}

/* By the steps behind the kernel's walk the names that were passed are looked up at last: that is the first question. */
static void by_steps(void)
{
    no_kernel_walk = true;
    for (size_t row = 0; row < sizeof rows / sizeof *rows; row++)
        if (rows[row].questions == 1)
            one(row, "", 0);
    no_kernel_walk = false;
}

int main(int count, char **words)
{
    begin_in_box(count, words, &base, &root);
    sure(mkdirat(root, "2", 0755), "2");
    make_directory();
    make_file();
    sure(mknodat(root, "2/g", S_IFREG | 0600, 0), "2/g");
    open_proc();
    each();
    by_steps();
    printf("between: %d not as they are to be\n", wrong);
    return wrong != 0;
}
