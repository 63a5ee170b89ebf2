/*
 * path_once: somebody changes the text of a path as soon as a call has made a system call. What is opened, made,
 * renamed or removed is what the text said as the call began; also at a second try, and of a new file.
 *
 * usage: path_once DIR. Exits 0 where that holds.
 */
#define _GNU_SOURCE
#include "support.h"
#include "wraps.h"

#include <errno.h>
#include <fcntl.h>
#include <string.h>
#include <sys/stat.h>
#include <sys/syscall.h>

/* FLAGS are 0, or INROOT_EXACT. */
static int root, flags;

/* What the call is given, and what that becomes; and whether its first question gets a wrong answer. */
static char first[32], second[32];
static struct texts {
    const char *first, *first_later, *second, *second_later;
} later;
static bool is_on, lies;
static unsigned changes;

static void change(void)
{
    if (!is_on)
        return;
    strcpy(first, later.first_later);
    strcpy(second, later.second_later);
    changes++;
}

/* Whether it is the name of a descriptor in /proc, and not that of a link on the path. */
static bool is_descriptor(const char *name)
{
    return strncmp(name, "thread-self/", 12) == 0 || (name[0] >= '0' && name[0] <= '9');
}

/* So that the call's first try ends by EAGAIN. */
ssize_t __wrap_readlinkat(int dir, const char *name, char *text, size_t size)
{
    change();
    if (!lies || !is_descriptor(name))
        return __real_readlinkat(dir, name, text, size);
    lies = false;
    memcpy(text, "/none", 5);
    return 5;
}

static int my_openat(int dir, const char *name, int flags, mode_t mode)
{
    int fd = __real_openat(dir, name, flags, mode);
    change();
    return fd;
}

INSTEAD_OF_OPENAT(my_openat)

static long my_syscall(long number, const long *with)
{
    long result = REAL_SYSCALL(number, with);
    change();
    return result;
}

INSTEAD_OF_SYSCALL(my_syscall)

static int open_it(void) { return inroot_open(root, first, flags); }
static int make_file(void) { return inroot_openat(root, first, O_RDWR | O_CREAT, 0600, flags); }
static int make_node(void) { return inroot_mknod(root, first, S_IFREG | 0600, 0, flags); }
static int make_directories(void) { return inroot_mkdir_all(root, first, 0700, flags); }
static int remove_tree(void) { return (int)inroot_remove_all(root, first, flags); }
static int rename_it(void) { return inroot_rename(root, first, second, INROOT_PLAIN, flags); }
static int make_name(void) { return inroot_link(root, first, second, flags); }
static int make_link(void) { return inroot_symlink(root, first, second, flags); }

/* What it gives, while its texts are changed. */
static int changed(int (*call)(void), struct texts with, const char *what, bool is_tried_again)
{
    strcpy(first, with.first);
    strcpy(second, with.second);
    later = with;
    changes = 0;
    lies = is_tried_again;
    is_on = true;
    const int result = call();
    is_on = lies = false;
    gives_least(changes, 1, "%s: changes of the text", what);
    return result;
}

/* ---- what is there is opened, and it is this one */

static void opens(const char *path, bool is_tried_again)
{
    struct stat about = {0}, wanted;
    sure(fstatat(root, "a/f", &wanted, 0), "a/f");
    const int fd = changed(open_it, (struct texts){path, "out/secret", "", ""}, path, is_tried_again);
    gives_fd(fd, "%s, flags %d", path, flags);
    gives(fd < 0 ? 0 : fstat(fd, &about), 0, "%s, flags %d: fstat(2) of it", path, flags);
    gives((long)about.st_ino, (long)wanted.st_ino, "%s, flags %d: the inode", path, flags);
    close(fd);
}

/* ---- what is made, renamed or removed, and which entry is there then: of each the other one isn't */

static const struct {
    const char *what;
    int (*call)(void);
    struct texts with;
    const char *wanted, *other;
} calls[] = {
    {"a file", make_file, {"a/new", "out/new", "", ""}, "a/new", "out/new"},
    {"a file at the end of a link", make_file, {"a/dangling", "out/dangling", "", ""}, "a/target", "out/dangling"},
    {"an empty file", make_node, {"a/new", "out/new", "", ""}, "a/new", "out/new"},
    {"directories", make_directories, {"a/b/new/er", "out/b/new/er", "", ""}, "a/b/new/er", "out/b"},
    {"a removal", remove_tree, {"a/b/new", "out", "", ""}, "out/secret", "a/b/new"},
    {"a second name", make_name, {"a/f", "out/secret", "a/g", "out/g"}, "a/g", "out/g"},
    {"a rename", rename_it, {"a/f", "out/secret", "a/h", "out/h"}, "a/h", "out/h"},
    {"a link", make_link, {"text", "other", "a/l", "out/l"}, "a/l", "out/l"},
};

static void makes(bool is_tried_again)
{
    struct stat wanted, named = {0}, renamed = {0};
    char text[8] = "";
    sure(fstatat(root, "a/f", &wanted, 0), "a/f");
    for (size_t one = 0; one < sizeof calls / sizeof *calls; one++) {
        const int result = changed(calls[one].call, calls[one].with, calls[one].what, is_tried_again);
        gives_least(result, 0, "%s, flags %d", calls[one].what, flags);
        sure(faccessat(root, calls[one].wanted, F_OK, AT_SYMLINK_NOFOLLOW), calls[one].wanted);
        gives(faccessat(root, calls[one].other, F_OK, AT_SYMLINK_NOFOLLOW), -1, "%s: %s", calls[one].what, calls[one].other);
        if (calls[one].call == make_file || calls[one].call == make_directories)
            close(result);
        if (calls[one].call == make_file || calls[one].call == make_node)
            unlinkat(root, calls[one].wanted, 0);
    }
    sure(fstatat(root, "a/g", &named, 0), "a/g");
    sure(fstatat(root, "a/h", &renamed, 0), "a/h");
    gives(named.st_ino == wanted.st_ino && renamed.st_ino == wanted.st_ino, true, "the inode of what got another name");
    gives(__real_readlinkat(root, "a/l", text, sizeof text - 1), 4, "the length of a link's text");
    gives_text(text, "text", "a link's text");
    sure(renameat(root, "a/h", root, "a/f"), "a/f");
    unlinkat(root, "a/g", 0);
    unlinkat(root, "a/l", 0);
}

/* A wrong answer to its first question has a call with INROOT_EXACT begin anew. */
static void each(int way)
{
    static const char *const paths[] = {"a/f", "/a/f", "a/../a/f", "l/f", "a/b/../f"};
    flags = way;
    for (int again = 0; again < (way & INROOT_EXACT ? 2 : 1); again++) {
        for (size_t one = 0; one < sizeof paths / sizeof *paths; one++)
            opens(paths[one], again);
        makes(again);
    }
}

int main(int count, char **words)
{
    static const char *const dirs[] = {"a", "a/b", "out"};
    if (count != 2)
        return 2;
    root = sure(open(words[1], O_PATH | O_DIRECTORY | O_CLOEXEC), words[1]);
    for (size_t one = 0; one < sizeof dirs / sizeof *dirs; one++)
        sure(mkdirat(root, dirs[one], 0755), dirs[one]);
    sure(mknodat(root, "a/f", S_IFREG | 0600, 0), "a/f");
    sure(mknodat(root, "out/secret", S_IFREG | 0600, 0), "out/secret");
    sure(symlinkat("/a", root, "l"), "l");
    sure(symlinkat("target", root, "a/dangling"), "a/dangling");
    open_proc();
    each(0);
    each(INROOT_EXACT);
    printf("path_once: %d not as they are to be\n", wrong);
    return wrong != 0;
}
