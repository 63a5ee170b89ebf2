/* each.h: each kind of call once, on a small tree, for checks in which something is refused to it. */
#ifndef EACH_H
#define EACH_H

#include "support.h"

#include <errno.h>
#include <fcntl.h>
#include <string.h>
#include <sys/stat.h>

/* Opened once more, for use. */
static int open_again(int root)
{
    int fd = inroot_open(root, "a/link/f", 0);
    int again = fd < 0 ? fd : inroot_reopen(fd, O_RDWR);
    if (fd >= 0)
        close(fd);
    return again;
}

/* A file without a name, which gets one. */
static int publish(int root)
{
    int fd = inroot_openat(root, "a/link", O_WRONLY | O_TMPFILE, 0600, 0);
    int failed = fd < 0 ? fd : inroot_link_fd(root, fd, "a/link/new", 0);
    if (fd >= 0)
        close(fd);
    return failed;
}

static int place_of_link(int root)
{
    char place[64];
    int fd = inroot_open(root, "a/link/f", 0);
    ssize_t length = fd < 0 ? fd : inroot_place(root, fd, place, sizeof place);
    if (fd >= 0)
        close(fd);
    return (int)length;
}

/* What was found gets the mode and the times that it has. */
static int change(int root)
{
    int fd = inroot_open(root, "a/link/f", 0);
    int failed = fd < 0 ? fd : inroot_fchmod(fd, 0600);
    if (failed == 0)
        failed = inroot_futimens(fd, NULL);
    if (fd >= 0)
        close(fd);
    return failed;
}

/* A call by its number, and what undoes it. */
static int call(int root, int number)
{
    char text[256];
    struct stat about;
    switch (number) {
    case 0: return inroot_open(root, "a/link/../b/./f", 0);
    case 1: return inroot_open(root, "a/b/none", 0);
    case 2: return (int)inroot_readlink(root, "a/link", 0, text, sizeof text);
    case 3: return inroot_mknod(root, "a/link/new", S_IFREG | 0644, 0, 0);
    case 4: return inroot_mkdir(root, "a/link/newdir/", 0755, 0);
    case 5: return inroot_symlink(root, "some/text", "a/newlink", 0);
    case 6: return inroot_rename(root, "a/b/f", "/a/g", INROOT_NOREPLACE, 0);
    case 7: return inroot_unlink(root, "a/b/g", 0);
    case 8: return inroot_rmdir(root, "a/b/e", 0);
    case 9: return inroot_mkdir_all(root, "a/link/new/er", 0755, 0);
    case 10: return inroot_openat(root, "a/link/f", O_RDWR | O_TRUNC, 0, 0);
    case 11: return inroot_openat(root, "a/link/new", O_WRONLY | O_CREAT, 0600, 0);
    case 12: return inroot_openat(root, "a/link/new", O_WRONLY | O_CREAT | O_EXCL, 0600, 0);
    case 13: return inroot_openat(root, "a/dangling", O_WRONLY | O_CREAT, 0600, 0);
    case 14: return open_again(root);
    case 15: return inroot_mknod(root, "a/link/new", S_IFIFO | 0600, 0, 0);
    case 16: return inroot_link(root, "a/link/f", "a/newlink", 0);
    case 17: return inroot_link(root, "a/link", "a/newlink", 0);
    case 18: return inroot_stat(root, "a/link/f", &about, 0);
    case 19: return publish(root);
    case 20: return (int)inroot_remove_all(root, "a/deep", 0);
    case 21: return place_of_link(root);
    case 22: return inroot_open_parent(root, "a/link/new", 0, text);
    case 23: return inroot_mkdir(root, "a/link/newdir/", 0755, INROOT_GIVE);
    case 24: return inroot_symlink(root, "some/text", "a/newlink", INROOT_GIVE);
    case 25: return inroot_link(root, "a/link/f", "a/newlink", INROOT_GIVE);
    case 26: return inroot_mkfile_all(root, "a/link/new/er/file", 0644, 0755, 0);
    case 27: return inroot_mkfile_all(root, "a/dangling", 0644, 0755, INROOT_FOLLOW);
    case 28: return inroot_mkdir_all(root, "a/dangling/x", 0755, INROOT_FOLLOW);
    case 29: return inroot_openat(root, "a/link/new", O_PATH | O_CREAT, 0600, 0);
    case 30: return change(root);
    default: return (int)inroot_remove_all(root, "a/b", 0);
    }
}

enum { CALLS = 32 };

static bool opens(int number)
{
    return number < 2 || (number >= 9 && number <= 14) || (number >= 22 && number <= 29);
}

/* More levels than a call has handles for at first. */
static void make_deep(int root)
{
    char path[64] = "a/deep";
    for (int level = 0; level < 12; level++) {
        mkdirat(root, path, 0755);
        strcat(path, "/d");
    }
}

static void restore(int root, int result, int number)
{
    if (opens(number) && result >= 0)
        close(result);
    mkdirat(root, "a/b", 0755);
    mknodat(root, "a/b/f", S_IFREG | 0600, 0);
    unlinkat(root, "a/b/new/er/file", 0);
    unlinkat(root, "a/b/new/er", AT_REMOVEDIR);
    unlinkat(root, "a/b/new", AT_REMOVEDIR);
    unlinkat(root, "a/b/new", 0);
    unlinkat(root, "a/b/gone", 0);
    unlinkat(root, "a/b/gone/x", AT_REMOVEDIR);
    unlinkat(root, "a/b/gone", AT_REMOVEDIR);
    unlinkat(root, "a/b/newdir", AT_REMOVEDIR);
    unlinkat(root, "a/newlink", 0);
    make_deep(root);
    renameat(root, "a/g", root, "a/b/f");
    mknodat(root, "a/b/g", S_IFREG | 0600, 0);
    mkdirat(root, "a/b/e", 0755);
}

/* The same outcome: what was opened has a number that doesn't matter. */
__attribute__((unused)) static bool same(int a, int b)
{
    return a == b || (a >= 0 && b >= 0);
}

/* The tree below the root. */
static void make_tree(int root)
{
    sure(mkdirat(root, "a", 0755), "a");
    sure(mkdirat(root, "a/b", 0755), "a/b");
    sure(mknodat(root, "a/b/f", S_IFREG | 0600, 0), "a/b/f");
    sure(symlinkat("/a/../a/b", root, "a/link"), "a/link");
    sure(symlinkat("../a/b/gone", root, "a/dangling"), "a/dangling");
    restore(root, -1, CALLS);
}

#endif
