/*
 * mounts: mounts below the root, by a bind mount of the same file system, of a file, and of another file system; a
 * mount on which no link is followed (nosymfollow), which the calls keep to; and a mounted file whose own entry is
 * replaced. Under INROOT_NO_XDEV no call goes there, makes, moves or removes anything there, also with INROOT_EXACT.
 *
 * usage: mounts DIR. Exits 0 where each call ends as openat2(2) does with RESOLVE_NO_XDEV, and what is mounted is as
 * it was. 77: no openat2(2) here. 78: no right to mount here.
 */
#define _GNU_SOURCE
#include "../openat2.h"
#include "support.h"
#include "wraps.h"

#include <errno.h>
#include <fcntl.h>
#include <limits.h>
#include <string.h>
#include <sys/stat.h>
#include <sys/syscall.h>

enum { FLAGS = INROOT_NO_XDEV | INROOT_NO_RETRY };

/* MS_NOSYMFOLLOW, which the headers may not have. */
enum { NOSYMFOLLOW = 256 };

static int base, root, more_flags;
static char where[PATH_MAX];

/* Something is mounted as `..` is about to be opened; a link is placed where a file is about to be made. */
static bool mounts_at_dots, links_at_making;

static void put(const char *source, const char *target, const char *kind)
{
    char from[2 * PATH_MAX], to[2 * PATH_MAX];
    snprintf(from, sizeof from, "%s/%s", where, source);
    snprintf(to, sizeof to, "%s/root/%s", where, target);
    sure(mount(kind == NULL ? from : "none", to, kind, kind == NULL ? MS_BIND : 0, NULL), target);
}

static long my_syscall(long number, const long *with)
{
    if (mounts_at_dots && number == SYS_openat2 && strcmp((const char *)with[1], "..") == 0) {
        mounts_at_dots = false;
        put("host", "d", NULL);
    }
    return REAL_SYSCALL(number, with);
}

INSTEAD_OF_SYSCALL(my_syscall)

static int my_openat(int dir, const char *name, int flags, mode_t mode)
{
    if (links_at_making && flags & O_CREAT) {
        links_at_making = false;
        sure(symlinkat("none", root, "t/other/new"), "t/other/new");
    }
    return __real_openat(dir, name, flags, mode);
}

INSTEAD_OF_OPENAT(my_openat)

static void open_roots(void)
{
    base = sure(open(where, O_PATH | O_DIRECTORY | O_CLOEXEC), where);
    root = sure(openat(base, "root", O_PATH | O_DIRECTORY | O_CLOEXEC), "root");
}

static void make(const char *path, bool is_file)
{
    sure(is_file ? mknodat(root, path, S_IFREG | 0600, 0) : mkdirat(root, path, 0755), path);
}

static bool is_there(int dir, const char *path)
{
    return faccessat(dir, path, F_OK, AT_SYMLINK_NOFOLLOW) == 0;
}

/* What is mounted has what it had, and nothing else. */
static void untouched(const char *when)
{
    static const char *const made[] = {"host/new", "host/in/new", "host/moved"};
    struct stat about;
    bool same = is_there(base, "host/in/deep") && fstatat(base, "host/kept", &about, 0) == 0 && about.st_nlink == 1;
    for (size_t one = 0; one < sizeof made / sizeof *made; one++)
        same = same && !is_there(base, made[one]);
    expect(same && is_there(root, "t/other/x"), "%s: what is mounted was changed", when);
}

/* ---- what is opened, beside openat2(2) */

static const char *const paths[] = {
    ".", "t", "t/a", "t/m", "t/m/", "t/m/kept", "t/m/in/deep", "t/m/..", "t/m/../a", "t/m/none", "t/file", "t/other",
    "t/other/x", "t/a/../m", "t/a/../m/kept", "l", "l/kept", "abs", "abs/in", "t/a/x", "/t/./a/x", "t/none", "t/a/x/y",
    "up", "t/a/../../../t/a/x", "t/b/same", "proc-like/m", "over", "over/x", "t/over/x",
};

static int by_the_kernel(const char *path)
{
    const struct open_how how = {.flags = O_PATH | O_CLOEXEC, .resolve = RESOLVE_IN_ROOT | RESOLVE_NO_XDEV};
    int fd;
    /* It gives EAGAIN of a `..` where somebody renames anything meanwhile, also elsewhere. */
    do
        fd = (int)__real_syscall(SYS_openat2, root, path, &how, sizeof how);
    while (fd < 0 && errno == EAGAIN);
    return fd < 0 ? -errno : fd;
}

static void opens(const char *path)
{
    struct stat one = {0}, other = {0};
    int wanted = by_the_kernel(path), got = inroot_open(root, path, FLAGS | more_flags);
    bool same = wanted < 0 ? got == wanted
                           : got >= 0 && fstat(got, &one) == 0 && fstat(wanted, &other) == 0 &&
                                 one.st_ino == other.st_ino && one.st_dev == other.st_dev;
    expect(same, "%s, flags %d: wanted what openat2(2) gives, %d, got %d", path, more_flags, wanted, got);
    if (wanted >= 0)
        close(wanted);
    if (got >= 0)
        close(got);
}

/* ---- what is changed */

static void is_refused(int got, int wanted, const char *what)
{
    gives(got, wanted, "%s, flags %d", what, more_flags);
}

/* Each call on the root's own mount, by a path through another one and back. */
static const char *const behind_names[] = {
    "mknod", "mkdir", "symlink", "openat", "create", "link", "link to", "link_fd", "rename from", "rename to", "unlink", "rmdir", "stat",
    "readlink", "mkdir_all", "mkfile_all", "remove_all", "open_parent",
};
enum { BEHIND = sizeof behind_names / sizeof *behind_names };

static int behind(size_t which, int flags)
{
    static const char there[] = "t/m/../a/x", new[] = "t/m/../a/new";
    struct stat about;
    char text[256];
    switch (which) {
    case 0: return inroot_mknod(root, new, S_IFREG | 0600, 0, flags);
    case 1: return inroot_mkdir(root, new, 0700, flags);
    case 2: return inroot_symlink(root, "x", new, flags);
    case 3: return inroot_openat(root, there, O_RDWR, 0, flags);
    case 4: return inroot_openat(root, new, O_RDWR | O_CREAT | O_EXCL, 0600, flags);
    case 5: return inroot_link(root, there, "t/a/new", flags);
    case 6: return inroot_link(root, "t/a/x", new, flags);
    case 7: return inroot_link_fd(root, base, new, flags);
    case 8: return inroot_rename(root, there, "t/a/new", 0, flags);
    case 9: return inroot_rename(root, "t/a/x", new, 0, flags);
    case 10: return inroot_unlink(root, there, flags);
    case 11: return inroot_rmdir(root, "t/m/../r", flags);
    case 12: return inroot_stat(root, there, &about, flags);
    case 13: return (int)inroot_readlink(root, "t/m/../../l", flags, text, sizeof text);
    case 14: return inroot_mkdir_all(root, new, 0700, flags);
    case 15: return inroot_mkfile_all(root, new, 0600, 0700, flags);
    case 16: return (int)inroot_remove_all(root, there, flags);
    default: return inroot_open_parent(root, new, flags, text);
    }
}

static void changes(void)
{
    struct stat about;
    char text[8], last[256];
    int flags = FLAGS | more_flags, own = sure(openat(root, "t/a/x", O_PATH | O_CLOEXEC), "t/a/x");
    is_refused(inroot_mknod(root, "t/m/new", S_IFREG | 0600, 0, flags), -EXDEV, "a file");
    is_refused(inroot_mkdir(root, "t/m/new", 0700, flags), -EXDEV, "a directory");
    is_refused(inroot_mkdir(root, "t/m", 0700, flags), -EEXIST, "a directory where something is mounted");
    is_refused(inroot_mkdir_all(root, "t/m/in/new", 0700, flags), -EXDEV, "directories");
    is_refused(inroot_mkdir_all(root, "t/m", 0700, flags), -EXDEV, "directories up to a mount");
    is_refused(inroot_symlink(root, "x", "l/new", flags), -EXDEV, "a link");
    is_refused(inroot_openat(root, "t/m/new", O_RDWR | O_CREAT, 0600, flags), -EXDEV, "a file that is opened");
    is_refused(inroot_openat(root, "t/m/new", O_RDWR | O_CREAT | O_EXCL, 0600, flags), -EXDEV, "a new file");
    is_refused(inroot_openat(root, "t/m", O_RDWR | O_TMPFILE, 0600, flags), -EXDEV, "a file without a name");
    is_refused(inroot_openat(root, "t/file", O_WRONLY | O_TRUNC, 0, flags), -EXDEV, "a file that is mounted");
    is_refused(inroot_rename(root, "t/a/x", "t/m/moved", 0, flags), -EXDEV, "a rename to a mount");
    is_refused(inroot_rename(root, "t/m/kept", "t/a/moved", 0, flags), -EXDEV, "a rename from a mount");
    is_refused(inroot_rename(root, "t/m/kept", "t/m/moved", 0, flags), -EXDEV, "a rename on a mount");
    is_refused(inroot_link(root, "t/m/kept", "t/a/moved", flags), -EXDEV, "a second name of what is on a mount");
    is_refused(inroot_link(root, "t/a/x", "t/m/moved", flags), -EXDEV, "a second name on a mount");
    is_refused(inroot_link_fd(root, own, "t/m/moved", flags), -EXDEV, "a second name of what is open on a mount");
    is_refused(inroot_unlink(root, "t/m/kept", flags), -EXDEV, "what is removed");
    is_refused(inroot_rmdir(root, "t/m/in", flags), -EXDEV, "a directory that is removed");
    is_refused(inroot_rmdir(root, "t/m", flags), -EBUSY, "a directory on which something is mounted");
    is_refused(inroot_unlink(root, "t/file", flags), -EBUSY, "a file on which something is mounted");
    is_refused(inroot_stat(root, "t/m", &about, flags), -EXDEV, "what is told of");
    is_refused((int)inroot_readlink(root, "t/m/link", flags, text, sizeof text), -EXDEV, "a link that is read");
    is_refused((int)inroot_remove_all(root, "t/m", flags), -EXDEV, "a tree that is mounted");
    is_refused((int)inroot_remove_all(root, "t/m/in", flags), -EXDEV, "a tree in what is mounted");
    is_refused((int)inroot_remove_all(root, "t/file", flags), -EBUSY, "a file that is mounted");
    close(own);
    is_refused(inroot_open_parent(root, "t/m/new", flags, last), -EXDEV, "the directory of what is on a mount");
    is_refused(inroot_mkfile_all(root, "t/m/in/new", 0600, 0700, flags | INROOT_FOLLOW), -EXDEV, "a file with all above");
    is_refused(inroot_mknod(root, "t/m/new", S_IFREG | 0600, 0, flags | INROOT_GIVE), -EXDEV, "a file that is given");
    for (size_t one = 0; one < BEHIND; one++)
        is_refused(behind(one, flags), -EXDEV, behind_names[one]);
    expect(is_there(root, "t/a/x") && !is_there(root, "t/a/new"), "what is behind a mount was changed");
    untouched("refused");
    /* On its own mount all goes as without. */
    int made = inroot_mkdir_all(root, "t/a/y/z", 0700, flags);
    gives_fd(made, "directories on the root's mount");
    gives(close(made), 0, "their closing");
    gives(inroot_remove_all(root, "t/a/y", flags), 2, "a tree on the root's mount");
}

/* In the order of their bytes what stands before a mount goes; nothing that is mounted does. */
static void removes(const char *tree, const char *before, const char *mounted, const char *after, int wanted)
{
    struct inroot_error why = {0};
    char path[64];
    ssize_t got = inroot_remove_all(root, tree, FLAGS | more_flags);
    gives(got, wanted, "%s is removed, flags %d", tree, more_flags);
    gives(inroot_last_error(&why), 0, "%s: its last error", tree);
    gives_text(why.name, mounted, "%s: the name of its last error", tree);
    snprintf(path, sizeof path, "%s/%s", tree, before);
    expect(!is_there(root, path), "%s is left", path);
    snprintf(path, sizeof path, "%s/%s", tree, after);
    expect(is_there(root, path), "%s is gone", path);
    untouched(tree);
}

static void trees(void)
{
    put("host", "r/m", NULL);
    put("host/kept", "s/m", NULL);
    removes("r", "a", "m", "z", -EXDEV);
    removes("s", "a", "m", "z", -EBUSY);
}

/* It is mounted above the walk, so that `..` leads there. */
static void up(void)
{
    mounts_at_dots = true;
    int fd = inroot_open(root, "d/e/..", FLAGS | INROOT_EXACT);
    gives(fd, -EXDEV, "`..` to a mount that came meanwhile");
    expect(!mounts_at_dots, "no mount came in between");
}

/* Without the flag what is mounted is emptied, before the directory below it is refused. */
static void without(void)
{
    ssize_t got = inroot_remove_all(root, "t/m", more_flags);
    gives(got, -EBUSY, "a mounted tree");
    expect(!is_there(base, "host/kept"), "a mounted tree: what is in it is there still");
    expect(!is_there(base, "host/in"), "a mounted tree: a directory in it is there still");
    sure(mkdirat(base, "host/in", 0755), "host/in");
    sure(mknodat(base, "host/kept", S_IFREG | 0600, 0), "host/kept");
    sure(mknodat(base, "host/in/deep", S_IFREG | 0600, 0), "host/in/deep");
}

/* ---- a mount on which no link is followed */

static void not_followed(const char *path, int wanted)
{
    static const int ways[] = {0, INROOT_EXACT};
    for (size_t way = 0; way < sizeof ways / sizeof *ways; way++) {
        int fd = inroot_open(root, path, ways[way]);
        is_refused(fd < 0 ? fd : 0, wanted, path);
        if (fd >= 0)
            close(fd);
    }
}

static void each_link(void)
{
    char text[8];
    not_followed("t/other/l", -ELOOP);
    not_followed("t/other/./l", -ELOOP);
    not_followed("t/other/abs/a/x", -ELOOP);
    not_followed("to", -ELOOP);
    not_followed("t/a/../other/x", 0);
    is_refused(inroot_openat(root, "t/other/l", O_RDWR, 0, 0), -ELOOP, "a file behind a link");
    is_refused(inroot_openat(root, "t/other/dangling", O_RDWR | O_CREAT, 0600, 0), -ELOOP, "a new file behind a link");
    links_at_making = true;
    is_refused(inroot_openat(root, "t/other/new", O_RDWR | O_CREAT, 0600, 0), -ELOOP, "a link came in between");
    expect(!links_at_making, "no link came in between");
    gives(unlinkat(root, "t/other/new", 0), 0, "the link that came");
    expect(!is_there(root, "t/other/none"), "a file was made behind a link");
    is_refused(inroot_link(root, "t/other/l", "t/other/second", INROOT_FOLLOW), -ELOOP, "a second name behind a link");
    is_refused(inroot_mkdir_all(root, "t/other/abs/new", 0700, 0), -ELOOP, "directories behind a link");
    /* The link itself is there as elsewhere. */
    is_refused((int)inroot_readlink(root, "t/other/l", 0, text, sizeof text), 1, "a link's text");
    is_refused((int)inroot_readlink(root, "to", 0, text, sizeof text), 9, "a link's text");
    is_refused((int)inroot_readlink(root, "t/other/abs/up", 0, text, sizeof text), -ELOOP, "a link behind a link");
    int fd = inroot_open(root, "t/other/l", INROOT_NOFOLLOW);
    gives_fd(fd, "a link itself");
    gives(close(fd), 0, "its closing");
}

static void without_links(void)
{
    char target[2 * PATH_MAX];
    own_mounts_or_end();
    open_roots();
    snprintf(target, sizeof target, "%s/root/t/other", where);
    sure(mount("none", target, "tmpfs", NOSYMFOLLOW, NULL), target);
    make("t/other/x", true);
    sure(symlinkat("x", root, "t/other/l"), "l");
    sure(symlinkat("/t", root, "t/other/abs"), "abs");
    sure(symlinkat("none", root, "t/other/dangling"), "dangling");
    /* Before Linux 5.10 there are no such mounts. */
    if (openat(root, "t/other/l", O_PATH | O_CLOEXEC) >= 0)
        _exit(NO_RIGHT);
    each_link();
}

/* ---- */

/* Its own entry was replaced where it was mounted from. The kernel calls it removed, though it is there. */
static void replaced(void)
{
    char place[PATH_MAX];
    own_mounts_or_end();
    make("here", true);
    make("kept", true);
    make("next", true);
    put("root/kept", "here", NULL);
    open_roots();
    struct stat about;
    int opened = inroot_open(root, "here", 0);
    gives_object(opened, root, "here", "a file that is mounted");
    sure(renameat(root, "next", root, "kept"), "next");
    gives(inroot_open(root, "here", INROOT_EXACT | INROOT_NO_RETRY), -EAGAIN, "it, once another has its name");
    gives(inroot_stat(root, "here", &about, INROOT_EXACT | INROOT_NO_RETRY), -EAGAIN, "its status");
    gives(inroot_place(root, opened, place, sizeof place), -ENOENT, "its place");
    gives_object(inroot_open(root, "here", 0), root, "here", "it by the kernel's walk");
    umount2("root/here", MNT_DETACH);
    sure(unlinkat(root, "here", 0), "here");
    sure(unlinkat(root, "kept", 0), "kept");
}

static void make_tree(void)
{
    static const char *const dirs[] = {
        "t", "t/a", "t/m", "t/other", "t/b", "t/b/same", "d", "d/e", "r", "r/a", "r/m", "r/z", "s",
    };
    static const char *const files[] = {"t/a/x", "t/file", "s/a", "s/m", "s/z"};
    static const char *const of_host[] = {"host", "host/in"};
    for (size_t one = 0; one < 2; one++)
        sure(mkdirat(base, of_host[one], 0755), of_host[one]);
    sure(mknodat(base, "host/kept", S_IFREG | 0600, 0), "host/kept");
    sure(mknodat(base, "host/in/deep", S_IFREG | 0600, 0), "host/in/deep");
    for (size_t one = 0; one < sizeof dirs / sizeof *dirs; one++)
        make(dirs[one], false);
    for (size_t one = 0; one < sizeof files / sizeof *files; one++)
        make(files[one], true);
    sure(symlinkat("t/m", root, "l"), "l");
    sure(symlinkat("/t/m", root, "abs"), "abs");
    sure(symlinkat("t/m/../a", root, "up"), "up");
    sure(symlinkat("t/other/l", root, "to"), "to");
    sure(symlinkat("t/none", root, "over"), "over");
    sure(symlinkat("none", root, "t/over"), "t/over");
    sure(symlinkat("t/a", root, "source"), "source");
}

/* A link over a link: mount(2) follows none of a descriptor. */
static void put_link(const char *source, const char *target)
{
    char from[32], to[32];
    int one = sure(openat(root, source, O_PATH | O_NOFOLLOW | O_CLOEXEC), source);
    int other = sure(openat(root, target, O_PATH | O_NOFOLLOW | O_CLOEXEC), target);
    snprintf(from, sizeof from, "/proc/self/fd/%d", one);
    snprintf(to, sizeof to, "/proc/self/fd/%d", other);
    sure(mount(from, to, NULL, MS_BIND, NULL), target);
    close(one);
    close(other);
}

/* In a mount namespace of this process's own, which ends with it. What was opened before stands in another. */
static void mount_all(void)
{
    own_mounts_or_end();
    open_roots();
    put("host", "t/m", NULL);
    put("host/kept", "t/file", NULL);
    put("root/t/a", "t/b/same", NULL);
    put("", "t/other", "tmpfs");
    put_link("source", "over");
    put_link("source", "t/over");
    make("t/other/x", false);
}

static void each(void)
{
    for (int way = 0; way < 2; way++) {
        more_flags = way == 0 ? 0 : INROOT_EXACT;
        for (size_t one = 0; one < sizeof paths / sizeof *paths; one++)
            opens(paths[one]);
        changes();
    }
}

static void mounted(void)
{
    mount_all();
    each();
    more_flags = 0;
    without();
    trees();
    up();
}

int main(int count, char **words)
{
    static void (*const parts[])(void) = {
        mounted, without_links, replaced,
    };
    static const char *const whole[] = {"r/a", "s/a"};
    int skipped = 0;
    if (count != 2)
        return 2;
    if (realpath(words[1], where) == NULL || chdir(where) != 0)
        return 1;
    sure(mkdir("root", 0755), "root");
    open_roots();
    make_tree();
    if (!has_openat2())
        return NO_OPENAT2;
    for (size_t one = 0; one < sizeof parts / sizeof *parts; one++) {
        skipped |= apart(parts[one]) == NO_RIGHT;
        for (size_t other = 0; other < 2; other++)
            if (!is_there(root, whole[other]))
                make(whole[other], other == 1);
    }
    printf("mounts: %d not as they are to be\n", wrong);
    return wrong != 0 ? 1 : skipped ? NO_RIGHT : 0;
}
