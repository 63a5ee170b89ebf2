/*
 * quiet: where nobody acts, no place is in doubt: what stands in directories of the machine, and below mounts of several kinds, is
 * opened by one try in each spelling of its path, and is what openat2(2) opens by RESOLVE_IN_ROOT, by the same mount: by the kernel's walk and
 * with INROOT_EXACT, also in a chroot.
 *
 * usage: quiet DIR. Exits 0 where that holds. 77: no openat2(2) here. 78: no right to change a root or to mount, so that a part is
 * left out.
 */
#define _GNU_SOURCE
#include "../openat2.h"
#include "support.h"

#include <dirent.h>
#include <errno.h>
#include <limits.h>
#include <string.h>
#include <sys/stat.h>
#include <sys/syscall.h>

/* So many paths of each root, and so deep. */
enum { MOST = 250, DEEP = 5 };

static char where[PATH_MAX];
static const char *what;
static int root, paths, differ;
static bool by_any_mount;

static int by_kernel(const char *path)
{
    const struct open_how how = {.flags = O_PATH | O_CLOEXEC, .resolve = RESOLVE_IN_ROOT | RESOLVE_NO_MAGICLINKS};
    int fd;
    /* A rename anywhere on the machine may refuse `..`. */
    do
        fd = (int)syscall(SYS_openat2, root, path, &how, sizeof how);
    while (fd < 0 && errno == EAGAIN);
    return fd < 0 ? -errno : fd;
}

static bool is_same(int fd, int other)
{
    if (fd < 0 || other < 0)
        return fd == other;
#ifdef STATX_MNT_ID
    struct statx a, b;
    return statx(fd, "", AT_EMPTY_PATH, STATX_INO | STATX_MNT_ID, &a) == 0 &&
           statx(other, "", AT_EMPTY_PATH, STATX_INO | STATX_MNT_ID, &b) == 0 && a.stx_ino == b.stx_ino &&
           a.stx_dev_major == b.stx_dev_major && a.stx_dev_minor == b.stx_dev_minor && (by_any_mount || a.stx_mnt_id == b.stx_mnt_id);
#else
    struct stat a, b;
    return fstat(fd, &a) == 0 && fstat(other, &b) == 0 && a.st_ino == b.st_ino && a.st_dev == b.st_dev;
#endif
}

static void close_both(int one, int other)
{
    if (one >= 0)
        close(one);
    if (other >= 0)
        close(other);
}

/* What is no directory, and has a name that ends as the kernel writes of what was removed. */
static bool is_called_so(int fd, const char *path, size_t length)
{
    static const char gone[] = " (deleted)";
    struct stat about;
    const size_t end = sizeof gone - 1;
    return fd >= 0 && length >= end && strcmp(path + length - end, gone) == 0 && fstat(fd, &about) == 0 &&
           !S_ISDIR(about.st_mode);
}

/*
 * For a `.` at the end the kernel searches the directory, which it may have no right to; here the path ends at its name. And with
 * INROOT_EXACT the driver can't know of a file whose name ends in ` (deleted)` that it is there.
 */
static int wanted_of(const char *path, int flags)
{
    char text[PATH_MAX];
    size_t length = strlen(path);
    int fd = by_kernel(path);
    if (flags & INROOT_EXACT && is_called_so(fd, path, length)) {
        close(fd);
        return -EAGAIN;
    }
    if (fd != -EACCES || length < 3 || strcmp(path + length - 2, "/.") != 0)
        return fd;
    snprintf(text, sizeof text, "%.*s", (int)length - 2, path);
    return by_kernel(text);
}

/* What has gone by itself meanwhile, as in /proc, has gone for both. */
static bool agrees(const char *path, int flags)
{
    for (int turn = 0; turn < 3; turn++) {
        int one = inroot_open(root, path, flags | INROOT_NO_RETRY), other = wanted_of(path, flags);
        bool same = is_same(one, other);
        if (!same && turn == 2)
            printf("quiet: %s: %s, flags %d: %d, and the kernel %d\n", what, path, flags, one, other);
        close_both(one, other);
        if (same)
            return true;
    }
    return false;
}

enum { SPELLINGS = 8 };

/* The path, from its first name `top` to the end of it, which is `rest`. */
static void spell(int way, const char *path, const char *top, const char *rest, char *text, size_t size)
{
    switch (way) {
    case 0: snprintf(text, size, "%s", path); break;
    case 1: snprintf(text, size, "/%s", path); break;
    case 2: snprintf(text, size, "./%s", path); break;
    case 3: snprintf(text, size, "%s/.", path); break;
    case 4: snprintf(text, size, "%s/", path); break;
    case 5: snprintf(text, size, "../%s", path); break;
    case 6: snprintf(text, size, "%s/../%s", top, path); break;
    default: snprintf(text, size, "%s/./..//%s/./%s", top, top, rest);
    }
}

static void in_each_spelling(const char *path)
{
    static const int flags[] = {0, INROOT_EXACT};
    char text[4 * PATH_MAX], top[NAME_MAX + 1];
    size_t first = strcspn(path, "/");
    snprintf(top, sizeof top, "%.*s", (int)(first < sizeof top ? first : 0), path);
    const char *rest = path[first] == '/' ? path + first + 1 : ".";
    for (int way = 0; way < SPELLINGS; way++) {
        spell(way, path, top, rest, text, sizeof text);
        for (size_t one = 0; one < sizeof flags / sizeof *flags; one++)
            differ += strlen(text) < PATH_MAX && !agrees(text, flags[one]);
    }
    paths++;
}

/* What is below a directory, so deep. */
static void walk(const char *path, int deep)
{
    char below[PATH_MAX];
    int dir = openat(root, path[0] == 0 ? "." : path, O_RDONLY | O_DIRECTORY | O_NOFOLLOW | O_CLOEXEC);
    DIR *all = dir < 0 ? NULL : fdopendir(dir);
    if (all == NULL)
        return;
    for (struct dirent *one; paths < MOST && (one = readdir(all)) != NULL;) {
        if (strcmp(one->d_name, ".") == 0 || strcmp(one->d_name, "..") == 0)
            continue;
        if (snprintf(below, sizeof below, "%s%s%s", path, path[0] == 0 ? "" : "/", one->d_name) >= (int)sizeof below)
            continue;
        in_each_spelling(below);
        if (deep > 1 && one->d_type == DT_DIR)
            walk(below, deep - 1);
    }
    closedir(all);
}

/* And then in a chroot. */
static void all_paths(void)
{
    walk("", DEEP);
    int before = paths;
    paths = 0;
    if (fchdir(root) == 0 && chroot(".") == 0)
        walk("", DEEP);
    printf("quiet: %s: %d paths, %d in a chroot, %d differ\n", what, before, paths, differ);
    gives(differ, 0, "%s: paths that differ, of %d", what, before);
    gives_least(before, 1, "%s: paths", what);
}

static void of_machine(void)
{
    root = open(what, O_PATH | O_DIRECTORY | O_CLOEXEC);
    if (root >= 0)
        all_paths();
}

/* ---- mounts */

static void make(const char *name, bool is_directory)
{
    int base = sure(open(where, O_PATH | O_DIRECTORY | O_CLOEXEC), where);
    sure(is_directory ? mkdirat(base, name, 0755) : mknodat(base, name, S_IFREG | 0600, 0), name);
    close(base);
}

static void mount_at(const char *from, const char *name, const char *kind, const char *options)
{
    char target[2 * PATH_MAX], source[2 * PATH_MAX];
    snprintf(target, sizeof target, "%s/%s", where, name);
    bool is_name = from[0] == '/' || kind != NULL;
    snprintf(source, sizeof source, "%s%s%s", is_name ? "" : where, is_name ? "" : "/", from);
    if (mount(source, target, kind, kind == NULL ? MS_BIND | MS_REC : 0, options) != 0) {
        printf("quiet: no right to mount %s\n", what);
        _exit(NO_RIGHT);
    }
}

static void fill(const char *name)
{
    static const char *const dirs[] = {"", "/a", "/a/b", "/a/b (deleted)", "/m"};
    char path[2 * PATH_MAX];
    for (size_t one = 0; one < sizeof dirs / sizeof *dirs; one++) {
        snprintf(path, sizeof path, "%s%s", name, dirs[one]);
        make(path, true);
    }
    snprintf(path, sizeof path, "%s/a/f", name);
    make(path, false);
    snprintf(path, sizeof path, "%s/a/g (deleted)", name);
    make(path, false);
    snprintf(path, sizeof path, "%s/%s/l", where, name);
    sure(symlink("/a/f", path), path);
}

static void open_root(const char *name)
{
    char path[2 * PATH_MAX];
    snprintf(path, sizeof path, "%s/%s", where, name);
    root = sure(open(path, O_PATH | O_DIRECTORY | O_CLOEXEC), path);
}

/* A directory, a file, a tmpfs and the root's own subtree are mounted below the root, which is a mount itself. */
static void of_binds(void)
{
    what = "bind mounts";
    fill("one");
    fill("two");
    make("one/file", false);
    make("one/tmp", true);
    make("one/again", true);
    own_mounts_or_end();
    mount_at("one", "one", NULL, NULL);
    mount_at("two", "one/m", NULL, NULL);
    mount_at("two/a/f", "one/file", NULL, NULL);
    mount_at("tmpfs", "one/tmp", "tmpfs", NULL);
    mount_at("one/a", "one/again", NULL, NULL);
    open_root("one");
    all_paths();
}

static void of_overlay(void)
{
    char options[4 * PATH_MAX];
    static const char *const dirs[] = {"upper", "work", "mount", "upper/a", "upper/a/b"};
    what = "overlayfs";
    fill("lower");
    for (size_t one = 0; one < sizeof dirs / sizeof *dirs; one++)
        make(dirs[one], true);
    make("upper/a/new", false);
    own_mounts_or_end();
    snprintf(options, sizeof options, "lowerdir=%s/lower,upperdir=%s/upper,workdir=%s/work", where, where, where);
    mount_at("overlay", "mount", "overlay", options);
    open_root("mount");
    all_paths();
}

/*
 * The root is mounted over itself after it was opened: `..` leads the kernel to that mount, and INROOT_EXACT to the root as it was
 * opened. Where something else is mounted over it, `..` leads the kernel to that, and with INROOT_EXACT nothing is opened.
 */
static void of_covered(void)
{
    what = "a root that is covered by itself";
    fill("covered");
    own_mounts_or_end();
    open_root("covered");
    mount_at("covered", "covered", NULL, NULL);
    by_any_mount = true;
    walk("", DEEP);
    gives(differ, 0, "%s: paths that differ, of %d", what, paths);
    gives_least(paths, 1, "%s: paths", what);
    mount_at("tmpfs", "covered", "tmpfs", NULL);
    gives_fd(inroot_open(root, "a/f", INROOT_NO_RETRY), "a file below a root that is covered");
    const int cover = by_kernel("a/..");
    expect(is_same(inroot_open(root, "a/..", INROOT_NO_RETRY), cover), "what covers the root is what the kernel's walk opens");
    gives(inroot_open(root, "a/..", INROOT_EXACT | INROOT_NO_RETRY), -EAGAIN, "what covers the root");
}

/* Many of its objects are of one moment. */
static void of_proc(void)
{
    what = "proc(5) below the root";
    make("top", true);
    make("top/p", true);
    own_mounts_or_end();
    mount_at("/proc/sys", "top/p", NULL, NULL);
    open_root("top");
    all_paths();
}

int main(int count, char **words)
{
    static const char *const machine[] = {"/dev", "/sys", "/proc/sys", "/usr", "/etc"};
    int skipped = 0;
    if (count != 2 || realpath(words[1], where) == NULL)
        return 2;
    root = sure(open(where, O_PATH | O_DIRECTORY | O_CLOEXEC), where);
    if (!has_openat2())
        return NO_OPENAT2;
    open_proc();
    for (size_t one = 0; one < sizeof machine / sizeof *machine; one++) {
        what = machine[one];
        apart(of_machine);
    }
    skipped |= apart(of_binds);
    skipped |= apart(of_overlay);
    skipped |= apart(of_covered);
    skipped |= apart(of_proc);
    skipped |= may_chroot(root) ? 0 : NO_RIGHT;
    printf("quiet: %d not as they are to be\n", wrong);
    return wrong != 0 ? 1 : skipped;
}
