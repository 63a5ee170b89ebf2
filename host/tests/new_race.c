/*
 * new_race: a directory is moved out of the root and back, and exchanged for a link that leads out, while paths of plain names
 * are opened, files are used, made and published, and trees are removed in pieces. What never stood below the root isn't opened,
 * and nothing outside is made or removed.
 *
 * usage: new_race DIR SECONDS RACE. RACE is plain, use, create, publish or remove. Exits 0 where that holds, and a walk without a
 * check was led out. 78: no right to change a root. 79: that walk was not led out.
 */
#define _GNU_SOURCE
#include "race.h"

#include <dirent.h>
#include <limits.h>
#include <sys/syscall.h>

static int base, out, deep;
static char where[PATH_MAX];

/* ---- who is in their way */

static void exchange(int dir, const char *name, int other, const char *with)
{
    syscall(SYS_renameat2, dir, name, other, with, INROOT_EXCHANGE);
}

/* A file that stands in the directory only while that is outside has there the name of one that stands inside. */
static void move_files(void)
{
    renameat(root, "a/b", out, "b");
    exchange(out, "b/f", out, "secret");
    linkat(out, "secret", out, "b/g", 0);
    unlinkat(out, "b/g", 0);
    exchange(out, "b/f", out, "secret");
    renameat(out, "b", root, "a/b");
    /* Nothing is changed, and the directory stands inside for as long. */
    for (int one = 0; one < 5; one++)
        exchange(root, "a/b/f", root, "a/b/f");
}

/* By turns: out and back, and for a link that leads out. */
static void move_directories(void)
{
    if (moves % 2 == 0) {
        renameat(root, "a/b", out, "b");
        renameat(out, "b", root, "a/b");
    } else {
        exchange(root, "a/b", root, "link");
        exchange(root, "a/b", root, "link");
    }
}

/* ---- what workers do */

/* The flags of a call of this way, which makes one try or as many as are due. */
static int once_or_often(int way, uint64_t *state)
{
    return way | (pick(state, 2) ? INROOT_NO_RETRY : 0);
}

static int open_plainly(int at, int way, uint64_t *state)
{
    static const char *const paths[] = {"a/b/f", "a/b/g", "/a/b/c", "a/b/c/d", "a/b", "/a/b/f", "a"};
    return inroot_open(at, paths[pick(state, 7)], once_or_often(way, state));
}

static const char *const everywhere[] = {
    "a/b/f", "a/b/c/../f", "l/f", "k/../secret", "a/b/c/../../secret", "a/b/../secret", "l/c/d/../../..", "./a/b/f", "a/b/c/../g",
};
enum { EVERYWHERE = sizeof everywhere / sizeof *everywhere };

static int open_any(int at, int way, uint64_t *state)
{
    return inroot_open(at, everywhere[pick(state, EVERYWHERE)], once_or_often(way, state));
}

/* Opened, looked at, and opened to be read. */
static int use_any(int at, int way, uint64_t *state)
{
    struct stat about;
    const char *path = everywhere[pick(state, EVERYWHERE)];
    switch (pick(state, 4)) {
    case 0: return inroot_openat(at, path, O_RDONLY | O_NONBLOCK, 0, once_or_often(way, state));
    case 1: return inroot_stat(at, path, &about, once_or_often(way, state));
    default: return open_any(at, way, state);
    }
}

/* Where `..` leads out, the name would be made there; so it would where the link is followed out. None of these makes `a/b`. */
static const char *const made[] = {"a/b/new", "a/b/c/../new", "a/b/../new", "a/b/c/../../new"};

static int create_any(int at, int way, uint64_t *state)
{
    const char *path = made[pick(state, 4)];
    int flags = once_or_often(way, state), fd;
    ssize_t removed;
    switch (pick(state, 6)) {
    case 0: return inroot_mknod(at, path, S_IFREG | 0600, 0, flags);
    case 1: return inroot_mkdir(at, path, 0700, flags);
    case 2: return inroot_symlink(at, where, path, flags);
    case 3: fd = inroot_openat(at, path, O_WRONLY | O_CREAT, 0600, flags); break;
    case 4: fd = inroot_openat(at, path, O_WRONLY | O_CREAT | O_EXCL, 0600, flags); break;
    default:
        removed = inroot_remove_all(at, path, flags);
        return removed < 0 ? (int)removed : 0;
    }
    if (fd >= 0)
        close(fd);
    return fd < 0 ? fd : 0;
}

static int publish_any(int at, int way, uint64_t *state)
{
    const char *path = made[pick(state, 4)];
    int flags = once_or_often(way, state);
    int fd = inroot_openat(at, "a/b/c", O_WRONLY | O_TMPFILE, 0600, flags);
    int result = fd < 0 ? fd : inroot_link_fd(at, fd, path, flags);
    if (fd >= 0)
        close(fd);
    if (result == 0 || result == -EEXIST)
        inroot_unlink(at, path, 0);
    return result;
}

/* A tree that is deeper than descriptors are held, and wider than one part of a list, in a directory that is moved with it. */
static void make_deep(const char *name)
{
    enum { DEEP = 70, WIDE = 40 };
    char path[PATH_MAX];
    snprintf(path, sizeof path, "%s", name);
    for (int level = 0; level < DEEP; level++) {
        sure(mkdirat(deep, path, 0700), path);
        strcat(path, "/a");
    }
    for (int file = 0; file < WIDE; file++) {
        snprintf(path, sizeof path, "%s/a/a/f%d", name, file);
        sure(mknodat(deep, path, S_IFREG | 0600, 0), path);
    }
}

/* Its name is the thread's own. */
static int remove_tree(int at, int way, uint64_t *state)
{
    static const char *const above[] = {"a/b/c", "a/b/c/../c", "a/b/../b/c"};
    char name[32], path[64];
    snprintf(name, sizeof name, "t%lx", (unsigned long)pthread_self());
    if (faccessat(deep, name, F_OK, 0) != 0)
        make_deep(name);
    snprintf(path, sizeof path, "%s/%s", above[pick(state, 3)], name);
    ssize_t removed = inroot_remove_all(at, path, once_or_often(way, state));
    return removed < 0 ? (int)removed : 0;
}

static int open_unchecked(int at, int way, uint64_t *state)
{
    (void)at, (void)way;
    return walk_unchecked(root, everywhere[pick(state, EVERYWHERE)]);
}

/* By many steps, so that the directory is moved within the walk on a machine of one processor, too. */
static int open_plainly_unchecked(int at, int way, uint64_t *state)
{
    static const char *const paths[] = {
        "a/b/c/../c/../c/../c/../f", "a/b/c/../c/../c/../c/../g", "a/b/c/../c/../c/../c/../../secret",
    };
    (void)at, (void)way;
    return walk_unchecked(root, paths[pick(state, 3)]);
}

/* ---- the tree */

static void make_tree(void)
{
    static const char *const dirs[] = {"box", "box/a", "box/a/b", "box/a/b/c", "box/a/b/c/d", "out", "out/victim", "out/victim/c", "out/c"};
    for (size_t one = 0; one < sizeof dirs / sizeof *dirs; one++)
        sure(mkdirat(base, dirs[one], 0755), dirs[one]);
    root = sure(openat(base, "box", O_PATH | O_DIRECTORY | O_CLOEXEC), "box");
    out = sure(openat(base, "out", O_PATH | O_DIRECTORY | O_CLOEXEC), "out");
    deep = sure(openat(root, "a/b/c", O_PATH | O_DIRECTORY | O_CLOEXEC), "c");
    sure(mknodat(root, "a/b/f", S_IFREG | 0600, 0), "f");
    sure(mknodat(out, "secret", S_IFREG | 0600, 0), "secret");
    sure(mknodat(out, "f", S_IFREG | 0600, 0), "out/f");
    sure(symlinkat("a/b", root, "l"), "l");
    sure(symlinkat("/a/b/c", root, "k"), "k");
    strcat(where, "/out");
    sure(symlinkat(where, root, "link"), "link");
    static const char *const all[] = {".", "a", "a/b", "a/b/c", "a/b/c/d", "a/b/f", "l", "k", "link"};
    for (size_t one = 0; one < sizeof all / sizeof *all; one++)
        is_of_inside(root, all[one]);
}

static int entries_of(const char *name)
{
    int count = 0;
    DIR *all = fdopendir(sure(openat(base, name, O_RDONLY | O_DIRECTORY | O_CLOEXEC), name));
    while (readdir(all) != NULL)
        count++;
    closedir(all);
    return count - 2;
}

/* What was there is there, and nothing beside. */
static void is_untouched(const char *title)
{
    gives(entries_of("out"), 4, "%s: entries of out", title);
    gives(entries_of("out/victim"), 1, "%s: entries of out/victim", title);
    gives(entries_of("out/victim/c"), 0, "%s: entries of out/victim/c", title);
    gives(entries_of("out/c"), 0, "%s: entries of out/c", title);
}

/* ---- */

struct kind {
    const char *name;
    int (*work)(int at, int way, uint64_t *state);
    void (*move)(void);
    int (*unchecked)(int at, int way, uint64_t *state);
    bool ends_early;
    enum place places[8];
    int count;
};

static const struct kind kinds[] = {
    {"plain", open_plainly, move_files, open_plainly_unchecked, false, {PLAIN, CHROOT, EXACT, EXACT_CHROOT}, 4},
    {"use", use_any, move_directories, open_unchecked, false, {PLAIN, PLAIN, CHROOT, EXACT, EXACT, EXACT_CHROOT}, 6},
    {"create", create_any, move_directories, open_unchecked, false, {PLAIN, CHROOT, EXACT, EXACT_CHROOT}, 4},
    {"publish", publish_any, move_directories, open_unchecked, false, {PLAIN, CHROOT, EXACT}, 3},
    {"remove", remove_tree, move_directories, open_unchecked, false, {PLAIN, CHROOT, EXACT}, 3},
};

static void race_of(const struct kind *kind, unsigned seconds)
{
    const struct worker control = {.name = "a walk without a check", .work = kind->unchecked, .control = true};
    char title[64];
    snprintf(title, sizeof title, "new_race: %s", kind->name);
    may_end_early = kind->ends_early;
    race_in(title, &control, kind->work, kind->places, kind->count, kind->move, seconds);
    is_untouched(title);
}

int main(int count, char **words)
{
    const size_t one = row_of(kinds, sizeof kinds / sizeof *kinds, sizeof *kinds, count, words, where, &base);
    make_tree();
    open_proc();
    race_of(&kinds[one], (unsigned)atoi(words[2]));
    return ending(has_shown);
}
