/*
 * ways: both ways of walking, by the kernel first and with INROOT_EXACT, beside one another on random trees that stand
 * still but for the calls themselves: each call gives the same, what it opened has the same path, and then the
 * trees are the same. And paths with long names, with many links and of many bytes, by both and by openat2(2) itself.
 *
 * usage: ways DIR CASES. Exits 0 where that holds. 77: no openat2(2) here.
 */
#define _GNU_SOURCE
#include "../openat2.h"
#include "support.h"
#include "wraps.h"

#include <dirent.h>
#include <errno.h>
#include <limits.h>
#include <stdarg.h>
#include <string.h>
#include <sys/stat.h>
#include <sys/syscall.h>

enum { TREES = 40, NODES = 40, DEPTH = 12, OPERATIONS = 24 };

static const char *const names[] = {"a", "b", "c", "d", "e.x"};

static int base, proc;

/* One way on one tree: the outcomes of its cases as one number each, and at last the tree as one. */
struct side {
    int root, flags, cases;
    uint64_t state, tree;
    uint64_t *outcomes;
    unsigned long opened, changed;
};

static uint64_t mix(uint64_t sum, const char *text, size_t length)
{
    for (size_t at = 0; at < length; at++)
        sum = (sum ^ (unsigned char)text[at]) * 0x100000001b3;
    return sum;
}

/* How many paths the kernel walked, and how many of them to an object. */
static unsigned long tried, passed;

static long my_syscall(long number, const long *with)
{
    long result = REAL_SYSCALL(number, with);
    const struct open_how *how = (const struct open_how *)with[2];
    bool walks = number == SYS_openat2 && with[0] >= 0 && !(how->resolve & RESOLVE_NO_SYMLINKS) && how->resolve & (RESOLVE_IN_ROOT | RESOLVE_BENEATH);
    tried += walks;
    passed += walks && result >= 0;
    return result;
}

INSTEAD_OF_SYSCALL(my_syscall)

/* ---- random paths and trees */

/* A path of names, `.`, `..` and slashes; now and then one that leads down far. */
static void random_path(uint64_t *state, char *text, unsigned most)
{
    unsigned parts = 1 + pick(state, most), mood = pick(state, 4);
    *text = 0;
    if (pick(state, 6) == 0)
        strcat(text, "/");
    for (unsigned at = 0; at < parts; at++) {
        unsigned kind = pick(state, 12);
        const char *name = names[mood == 0 ? pick(state, 5) : pick(state, 2)];
        strcat(text, kind == 0 ? "." : kind < 2 + mood ? ".." : name);
        if (at + 1 < parts || pick(state, 8) == 0)
            strcat(text, pick(state, 10) == 0 ? "//" : "/");
    }
}

static void add_entry(uint64_t *state, int *dirs, int *count)
{
    char text[256];
    /* Rather in one of the last, so that it grows deep. */
    unsigned last = (unsigned)*count < 3 ? (unsigned)*count : 3;
    int dir = dirs[pick(state, 2) ? pick(state, (unsigned)*count) : (unsigned)*count - 1 - pick(state, last)];
    const char *name = names[pick(state, 3) ? pick(state, 2) : pick(state, 5)];
    switch (pick(state, 10)) {
    case 0: case 1: case 2: case 3: case 4: case 5:
        if (mkdirat(dir, name, 0755) == 0)
            dirs[(*count)++] = sure(openat(dir, name, O_PATH | O_DIRECTORY | O_CLOEXEC), "openat");
        break;
    case 6: case 7:
        random_path(state, text, 4);
        symlinkat(text, dir, name);
        break;
    default:
        mknodat(dir, name, S_IFREG | 0600, 0);
    }
}

static int make_tree(const char *name, uint64_t *state)
{
    int dirs[NODES + 1], count = 1;
    sure(mkdirat(base, name, 0755), "mkdirat");
    int root = dirs[0] = sure(openat(base, name, O_PATH | O_DIRECTORY | O_CLOEXEC), "openat");
    for (int at = 0; at < NODES; at++)
        add_entry(state, dirs, &count);
    while (count > 1)
        close(dirs[--count]);
    return root;
}

/* All below a directory: paths, kinds and links' texts, in whichever order. */
static uint64_t sum_of(int dir, uint64_t path)
{
    uint64_t sum = 0;
    DIR *all = fdopendir(sure(openat(dir, ".", O_RDONLY | O_DIRECTORY | O_CLOEXEC), "openat"));
    for (struct dirent *one; (one = readdir(all)) != NULL;) {
        char text[PATH_MAX];
        uint64_t here = mix(path, one->d_name, strlen(one->d_name) + 1);
        if (strcmp(one->d_name, ".") == 0 || strcmp(one->d_name, "..") == 0)
            continue;
        ssize_t length = readlinkat(dir, one->d_name, text, sizeof text);
        sum += mix(here, length > 0 ? text : "", length > 0 ? (size_t)length : 0);
        int below = openat(dir, one->d_name, O_PATH | O_DIRECTORY | O_NOFOLLOW | O_CLOEXEC);
        if (below >= 0) {
            sum += 1 + sum_of(below, here);
            close(below);
        }
    }
    closedir(all);
    return sum;
}

/* ---- the cases */

/* What was opened, by its path below the root and its kind. */
static uint64_t told(const struct side *me, int fd)
{
    char name[32], path[PATH_MAX], root[PATH_MAX];
    struct stat about;
    if (fd < 0)
        return (uint64_t)fd;
    snprintf(name, sizeof name, "thread-self/fd/%d", fd);
    ssize_t length = sure((int)readlinkat(proc, name, path, sizeof path), name);
    snprintf(name, sizeof name, "thread-self/fd/%d", me->root);
    ssize_t above = sure((int)readlinkat(proc, name, root, sizeof root), name);
    sure(fstat(fd, &about), "fstat");
    uint64_t sum = length == above ? 1 : mix(1, path + above, (size_t)(length - above));
    close(fd);
    return sum * 4 + (S_ISDIR(about.st_mode) ? 1 : S_ISLNK(about.st_mode) ? 2 : 3);
}

static uint64_t told_text(ssize_t length, const char *text)
{
    return length < 0 ? (uint64_t)length : mix(5, text, (size_t)length);
}

/* An operation by its number: more than a half of them open. */
static uint64_t call(struct side *me, unsigned which, const char *path, const char *other, int flags)
{
    char text[PATH_MAX];
    struct stat about;
    int at = me->root;
    switch (which) {
    case 0: return (uint64_t)inroot_mknod(at, path, S_IFREG | 0600, 0, flags);
    case 1: return (uint64_t)inroot_mkdir(at, path, 0700, flags);
    case 2: return (uint64_t)inroot_symlink(at, other, path, flags);
    case 3: return (uint64_t)inroot_unlink(at, path, flags);
    case 4: return (uint64_t)inroot_rmdir(at, path, flags);
    case 5: return (uint64_t)inroot_rename(at, path, other, (int)pick(&me->state, 3), flags);
    case 6: return told(me, inroot_mkdir_all(at, path, 0700, flags));
    case 7: return pick(&me->state, 40) ? 0 : (uint64_t)inroot_remove_all(at, path, flags);
    case 8: return told_text(inroot_readlink(at, path, flags, text, sizeof text), text);
    case 9: return told(me, inroot_openat(at, path, O_RDWR | O_CREAT, 0600, flags));
    case 10: return (uint64_t)inroot_stat(at, path, &about, flags);
    case 11: return told(me, inroot_openat(at, path, O_PATH | O_DIRECTORY, 0, flags));
    default: return told(me, inroot_open(at, path, flags | (pick(&me->state, 4) ? 0 : INROOT_NOFOLLOW)));
    }
}

static void make_calls(struct side *me)
{
    char path[256], other[256];
    for (int at = 0; at < me->cases; at++) {
        unsigned which = pick(&me->state, OPERATIONS);
        int flags = me->flags | (pick(&me->state, 4) ? 0 : (int)pick(&me->state, 4));
        random_path(&me->state, path, DEPTH);
        random_path(&me->state, other, 5);
        me->outcomes[at] = call(me, which, path, other, flags);
        bool holds = (int64_t)me->outcomes[at] >= 0 || (int64_t)me->outcomes[at] < -4095;
        me->opened += holds && which > 10;
        me->changed += holds && which < 8;
    }
}

/* ---- paths that are known, beside openat2(2) itself */

enum { LINKS = 41 };
static int fixed;

/* A chain: its first link leads to a target, and each other one to the one before it. */
static void make_chain(char name, const char *target)
{
    char one[8], before[8];
    for (int link = 1; link <= LINKS; link++) {
        snprintf(one, sizeof one, "%c%d", name, link);
        snprintf(before, sizeof before, "%c%d", name, link - 1);
        sure(symlinkat(link == 1 ? target : before, fixed, one), one);
    }
}

static void make_fixed(void)
{
    static const char *const links[][2] = {
        {"a/b", "l"}, {"/a/b/f", "abs"}, {"../b/f", "a/b/up"}, {"../../../../g", "a/b/out"}, {"g", "file"}, {"a/b/", "slash"},
        {"g/", "fslash"}, {".", "dot"}, {"/", "top"}, {"..", "above"}, {"none", "dangling"}, {"loop", "loop"}, {"two", "one"},
        {"one", "two"}, {"a/./b/../b//f", "long"}, {"../abs", "a/abs"}, {"/l/up", "far"}, {"up", "a/b/next"},
    };
    sure(mkdirat(base, "fixed", 0755), "fixed");
    fixed = sure(openat(base, "fixed", O_PATH | O_DIRECTORY | O_CLOEXEC), "fixed");
    sure(mkdirat(fixed, "a", 0755), "a");
    sure(mkdirat(fixed, "a/b", 0755), "a/b");
    sure(mknodat(fixed, "g", S_IFREG | 0600, 0), "g");
    sure(mknodat(fixed, "a/b/f", S_IFREG | 0600, 0), "f");
    for (size_t one = 0; one < sizeof links / sizeof *links; one++)
        sure(symlinkat(links[one][0], fixed, links[one][1]), links[one][1]);
    make_chain('c', "g");
    make_chain('e', "a");
}

static int by_kernel(const char *path, int flags)
{
    const struct open_how how = {
        .flags = O_PATH | O_CLOEXEC | (flags & INROOT_NOFOLLOW ? O_NOFOLLOW : 0),
        .resolve = (flags & INROOT_BENEATH ? RESOLVE_BENEATH : RESOLVE_IN_ROOT) | RESOLVE_NO_MAGICLINKS |
                   (flags & INROOT_NO_LINKS ? RESOLVE_NO_SYMLINKS : 0) | (flags & INROOT_NO_XDEV ? RESOLVE_NO_XDEV : 0),
    };
    long fd;
    int turns = 0;
    /* A rename anywhere on the machine may refuse `..`; and the kernel may begin anew for it, and count links twice. */
    do
        fd = __real_syscall(SYS_openat2, fixed, path, &how, sizeof how);
    while (fd < 0 && (errno == EAGAIN || (errno == ELOOP && ++turns < 20)));
    return fd < 0 ? -errno : (int)fd;
}

static void agrees(const char *path, int flags)
{
    const int kernel = by_kernel(path, flags);
    for (int way = 0; way <= INROOT_EXACT; way += INROOT_EXACT) {
        const int got = inroot_open(fixed, path, flags | way);
        expect(is_same_object(got, kernel), "%.40s, flags %d: got %d, and by openat2(2) %d", path, flags | way, got, kernel);
        if (got >= 0)
            close(got);
    }
    if (kernel >= 0)
        close(kernel);
}

static const char *const paths[] = {
    "", "/", "///", "g", "/g", "a/b", "a/b/", "a/b/.", "a/b/f", "a/b/f/", "a/b/f/.", "a/b/f/..", "a/b/..", "a/b/../b/f", "a/../../g", ".",
    "..", "../g", "./g", "a//b///f", "none", "none/..", "a/none/x", "l", "l/", "l/.", "l/f", "l/..", "l/../b/f", "l/up", "l/out", "l/next",
    "abs", "abs/", "abs/.", "abs/x", "a/abs", "a/b/up", "a/b/out", "a/b/next", "file", "file/", "file/.", "file/..", "slash", "slash/f",
    "fslash", "dot", "dot/g", "dot/dot/dot/g", "top", "top/g", "above", "above/g", "a/b/../../above/g", "dangling", "dangling/",
    "dangling/x", "loop", "loop/x", "one", "two/x", "long", "long/", "far", "/far", "//far", "/../far", "c1", "c40", "c41", "c41/x",
    "e40/b/f", "e41/b", "e20/../e20", "e20/../e21", "e20/../c20", "e20/../c21",
};

/* A path of so many bytes to `file`, which is a link; and the same of a directory's name. */
static void long_paths(void)
{
    static const size_t lengths[] = {4094, 4095, 4096, 5000};
    static const char *const forms[] = {"%.*s", "%.*s/x", "a/%.*s", "l/%.*s/..", "none/%.*s"};
    char path[6000], name[300];
    for (int one = 0; one < 4; one++) {
        memset(path, '/', lengths[one]);
        memcpy(path + lengths[one] - 4, "file", 5);
        agrees(path, 0);
    }
    memset(name, 'n', sizeof name);
    for (int length = 254; length < 258; length++)
        for (size_t form = 0; form < sizeof forms / sizeof *forms; form++) {
            snprintf(path, sizeof path, forms[form], length, name);
            agrees(path, 0);
        }
}

static void known_paths(void)
{
    static const int flags[] = {0, INROOT_NOFOLLOW, INROOT_NO_XDEV, INROOT_BENEATH, INROOT_NO_LINKS, INROOT_NO_LINKS | INROOT_NOFOLLOW};
    make_fixed();
    for (size_t one = 0; one < sizeof paths / sizeof *paths; one++)
        for (size_t with = 0; with < sizeof flags / sizeof *flags; with++)
            agrees(paths[one], flags[with]);
    long_paths();
    close(fixed);
}

/* A side on a tree of its own, made and asked by the same random numbers. */
static void run(struct side *side, const char *name, uint64_t seed)
{
    side->state = seed;
    side->root = make_tree(name, &side->state);
    make_calls(side);
    side->tree = sum_of(side->root, 7);
    close(side->root);
}

int main(int count, char **words)
{
    unsigned long opened = 0, changed = 0, differ = 0;
    if (count != 3)
        return 2;
    base = sure(open(words[1], O_PATH | O_DIRECTORY | O_CLOEXEC), words[1]);
    proc = sure(open("/proc", O_PATH | O_DIRECTORY | O_CLOEXEC), "/proc");
    if (!has_openat2())
        return NO_OPENAT2;
    open_proc();
    int cases = atoi(words[2]) / TREES, before = open_descriptors();
    uint64_t *outcomes = calloc((size_t)cases * 2, sizeof *outcomes);
    for (int tree = 0; tree < TREES && outcomes != NULL; tree++) {
        char name[32];
        struct side sides[2] = {{.flags = 0}, {.flags = INROOT_EXACT}};
        for (int way = 0; way < 2; way++) {
            sides[way].outcomes = outcomes + way * cases;
            sides[way].cases = cases;
            snprintf(name, sizeof name, "tree%d.%d", tree, way);
            unsigned long before_it = tried;
            run(&sides[way], name, 0x9e3779b97f4a7c15 + (uint64_t)tree);
            gives((tried > before_it), (way == 0), "tree %d: whether the kernel walked a path on side %d", tree, way);
        }
        for (int at = 0; at < cases; at++)
            differ += outcomes[at] != outcomes[cases + at];
        gives(sides[0].tree, sides[1].tree, "tree %d: its entries by the other way", tree);
        opened += sides[0].opened;
        changed += sides[0].changed;
    }
    free(outcomes);
    known_paths();
    int left = open_descriptors() - before;
    printf(
        "ways: %d cases on %d trees, %lu opened, %lu changed something, %lu of %lu paths walked by the kernel, %lu differ, "
        "%d descriptors left open\n",
        cases * TREES, TREES, opened, changed, passed, tried, differ, left);
    return wrong != 0 || differ != 0 || left != 0 || opened == 0 || changed == 0;
}
