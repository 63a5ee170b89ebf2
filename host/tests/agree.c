/*
 * agree: inroot_open() beside openat2(2) on random trees that stand still, with pipes, sockets and hard links, in-root
 * and beneath, with and without links, half of the cases with INROOT_EXACT.
 *
 * usage: agree DIR CASES. Exits 0 where each case agrees: the same object, or the same error. 77: no openat2(2) here.
 */
#define _GNU_SOURCE
#include "../openat2.h"
#include "support.h"

#include <errno.h>
#include <fcntl.h>
#include <string.h>
#include <sys/stat.h>
#include <sys/syscall.h>
#include <unistd.h>

enum { TREES = 40, NODES = 24, PARTS = 7 };

static const char *const names[] = {"a", "b", "c", "d", "e.x"};

static uint64_t state = 0x9e3779b97f4a7c15;

/* A random path, as a text of names, `.`, `..` and slashes. */
static void random_path(char *text, unsigned most)
{
    unsigned parts = 1 + pick(&state, most);
    *text = 0;
    if (pick(&state, 6) == 0)
        strcat(text, "/");
    for (unsigned at = 0; at < parts; at++) {
        unsigned kind = pick(&state, 12);
        strcat(text, kind == 0 ? "." : kind < 4 ? ".." : names[pick(&state, 5)]);
        if (at + 1 < parts || pick(&state, 8) == 0)
            strcat(text, pick(&state, 10) == 0 ? "//" : "/");
    }
}

/* One more entry in a random directory: mostly directories and links, and now and then what counts as a file. */
static void add_entry(int root, int *dirs, int *count)
{
    char text[256];
    int dir = dirs[pick(&state, (unsigned)*count)];
    const char *name = names[pick(&state, 5)];
    switch (pick(&state, 10)) {
    case 0: case 1: case 2: case 3:
        if (mkdirat(dir, name, 0755) == 0)
            dirs[(*count)++] = sure(openat(dir, name, O_PATH | O_DIRECTORY), "openat");
        break;
    case 4: case 5: case 6:
        random_path(text, 4);
        symlinkat(text, dir, name);
        break;
    case 7:
        mknodat(dir, name, pick(&state, 2) ? S_IFIFO | 0600 : S_IFSOCK | 0600, 0);
        break;
    case 8:
        linkat(root, "hard", dir, name, 0);
        break;
    default:
        mknodat(dir, name, S_IFREG | 0600, 0);
    }
}

static int make_tree(int base, int number)
{
    char name[16];
    int dirs[NODES + 1], count = 1;
    snprintf(name, sizeof name, "tree%d", number);
    sure(mkdirat(base, name, 0755), "mkdirat");
    int root = dirs[0] = sure(openat(base, name, O_PATH | O_DIRECTORY | O_CLOEXEC), "openat");
    sure(mknodat(root, "hard", S_IFREG | 0600, 0), "mknodat");
    sure(mkdirat(root, "down", 0755), "mkdirat");
    sure(symlinkat("../../up", root, "down/back"), "symlinkat");
    sure(symlinkat("../../..", root, "up"), "symlinkat");
    for (int at = 0; at < NODES; at++)
        add_entry(root, dirs, &count);
    while (count > 1)
        close(dirs[--count]);
    return root;
}

/* What openat2(2) gives: it may ask to be called again. */
static int by_kernel(int root, const char *path, int flags)
{
    struct open_how how = {
        .flags = O_PATH | O_CLOEXEC | (flags & INROOT_NOFOLLOW ? O_NOFOLLOW : 0),
        .resolve = (flags & INROOT_BENEATH ? RESOLVE_BENEATH : RESOLVE_IN_ROOT) | (flags & INROOT_NO_LINKS ? RESOLVE_NO_SYMLINKS : 0),
    };
    long fd;
    do
        fd = syscall(SYS_openat2, root, path, &how, sizeof how);
    while (fd < 0 && errno == EAGAIN);
    return fd < 0 ? -errno : (int)fd;
}

/* Whether the path means the same. */
static int agrees_on(int root, const char *path, int flags)
{
    int wanted = by_kernel(root, path, flags), got = inroot_open(root, path, flags);
    int same = is_same_object(wanted, got);
    if (!same)
        printf("not so: %s, flags %d: wanted what openat2(2) gives, %d, got %d\n", path, flags, wanted, got);
    if (wanted >= 0)
        close(wanted);
    if (got >= 0)
        close(got);
    return same;
}

/* Whether a random case agrees. */
static int agrees(int root)
{
    char path[256];
    int flags = (int)pick(&state, 8) | (pick(&state, 2) ? INROOT_EXACT : 0);
    random_path(path, PARTS);
    return agrees_on(root, path, flags);
}

/* Whether links do that lead back to the root, behind `..` that has led there. */
static int agrees_at_root(int root)
{
    int same = 1;
    for (int flags = 0; flags < 8; flags++)
        same &= agrees_on(root, "down/back", flags) & agrees_on(root, "down/back", flags | INROOT_EXACT);
    return same;
}

int main(int count, char **words)
{
    if (count != 3)
        return 2;
    int base = sure(open(words[1], O_PATH | O_DIRECTORY | O_CLOEXEC), words[1]), cases = atoi(words[2]), differ = 0;
    if (!has_openat2())
        return NO_OPENAT2;
    open_proc();
    int before = open_descriptors();
    for (int tree = 0; tree < TREES; tree++) {
        int root = make_tree(base, tree);
        differ += !agrees_at_root(root);
        for (int at = 0; at < cases / TREES; at++)
            differ += !agrees(root);
        close(root);
    }
    int left = open_descriptors() - before;
    printf("agreement with openat2: %d cases on %d trees, %d differ, %d descriptors left open\n", cases / TREES * TREES, TREES, differ, left);
    return differ != 0 || left != 0;
}
