/*
 * layers: a tree on overlayfs that is deeper than one proved call goes, whose directories are copied up from the lower
 * layer as they are emptied. Nobody else acts, so one try is enough.
 *
 * usage: layers DIR. Exits 0 where that holds. 78: no right to mount here.
 */
#define _GNU_SOURCE
#include "support.h"

#include <errno.h>
#include <fcntl.h>
#include <limits.h>
#include <string.h>
#include <sys/stat.h>

enum { LEVELS = 90 };

static char where[PATH_MAX];
static int root;

/* Directories within one another, each with a file, below one that is open; what it gives is open on the last. */
static int dig(int top, int levels)
{
    int dir = sure(dup(top), "dup");
    for (int level = 0; level < levels; level++) {
        sure(mkdirat(dir, "d", 0755), "d");
        int below = sure(openat(dir, "d", O_PATH | O_DIRECTORY | O_CLOEXEC), "d");
        close(dir);
        dir = below;
        sure(mknodat(dir, "f", S_IFREG | 0600, 0), "f");
    }
    return dir;
}

static int below_where(const char *name)
{
    char path[2 * PATH_MAX];
    snprintf(path, sizeof path, "%s/%s", where, name);
    return sure(open(path, O_PATH | O_DIRECTORY | O_CLOEXEC), path);
}

/* In the lower layer. */
static void make_lower(void)
{
    int lower = below_where("lower");
    close(dig(lower, LEVELS));
    sure(mkdirat(lower, "probe", 0755), "probe");
    sure(mknodat(lower, "probe/f", S_IFREG | 0600, 0), "probe/f");
    close(lower);
}

/* By an upper layer of its own, of which this is the number. In a user namespace it may be no layer to remove in. */
static void mount_layers(int number, const char *more)
{
    char options[4 * PATH_MAX];
    snprintf(options, sizeof options, "lowerdir=%s/lower,upperdir=%s/upper%d,workdir=%s/work%d%s", where, where, number,
             where, number, more);
    if (mount("overlay", "merged", "overlay", 0, options) != 0)
        _exit(NO_RIGHT);
    root = below_where("merged");
    if (unlinkat(root, "probe/f", 0) != 0 || unlinkat(root, "probe", AT_REMOVEDIR) != 0)
        _exit(NO_RIGHT);
}

static void go_apart(void)
{
    own_mounts_or_end();
    sure(chdir(where), where);
}

static void removed(void)
{
    ssize_t got = inroot_remove_all(root, "d", INROOT_NO_RETRY);
    gives(got, 2 * LEVELS, "a tree of a lower layer");
    gives(faccessat(root, "d", F_OK, AT_SYMLINK_NOFOLLOW), -1, "a tree of a lower layer, asked for");
}

static void on_one_file_system(void)
{
    go_apart();
    mount_layers(1, "");
    removed();
}

/* The lower layer is on another one, so that its own numbers aren't those of the overlay. */
static void on_two(void)
{
    go_apart();
    sure(mount("none", "lower", "tmpfs", 0, NULL), "lower");
    make_lower();
    mount_layers(2, ",xino=off");
    removed();
}

int main(int count, char **words)
{
    static const char *const dirs[] = {"lower", "upper1", "work1", "upper2", "work2", "merged"};
    static void (*const parts[])(void) = {on_one_file_system, on_two};
    int skipped = 0;
    if (count != 2)
        return 2;
    if (realpath(words[1], where) == NULL || chdir(where) != 0)
        return 1;
    for (size_t one = 0; one < sizeof dirs / sizeof *dirs; one++)
        sure(mkdir(dirs[one], 0755), dirs[one]);
    make_lower();
    for (size_t one = 0; one < sizeof parts / sizeof *parts; one++)
        skipped |= apart(parts[one]) == NO_RIGHT;
    printf("layers: %d not as they are to be\n", wrong);
    return wrong != 0 ? 1 : skipped ? NO_RIGHT : 0;
}
