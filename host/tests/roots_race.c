/*
 * roots_race: one thread moves a directory out of the root and back, to a place that has the same path from the top as it has
 * from the root, while others resolve paths below the root: by the kernel's walk and with INROOT_EXACT, in the process's root
 * directory and in a chroot. What never stood below the root isn't opened, and nothing is made or cut off outside.
 *
 * usage: roots_race DIR SECONDS RACE. RACE is all, or chroot; or a place for the root: bind, namespace, overlay, renamed. Exits 0
 * where that holds, and a walk without a check was led out. 78: no right here to do so. 79: that walk was not led out.
 */
#define _GNU_SOURCE
#include "race.h"

#include <limits.h>
#include <sys/syscall.h>

/* The inner directory is below the root, and the outer one outside. */
static int base, inner, outer;
/* The root as it was first opened. By a bind mount the kernel refuses `..` of what was moved out of it, and fools hardly any walk. */
static int plain_root;
static char where[PATH_MAX + 16], below[PATH_MAX + 24], paths[12][PATH_MAX + 64];

enum {
    TO_SECRET, TO_TOP, TO_FILE, TO_DIRECTORY, TO_FILE_UP, TO_INSIDE, BY_LINK, BY_LINK_UP, BY_LINK_ON, BY_LINK_TO_NAME, PATHS,
    TO_NEW = PATHS
};

/* ---- who is in their way */

/* Now and then something is made outside, which is gone before its directory comes back: it never stands inside. */
static void move_out_and_in(void)
{
    renameat(inner, "b", outer, "b");
    switch (moves % 8) {
    case 0:
        linkat(outer, "secret", outer, "b/f", 0);
        unlinkat(outer, "b/f", 0);
        break;
    case 2:
        mkdirat(outer, "b/c", 0755);
        unlinkat(outer, "b/c", AT_REMOVEDIR);
        break;
    case 4:
        linkat(outer, "secret", outer, "b/y/f", 0);
        unlinkat(outer, "b/y/f", 0);
        break;
    case 6:
        unlinkat(inner, "new", 0);
        break;
    }
    renameat(outer, "b", inner, "b");
}

/* The root's own directory changes its name with one outside, which then has the root's path. */
static void rename_root_too(void)
{
    renameat(inner, "b", outer, "b");
    syscall(SYS_renameat2, base, "box", base, "other", INROOT_EXCHANGE);
    linkat(outer, "secret", outer, "b/f", 0);
    unlinkat(outer, "b/f", 0);
    syscall(SYS_renameat2, base, "box", base, "other", INROOT_EXCHANGE);
    renameat(outer, "b", inner, "b");
    unlinkat(inner, "new", 0);
}

/* ---- what workers do */

/* What a call by the kernel's walk may open once it was removed, it may cut off, too: so that one only reads. */
static int resolve(int at, int way, uint64_t *state)
{
    int flags = way | (pick(state, 2) ? INROOT_NO_RETRY : 0);
    char path[PATH_MAX + 80];
    snprintf(path, sizeof path, "%s%s", pick(state, 2) ? "./" : "", paths[pick(state, PATHS)]);
    switch (pick(state, 16)) {
    case 0: return inroot_openat(at, path, by_kernel ? O_RDONLY : O_WRONLY | O_TRUNC, 0, flags);
    case 1: return inroot_mknod(at, paths[TO_NEW], S_IFREG | 0600, 0, flags);
    default: return inroot_open(at, path, flags);
    }
}

static int without_check(int at, int way, uint64_t *state)
{
    (void)at, (void)way;
    return walk_unchecked(plain_root, paths[pick(state, PATHS)]);
}

/* ---- the tree */

/* All directories of a path below the root's parent. What is in the root counts as inside. */
static void make_all(const char *path, bool is_inside)
{
    char text[2 * PATH_MAX];
    snprintf(text, sizeof text, "%s", path);
    for (char *end = text; end != NULL;) {
        end = strchr(end + 1, '/');
        if (end != NULL)
            *end = 0;
        if (mkdirat(base, text, 0755) == 0 && is_inside)
            is_of_inside(base, text);
        if (end != NULL)
            *end = '/';
    }
}

/* The names that lead from the root to the inner directory are those of the path that the outer one's has. */
static void make_tree(const char *names, const char *other)
{
    static const char *const ends[PATHS + 1] = {
        [TO_SECRET] = "b/x/../../secret", [TO_TOP] = "b/x/../../../secret", [TO_FILE] = "b/f", [TO_DIRECTORY] = "b/c",
        [TO_FILE_UP] = "b/x/../y/f", [TO_INSIDE] = "b/x", [BY_LINK] = "via/../../secret", [BY_LINK_UP] = "b/x/up",
        [BY_LINK_ON] = "b/x/on", [BY_LINK_TO_NAME] = "b/last", [TO_NEW] = "b/x/../../new",
    };
    char path[2 * PATH_MAX];
    snprintf(below, sizeof below, "%s%sq", names, names[0] != 0 ? "/" : "");
    for (int one = 0; one <= PATHS; one++)
        snprintf(paths[one], sizeof paths[one], "%.4000s/%s", below, ends[one]);
    snprintf(path, sizeof path, "box/%s/b/x", below);
    make_all(path, true);
    snprintf(path, sizeof path, "box/%s/b/y", below);
    make_all(path, true);
    snprintf(path, sizeof path, "box/%s", below);
    inner = sure(openat(base, path, O_PATH | O_DIRECTORY | O_CLOEXEC), path);
    make_all(other, false);
    outer = sure(openat(base, other, O_PATH | O_DIRECTORY | O_CLOEXEC), other);
    plain_root = root = sure(openat(base, "box", O_PATH | O_DIRECTORY | O_CLOEXEC), "box");
    int secret = sure(openat(outer, "secret", O_WRONLY | O_CREAT | O_EXCL | O_CLOEXEC, 0600), "secret");
    sure((int)write(secret, "secret", 6), "secret");
    close(secret);
    sure(mknodat(outer, "../secret", S_IFREG | 0600, 0), "../secret");
    sure(symlinkat("b/x", inner, "via"), "via");
    sure(symlinkat("../../secret", inner, "b/x/up"), "up");
    sure(symlinkat("../y/f", inner, "b/x/on"), "on");
    sure(symlinkat("f", inner, "b/last"), "last");
}

/* The secret has its text, and beside it nothing was made. */
static void is_untouched(const char *title)
{
    struct stat about = {0};
    gives(fstatat(outer, "secret", &about, 0), 0, "%s: secret, asked for", title);
    gives((long)about.st_size, 6, "%s: the size of secret", title);
    gives(faccessat(outer, "new", F_OK, 0), -1, "%s: new, asked for", title);
}

/* ---- mounts */

/* DIR itself is on such a mount from here on. */
static void on_overlay(void)
{
    char options[4 * PATH_MAX];
    static const char *const dirs[] = {"lower", "upper", "work", "mount"};
    for (size_t one = 0; one < sizeof dirs / sizeof *dirs; one++)
        sure(mkdirat(base, dirs[one], 0755), dirs[one]);
    own_mounts_or_end();
    snprintf(options, sizeof options, "lowerdir=%s/lower,upperdir=%s/upper,workdir=%s/work", where, where, where);
    strcat(where, "/mount");
    if (mount("overlay", where, "overlay", 0, options) != 0) {
        puts("roots_race: overlayfs can't be mounted here");
        exit(NO_RIGHT);
    }
    close(base);
    base = sure(open(where, O_PATH | O_DIRECTORY | O_CLOEXEC), where);
}

/* The root is opened anew, by a mount that is only there. What is moved is moved by the mount below. */
static void by_bind(void)
{
    char box[PATH_MAX + 24];
    snprintf(box, sizeof box, "%s/box", where);
    own_mounts_or_end();
    if (mount(box, box, NULL, MS_BIND, NULL) != 0)
        exit(NO_RIGHT);
    root = sure(open(box, O_PATH | O_DIRECTORY | O_CLOEXEC), box);
}

/* The same, and the program leaves the namespace of that mount. */
static void by_namespace(void)
{
    int here = sure(open("/proc/self/ns/mnt", O_RDONLY | O_CLOEXEC), "ns/mnt");
    by_bind();
    if (setns(here, CLONE_NEWNS) != 0)
        exit(NO_RIGHT);
    close(here);
}

/* ---- */

static void race_of(const char *name, unsigned places, void (*move)(void), unsigned seconds)
{
    const struct worker control = {.name = "a walk without a check", .work = without_check, .control = true};
    enum place all[MOST_WORKERS];
    int count = 0;
    char title[64];
    snprintf(title, sizeof title, "roots_race: %s", name);
    for (unsigned place = PLAIN; place < PLACES; place++)
        if (places & 1U << place)
            all[count++] = place;
    race_in(title, &control, resolve, all, count, move, seconds);
    is_untouched(title);
}

enum { ALL = 1 << PLAIN | 1 << CHROOT | 1 << EXACT | 1 << EXACT_CHROOT };

static const struct {
    const char *name;
    unsigned places;
    void (*mount)(void), (*move)(void);
} races[] = {
    {"all", ALL, NULL, move_out_and_in},
    {"chroot", 1 << CHROOT | 1 << EXACT_CHROOT, NULL, move_out_and_in},
    {"bind", ALL, by_bind, move_out_and_in},
    {"namespace", ALL, by_namespace, move_out_and_in},
    {"overlay", ALL, NULL, move_out_and_in},
    {"renamed", 1 << PLAIN | 1 << EXACT, NULL, rename_root_too},
};

int main(int count, char **words)
{
    const size_t one = row_of(races, sizeof races / sizeof *races, sizeof *races, count, words, where, &base);
    bool is_renamed = races[one].move == rename_root_too;
    if (strcmp(words[3], "overlay") == 0)
        on_overlay();
    may_end_early = false;
    make_tree(is_renamed ? "" : where + 1, is_renamed ? "other/q" : "q");
    if (races[one].mount != NULL)
        races[one].mount();
    open_proc();
    race_of(words[3], races[one].places, races[one].move, (unsigned)atoi(words[2]));
    return ending(has_shown);
}
