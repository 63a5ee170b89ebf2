/*
 * dead: a directory is removed after a call has opened it, and before the call asks for the one above: that one isn't
 * opened, as the kernel opens none of what is gone. On the file system that DIR is on, and on overlayfs, which leaves
 * links to a directory of a lower layer: of one that is there alone, of one that the upper layer has too, of one that
 * was made above. And on a cgroup2, which leaves links to each. And a directory whose name ends in ` (deleted)`, which
 * the kernel writes of what was removed, is opened only if the driver can find out that it is there.
 *
 * usage: dead DIR. Exits 0 where that holds. 78: no right to mount, so that overlayfs or a cgroup2 is left out.
 */
#define _GNU_SOURCE
#include "support.h"
#include "wraps.h"

#include <errno.h>
#include <limits.h>
#include <string.h>
#include <sys/stat.h>

static char where[PATH_MAX];
static int root;
static const char *removed, *file = "f";

static int my_openat(int dir, const char *name, int flags, mode_t mode)
{
    if (removed != NULL && strcmp(name, "..") == 0) {
        sure(unlinkat(root, removed, AT_REMOVEDIR), removed);
        removed = NULL;
    }
    return __real_openat(dir, name, flags, mode);
}

INSTEAD_OF_OPENAT(my_openat)

/* With another try the name isn't there. */
static void one(const char *what, const char *name)
{
    char path[64];
    snprintf(path, sizeof path, "%s/../%s", name, file);
    int fd = inroot_open(root, path, INROOT_EXACT);
    gives_fd(fd, "%s, %s: what stands", what, name);
    close(fd);
    removed = name;
    fd = inroot_open(root, path, INROOT_EXACT | INROOT_NO_RETRY);
    gives(fd, -EAGAIN, "%s, %s: what was above it by one try", what, name);
    expect(removed == NULL, "%s, %s: it was removed meanwhile", what, name);
    if (fd >= 0)
        close(fd);
    removed = NULL;
    gives(inroot_open(root, path, INROOT_EXACT), -ENOENT, "%s, %s: by another try", what, name);
}

static void each(const char *what)
{
    static const char *const names[] = {"low", "both", "high"};
    for (size_t name = 0; name < sizeof names / sizeof *names; name++)
        one(what, names[name]);
}

static void with_exact(void)
{
    each("with INROOT_EXACT");
}

static void make(const char *first, const char *second)
{
    char path[2 * PATH_MAX];
    snprintf(path, sizeof path, "%s/%s%s", where, first, second);
    sure(mkdir(path, 0755), path);
}

/* On the file system of DIR, below a directory of this name. */
static void here(const char *name)
{
    char path[2 * PATH_MAX];
    make(name, "");
    make(name, "/low");
    make(name, "/both");
    make(name, "/high");
    snprintf(path, sizeof path, "%s/%s", where, name);
    root = sure(open(path, O_PATH | O_DIRECTORY | O_CLOEXEC), path);
    sure(mknodat(root, "f", S_IFREG | 0600, 0), "f");
}

/* A mount for each, of which the layers are made afresh. */
static void on_overlay(const char *name)
{
    char options[8 * PATH_MAX], layers[2 * PATH_MAX], target[3 * PATH_MAX];
    static const char *const dirs[] = {"/lower", "/upper", "/work", "/mount", "/lower/low", "/lower/both", "/upper/both"};
    make(name, "");
    for (size_t one = 0; one < sizeof dirs / sizeof *dirs; one++)
        make(name, dirs[one]);
    own_mounts_or_end();
    snprintf(layers, sizeof layers, "%s/%s", where, name);
    snprintf(target, sizeof target, "%s/mount", layers);
    snprintf(options, sizeof options, "lowerdir=%s/lower,upperdir=%s/upper,workdir=%s/work", layers, layers, layers);
    if (mount("overlay", target, "overlay", 0, options) != 0)
        _exit(NO_RIGHT);
    root = sure(open(target, O_PATH | O_DIRECTORY | O_CLOEXEC), target);
    sure(mkdirat(root, "high", 0755), "high");
    sure(mknodat(root, "f", S_IFREG | 0600, 0), "f");
}

/* A new one for the test's own groups, in the control group at its top. */
static void on_cgroup2(void)
{
    char target[2 * PATH_MAX];
    static const char *const names[] = {"low", "both", "high"};
    make("five", "");
    snprintf(target, sizeof target, "%s/five", where);
    own_mounts_or_end();
    if (mount("none", target, "cgroup2", 0, NULL) != 0)
        _exit(NO_RIGHT);
    int top = sure(open(target, O_PATH | O_DIRECTORY | O_CLOEXEC), target);
    snprintf(target, sizeof target, "inroot_dead_%ld", (long)getpid());
    if (mkdirat(top, target, 0755) != 0)
        _exit(NO_RIGHT);
    root = sure(openat(top, target, O_PATH | O_DIRECTORY | O_CLOEXEC), target);
    for (size_t one = 0; one < sizeof names / sizeof *names; one++)
        sure(mkdirat(root, names[one], 0755), names[one]);
    file = "cgroup.procs";
    each("on a cgroup2");
    for (size_t one = 0; one < sizeof names / sizeof *names; one++)
        unlinkat(root, names[one], AT_REMOVEDIR);
    sure(unlinkat(top, target, AT_REMOVEDIR), target);
}

static void on_overlay_alone(void)
{
    on_overlay("one");
    with_exact();
}

static void opens_or_fails(const char *path, int flags, int wanted, const char *what)
{
    int fd = inroot_open(root, path, flags);
    gives(fd < 0 ? fd : 0, wanted, "%s", what);
    if (fd >= 0)
        close(fd);
}

/* As nobody, who may read one of them. On overlayfs this must be read; elsewhere its links say it. */
static void called_so(int unread)
{
    sure(mkdirat(root, "s (deleted)", 0755), "s (deleted)");
    sure(mkdirat(root, "u (deleted)", 0311), "u (deleted)");
    if (setresuid(65534, 65534, 65534) != 0)
        _exit(NO_RIGHT);
    gives_fd(inroot_open(root, "s (deleted)", INROOT_EXACT | INROOT_NO_RETRY), "a directory that is called so");
    opens_or_fails("u (deleted)", INROOT_EXACT | INROOT_NO_RETRY, unread, "one that may not be read");
    opens_or_fails("u (deleted)", INROOT_NO_RETRY, 0, "the same by the kernel's walk");
}

static void called_so_on_overlay(void)
{
    on_overlay("six");
    called_so(-EAGAIN);
}

static void called_so_here(void)
{
    called_so(0);
}

int main(int count, char **words)
{
    if (count != 2 || realpath(words[1], where) == NULL)
        return 2;
    open_proc();
    int skipped = apart(on_overlay_alone);
    if (skipped != 0)
        puts("dead: overlayfs can't be mounted here");
    if (skipped == 0 && may_be_nobody())
        apart(called_so_on_overlay);
    const int no_groups = apart(on_cgroup2);
    if (no_groups != 0)
        puts("dead: a cgroup2 can't be mounted here, or has no new groups");
    skipped |= no_groups;
    here("three");
    apart(with_exact);
    skipped |= may_be_nobody() ? apart(called_so_here) : NO_RIGHT;
    printf("dead: %d not as they are to be\n", wrong);
    return wrong != 0 ? 1 : skipped;
}
