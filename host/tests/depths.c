/*
 * depths: trees that are deeper than one of the proved calls goes, twice over, and a directory with more names than a
 * call holds, removed whole; where others take the deep part away meanwhile, the call doesn't follow it. A directory in
 * one whose names are held gets less room for its own. Where the kernel refuses to remove the deepest, nothing stays
 * open. With INROOT_NO_XDEV what is mounted 30 or 400 levels below stays.
 *
 * usage: depths DIR. Exits 0 where that holds. 78: no right to be filtered or to mount, so that a part is left out.
 */
#define _GNU_SOURCE
#include "filter.h"
#include "support.h"
#include "wraps.h"

#include <errno.h>
#include <fcntl.h>
#include <string.h>
#include <sys/resource.h>
#include <sys/stat.h>

/*
 * More levels than calls go by its places and moves, twice over; names of many parts of a listing; the levels
 * of one proved call; and more of these than moves to the first place.
 */
enum { LEVELS = 9000, NAMES = 5000, PARTS = NAMES * 251 / 65536, ONE_CALL = 20, SOME_CALLS = 40 };

static int root, before;
static const char *where;

/* What is done as the call has come to its deepest directory. */
static void (*act)(int deepest);

/* So often a directory was opened to be read. */
static int listings;

static int my_openat(int dir, const char *name, int flags, mode_t mode)
{
    listings += flags & O_DIRECTORY && !(flags & O_PATH);
    int fd = __real_openat(dir, name, flags, mode);
    /* The next call begins there: it is opened by itself, and not to be read. */
    if (act != NULL && fd >= 0 && dir != root && flags & O_PATH && strcmp(name, ".") == 0) {
        void (*now)(int) = act;
        act = NULL;
        now(fd);
    }
    return fd;
}

INSTEAD_OF_OPENAT(my_openat)

/* Directories within one another, below `t`; each of those from this one on has a file, whose name comes first. */
static void dig(int levels, int files_from)
{
    sure(mkdirat(root, "t", 0755), "t");
    int dir = sure(__real_openat(root, "t", O_PATH | O_DIRECTORY | O_CLOEXEC), "t");
    for (int level = 1; level < levels; level++) {
        if (level >= files_from)
            sure(mknodat(dir, "a", S_IFREG | 0600, 0), "a");
        sure(mkdirat(dir, "d", 0755), "d");
        int below = sure(__real_openat(dir, "d", O_PATH | O_DIRECTORY | O_CLOEXEC), "d");
        close(dir);
        dir = below;
    }
    close(dir);
}

static void is_removed(const char *what, ssize_t wanted)
{
    ssize_t got = inroot_remove_all(root, "t", INROOT_NO_RETRY);
    gives(got, wanted, "%s: entries removed", what);
    gives(faccessat(root, "t", F_OK, AT_SYMLINK_NOFOLLOW), -1, "%s: asked for", what);
    gives(open_descriptors(), before, "%s: open descriptors", what);
}

static void deep(void)
{
    dig(LEVELS, LEVELS);
    is_removed("a deep tree", LEVELS);
    /* The proved calls that go deeper remove something before they have come to the ground. */
    dig(LEVELS, 5000);
    is_removed("a deep tree with files", LEVELS + LEVELS - 5000);
}

static void large(void)
{
    char name[256];
    sure(mkdirat(root, "t", 0755), "t");
    for (int one = 0; one < NAMES; one++) {
        snprintf(name, sizeof name, "t/%0250d", one);
        sure(mknodat(root, name, S_IFREG | 0600, 0), name);
    }
    sure(mkdirat(root, "t/!", 0755), "t/!");
    listings = 0;
    is_removed("a large directory", NAMES + 2);
    /* The names of the large one are held as the small one is listed. */
    expect(listings > PARTS && listings < 2 * PARTS, "a large directory in parts: %d listings", listings);
}

/* How many levels it is below the root. */
static void measure(int deepest)
{
    struct stat top, about;
    int levels = 0, at = sure(dup(deepest), "dup");
    sure(fstat(root, &top), "fstat");
    for (sure(fstat(at, &about), "fstat"); about.st_ino != top.st_ino; sure(fstat(at, &about), "fstat")) {
        int above = sure(__real_openat(at, "..", O_PATH | O_DIRECTORY | O_CLOEXEC), "..");
        close(at);
        at = above;
        levels++;
    }
    close(at);
    expect(levels == ONE_CALL, "one call goes %d levels deep", levels);
}

static void bounded(void)
{
    dig(ONE_CALL, LEVELS);
    act = measure;
    is_removed("a tree for one call", ONE_CALL);
    expect(act != NULL, "a tree for one call takes two");
    dig(ONE_CALL + 1, LEVELS);
    is_removed("a tree for two calls", ONE_CALL + 1);
    expect(act == NULL, "a tree for two calls takes one");
}

/* With so few descriptors a call takes those of the places from which others are to go on. */
static void with_few(void)
{
    const struct rlimit few = {.rlim_cur = (rlim_t)take_gaps(root) + 9, .rlim_max = (rlim_t)take_gaps(root) + 9};
    int open_before = open_descriptors();
    sure(setrlimit(RLIMIT_NOFILE, &few), "setrlimit");
    ssize_t got = inroot_remove_all(root, "t", 0);
    expect(got == SOME_CALLS * ONE_CALL, "a deep tree with few descriptors: %zd", got);
    expect(open_descriptors() == open_before, "it leaves descriptors open");
}

static void spared(void)
{
    dig(SOME_CALLS * ONE_CALL, LEVELS);
    apart(with_few);
    expect(faccessat(root, "t", F_OK, AT_SYMLINK_NOFOLLOW) != 0, "a deep tree is left where there are few descriptors");
}

/* No directory may be removed. The error is that of the deepest one, and every place on the way is closed. */
static void refused(void)
{
    struct inroot_error why = {0};
    refuse_where(SYS_unlinkat, 2, AT_REMOVEDIR, AT_REMOVEDIR, EBUSY);
    ssize_t got = inroot_remove_all(root, "t", 0);
    expect(got == -EBUSY, "a deep tree of which nothing may be removed: %zd", got);
    expect(inroot_last_error(&why) == 0 && strcmp(why.step, "RemoveDir") == 0, "it is told of %s", why.step);
    expect(open_descriptors() == before, "it leaves descriptors open");
}

static int kept_by_the_kernel(void)
{
    dig(SOME_CALLS * ONE_CALL, LEVELS);
    int skipped = apart(refused);
    is_removed("a deep tree that was refused", SOME_CALLS * ONE_CALL);
    return skipped;
}

/* The rest of the tree is elsewhere by then, with what it has. */
static void take_away(int deepest)
{
    sure(renameat(deepest, "d", root, "elsewhere"), "d");
}

static void taken_away(void)
{
    dig(LEVELS / 2, LEVELS);
    act = take_away;
    ssize_t got = inroot_remove_all(root, "t", INROOT_NO_RETRY);
    expect(act == NULL, "the call didn't come to its deepest directory");
    gives(got, -EAGAIN, "a tree whose deep part is taken away");
    gives(faccessat(root, "elsewhere", F_OK, 0), 0, "what was taken away, asked for");
    gives(inroot_remove_all(root, "t", 0), ONE_CALL, "what is left of it");
    gives_least(inroot_remove_all(root, "elsewhere", 0), 1, "what was taken away");
    gives(open_descriptors(), before, "open descriptors");
}

/* So many levels down something is mounted. */
static int mount_level;

/* What was opened in another mount namespace doesn't see the mount. */
static void mounted_over(void)
{
    char source[64], target[64];
    struct stat about;
    own_mounts_or_end();
    root = sure(open(where, O_PATH | O_DIRECTORY | O_CLOEXEC), where);
    int dir = sure(__real_openat(root, "t", O_PATH | O_DIRECTORY | O_CLOEXEC), "t");
    for (int level = 0; level < mount_level; level++) {
        int below = sure(__real_openat(dir, "d", O_PATH | O_DIRECTORY | O_CLOEXEC), "d");
        close(dir);
        dir = below;
    }
    sure(mkdirat(dir, "m", 0755), "m");
    snprintf(source, sizeof source, "/proc/self/fd/%d/kept", root);
    snprintf(target, sizeof target, "/proc/self/fd/%d/m", dir);
    sure(mount(source, target, NULL, MS_BIND, NULL), target);
    for (int flags = 0; flags <= INROOT_EXACT; flags += INROOT_EXACT) {
        gives(inroot_remove_all(root, "t", INROOT_NO_XDEV | flags), -EXDEV, "a deep tree with a mount, flags %d", flags);
        gives(fstatat(root, "kept/f", &about, 0), 0, "what is mounted, asked for");
    }
    umount2(target, MNT_DETACH);
}

/* Where one proved call doesn't come to; and where another one begins at a place that was kept. */
static int mounted(void)
{
    static const int levels[] = {ONE_CALL + ONE_CALL / 2, SOME_CALLS / 2 * ONE_CALL};
    int skipped = 0;
    sure(mkdirat(root, "kept", 0755), "kept");
    sure(mknodat(root, "kept/f", S_IFREG | 0600, 0), "kept/f");
    for (size_t one = 0; one < sizeof levels / sizeof *levels; one++) {
        mount_level = levels[one];
        dig(mount_level + ONE_CALL, LEVELS);
        skipped |= apart(mounted_over);
        gives_least(inroot_remove_all(root, "t", 0), 1, "a deep tree without the mount");
    }
    return skipped;
}

int main(int count, char **words)
{
    if (count != 2)
        return 2;
    where = words[1];
    root = sure(open(where, O_PATH | O_DIRECTORY | O_CLOEXEC), where);
    open_proc();
    before = open_descriptors();
    bounded();
    deep();
    large();
    taken_away();
    spared();
    const int skipped = kept_by_the_kernel() | mounted();
    printf("depths: %d not as they are to be\n", wrong);
    return wrong != 0 ? 1 : skipped;
}
