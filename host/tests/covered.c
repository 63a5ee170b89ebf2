/*
 * covered: something is mounted over the root's own directory: another directory, or the root once more. A call goes
 * there by `..` as openat2(2) does, since the kernel counts each mount there as below the root. With INROOT_EXACT no
 * call does (EAGAIN), nor with INROOT_NO_XDEV (EXDEV). No call names a path of what is there.
 *
 * usage: covered DIR. Exits 0 where that holds. 77: no openat2(2) here. 78: no right to mount here.
 */
#define _GNU_SOURCE
#include "support.h"


static int base, root;
static char where[PATH_MAX];

static void mount_on_box(const char *what)
{
    char from[PATH_MAX + 8], to[PATH_MAX + 8];
    snprintf(from, sizeof from, "%s/%s", where, what);
    snprintf(to, sizeof to, "%s/box", where);
    sure(mount(from, to, NULL, MS_BIND, NULL), what);
}

static void mount_other(void)
{
    mount_on_box("other");
}

static void mount_itself(void)
{
    mount_on_box("box");
}

/* The root is open before something is mounted there. */
static void begin(void (*mounts)(void))
{
    char box[PATH_MAX + 8];
    own_mounts_or_end();
    /* By the mount of this namespace. */
    snprintf(box, sizeof box, "%s/box", where);
    root = sure(open(box, O_PATH | O_DIRECTORY | O_CLOEXEC), box);
    open_proc();
    mounts();
}

static void opens(const char *path, const char *object, int flags)
{
    int fd = inroot_open(root, path, flags | INROOT_NO_RETRY);
    gives_object(fd, root, object, "%s, flags %d", path, flags);
    if (fd >= 0)
        close(fd);
}

/* What covers the root isn't opened, and nothing is made there. */
static void is_refused(const char *path, int flags, int error)
{
    int fd = inroot_open(root, path, flags | INROOT_NO_RETRY);
    gives(fd, -error, "%s, flags %d", path, flags);
    if (fd >= 0)
        close(fd);
}

static void stays_below(int flags, int error)
{
    opens("f", "f", flags);
    opens("../a/x", "a/x", flags);
    is_refused("a/..", flags, error);
    is_refused("a/../f", flags, error);
    is_refused("a/../a/x", flags, error);
    gives(inroot_mkdir(root, "a/../made", 0755, flags | INROOT_NO_RETRY), -error, "made, flags %d", flags);
    gives(faccessat(base, "other/made", F_OK, 0), -1, "something was made in the other directory, flags %d", flags);
}

static void goes_as_the_kernel(const char *path)
{
    const struct open_how how = {.flags = O_PATH | O_CLOEXEC, .resolve = RESOLVE_IN_ROOT};
    int fd = inroot_open(root, path, INROOT_NO_RETRY), by_kernel = (int)syscall(SYS_openat2, root, path, &how, sizeof how);
    expect(by_kernel >= 0 && is_same_object(fd, by_kernel), "%s: %d, and the kernel %d", path, fd, by_kernel);
    if (fd >= 0)
        close(fd);
    close(by_kernel);
}

static void covered(void)
{
    begin(mount_other);
    stays_below(INROOT_EXACT, EAGAIN);
    stays_below(INROOT_NO_XDEV, EXDEV);
    stays_below(INROOT_EXACT | INROOT_NO_XDEV, EXDEV);
    opens("f", "f", 0);
    goes_as_the_kernel("../a/x");
    goes_as_the_kernel("a/..");
    goes_as_the_kernel("a/../f");
    goes_as_the_kernel("a/../a/x");
}

/* A directory on what covers the root stands nowhere below the root. */
static void places(void)
{
    char place[64], over[PATH_MAX + 8];
    begin(mount_other);
    snprintf(over, sizeof over, "%s/box/a", where);
    int dir = sure(open(over, O_PATH | O_DIRECTORY | O_CLOEXEC), over);
    gives(inroot_place(root, dir, place, sizeof place), -EXDEV, "the place of a directory over the root");
    /* What is below the root is found, deeper too. */
    int x = sure(inroot_open(root, "a/x", 0), "a/x");
    gives(inroot_place(root, x, place, sizeof place), 4, "the place of a directory below the root");
    gives_text(place, "/a/x", "the place of a directory below the root");
}

static void over_itself(void)
{
    static const int flags[] = {0, INROOT_EXACT};
    begin(mount_itself);
    for (size_t one = 0; one < sizeof flags / sizeof *flags; one++) {
        opens("a/..", ".", flags[one]);
        opens("a/../f", "f", flags[one]);
        gives(inroot_mkdir(root, "a/../made", 0755, flags[one]), 0, "a directory is made, flags %d", flags[one]);
        gives(inroot_rmdir(root, "made", flags[one]), 0, "a directory is removed, flags %d", flags[one]);
    }
}

int main(int count, char **words)
{
    begin_in_box(count, words, &base, &root);
    if (realpath(words[1], where) == NULL)
        return 1;
    for (int in_other = 0; in_other < 2; in_other++) {
        int dir = root;
        if (in_other) {
            sure(mkdirat(base, "other", 0755), "other");
            dir = sure(openat(base, "other", O_PATH | O_DIRECTORY | O_CLOEXEC), "other");
        }
        sure(mkdirat(dir, "a", 0755), "a");
        sure(mkdirat(dir, "a/x", 0755), "x");
        sure(mknodat(dir, "f", S_IFREG | 0600, 0), "f");
    }
    int skipped = apart(covered) | apart(places) | apart(over_itself);
    printf("covered: %d not as they are to be\n", wrong);
    return wrong != 0 ? 1 : skipped;
}
