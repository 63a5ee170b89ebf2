/*
 * given: calls return a descriptor of the new entry (INROOT_GIVE, and O_PATH with O_CREAT), for nine ways to make one;
 * by the kernel's walk and with INROOT_EXACT, also in a chroot, and with INROOT_NO_XDEV. The call notices each of five
 * acts of others between the making and the opening. An entry that can't be opened or looked at has that error, and
 * leaves no descriptor. With INROOT_NO_XDEV nothing is returned that is mounted over the entry.
 *
 * usage: given DIR. Exits 0 where each is as inroot.h says. 78: no right to change a root or to mount, so that a part is left out.
 */
#define _GNU_SOURCE
#include "support.h"
#include "wraps.h"

#include <string.h>
#include <sys/stat.h>
#include <sys/sysmacros.h>

/* What each call takes beside its way. */
static int root, more;

/* What somebody else does right before the entry that was made is opened by its name. */
static void (*meanwhile)(void);
static int refusal;

/* The entry that was opened; and why it can't be looked at. */
static int opened = -1, look_refusal;

/* It was made, and is opened by its name. */
static bool is_new(const char *name)
{
    return (strcmp(name, "new") == 0 || strcmp(name, "/new") == 0) && faccessat(root, "a/b/new", F_OK, AT_SYMLINK_NOFOLLOW) == 0;
}

/* Others act before it is opened, and that may be refused. */
static bool may_open(void)
{
    void (*now)(void) = meanwhile;
    meanwhile = NULL;
    if (now != NULL)
        now();
    errno = refusal;
    return refusal == 0;
}

static int my_openat(int dir, const char *name, int open_flags, mode_t mode)
{
    if (!is_new(name) || !(open_flags & O_PATH))
        return __real_openat(dir, name, open_flags, mode);
    return opened = may_open() ? __real_openat(dir, name, open_flags, mode) : -1;
}

INSTEAD_OF_OPENAT(my_openat)

/* So it is opened under INROOT_NO_XDEV. */
static long my_syscall(long number, const long *with)
{
    if (number != SYS_openat2 || !is_new((const char *)with[1]))
        return REAL_SYSCALL(number, with);
    return opened = may_open() ? (int)REAL_SYSCALL(number, with) : -1;
}

INSTEAD_OF_SYSCALL(my_syscall)

static bool is_refused(int fd)
{
    if (look_refusal == 0 || fd != opened)
        return false;
    errno = look_refusal;
    return true;
}

#ifdef STATX_INO

int __wrap_statx(int dir, const char *name, int flags, unsigned what, struct statx *about)
{
    return is_refused(dir) ? -1 : __real_statx(dir, name, flags, what, about);
}
#endif

int __wrap_fstat(int fd, struct stat *about)
{
    return is_refused(fd) ? -1 : __real_fstat(fd, about);
}

/* ---- each kind of entry */

static int make_one(int kind, int gives_it)
{
    const int at = root, flags = gives_it | way | more;
    switch (kind) {
    case 0: return inroot_mkdir(at, "a/link/new", 0750, flags);
    case 1: return inroot_mknod(at, "a/link/new", S_IFREG | 0640, 0, flags);
    case 2: return inroot_mknod(at, "a/link/new", S_IFIFO | 0600, 0, flags);
    case 3: return inroot_mknod(at, "a/link/new", S_IFSOCK | 0600, 0, flags);
    case 4: return inroot_symlink(at, "some/text", "a/link/new", flags);
    case 5: return inroot_link(at, "a/b/f", "a/link/new", flags);
    case 6: return inroot_link(at, "a/b/s", "a/link/new", flags);
    case 7: return inroot_openat(at, "a/link/new", O_PATH | O_CREAT | O_EXCL, 0640, flags & ~INROOT_GIVE);
    default: return inroot_openat(at, "a/link/new", O_PATH | O_CREAT, 0640, flags & ~INROOT_GIVE);
    }
}

static const mode_t modes[] = {S_IFDIR | 0750, S_IFREG | 0640, S_IFIFO | 0600, S_IFSOCK | 0600, S_IFLNK | 0777, S_IFREG | 0600,
                               S_IFLNK | 0777, S_IFREG | 0640, S_IFREG | 0640};
enum { KINDS = 9 };

static void clean(void)
{
    static const char *const names[] = {"a/b/new", "a/b/away"};
    for (int one = 0; one < 2; one++) {
        unlinkat(root, names[one], 0);
        unlinkat(root, names[one], AT_REMOVEDIR);
    }
}

static void each_kind(void)
{
    for (int kind = 0; kind < KINDS; kind++) {
        struct stat about, there;
        int fd = make_one(kind, INROOT_GIVE);
        expect(fd > 0, "kind %d: %d", kind, fd);
        if (fd <= 0)
            continue;
        sure(fstat(fd, &about), "fstat");
        sure(fstatat(root, "a/b/new", &there, AT_SYMLINK_NOFOLLOW), "a/b/new");
        expect(about.st_ino == there.st_ino, "kind %d: another was given", kind);
        expect(about.st_mode == modes[kind], "kind %d: the mode is %o", kind, about.st_mode);
        expect(fcntl(fd, F_GETFL) & O_PATH && fcntl(fd, F_GETFD) == FD_CLOEXEC, "kind %d: it is opened otherwise", kind);
        close(fd);
        if (kind != 8)
            gives(make_one(kind, INROOT_GIVE), -EEXIST, "kind %d, again", kind);
        clean();
        if (kind < 7)
            gives(make_one(kind, 0), 0, "kind %d, not given", kind);
        clean();
    }
}

/* A device can't be made by everyone. */
static void devices(void)
{
    struct stat about;
    int fd = inroot_mknod(root, "a/b/new", S_IFCHR | 0600, makedev(1, 3), INROOT_GIVE | way | more);
    expect(fd > 0 || fd == -EPERM, "a device: %d", fd);
    if (fd > 0) {
        sure(fstat(fd, &about), "fstat");
        expect(S_ISCHR(about.st_mode) && about.st_rdev == makedev(1, 3), "another device");
        close(fd);
    }
    clean();
}

/* ---- others in between */

static void move_away(void)
{
    sure(renameat(root, "a/b/new", root, "a/b/away"), "away");
}

static void put_directory(void)
{
    move_away();
    sure(mkdirat(root, "a/b/new", 0755), "mkdir");
}

static void put_file(void)
{
    move_away();
    sure(mknodat(root, "a/b/new", S_IFREG | 0600, 0), "mknod");
}

static void put_link(void)
{
    move_away();
    sure(symlinkat("/", root, "a/b/new"), "symlink");
}

static void put_device(void)
{
    move_away();
    if (mknodat(root, "a/b/new", S_IFCHR | 0600, makedev(1, 5)) != 0)
        sure(symlinkat("/", root, "a/b/new"), "symlink");
}

/* The entry that was made was moved, and another may stand at its name: this isn't given, and nothing is made once more. */
static void others(void)
{
    static void (*const all[])(void) = {move_away, put_directory, put_file, put_link, put_device};
    for (int kind = 0; kind < KINDS; kind++) {
        for (size_t one = 0; one < sizeof all / sizeof *all; one++) {
            struct inroot_error error;
            /* Nobody can tell one directory from another. */
            if (kind == 0 && all[one] == put_directory)
                continue;
            meanwhile = all[one];
            int fd = make_one(kind, INROOT_GIVE);
            gives(fd, -EAGAIN, "kind %d, and others %zu", kind, one);
            expect(meanwhile == NULL, "kind %d: nobody came in between", kind);
            expect(inroot_last_error(&error) == 0 && strcmp(error.step, "Give") == 0, "kind %d: the step %s", kind, error.step);
            expect(faccessat(root, "a/b/away", F_OK, AT_SYMLINK_NOFOLLOW) == 0, "kind %d: what was made is gone", kind);
            if (fd > 0)
                close(fd);
            clean();
        }
    }
}

static void another_device(void)
{
    int fd = inroot_mknod(root, "a/b/new", S_IFCHR | 0600, makedev(1, 3), way | more);
    clean();
    if (fd != 0)
        return;
    meanwhile = put_device;
    gives(inroot_mknod(root, "a/b/new", S_IFCHR | 0600, makedev(1, 3), INROOT_GIVE | way | more), -EAGAIN, "another device");
    clean();
}

/* What can't be opened was made. */
static void refused(void)
{
    for (int kind = 0; kind < KINDS; kind++) {
        refusal = EMFILE;
        gives(make_one(kind, INROOT_GIVE), -EMFILE, "kind %d with no descriptor left", kind);
        refusal = 0;
        expect(faccessat(root, "a/b/new", F_OK, AT_SYMLINK_NOFOLLOW) == 0, "kind %d wasn't made", kind);
        clean();
    }
}

/* What can't be looked at was made; its error is told, and no descriptor stays open. */
static void unseen(void)
{
    for (int kind = 0; kind < KINDS; kind++) {
        int before = open_descriptors();
        opened = -1;
        look_refusal = EIO;
        gives(make_one(kind, INROOT_GIVE), -EIO, "kind %d that can't be looked at", kind);
        look_refusal = 0;
        gives(open_descriptors(), before, "kind %d: descriptors", kind);
        expect(faccessat(root, "a/b/new", F_OK, AT_SYMLINK_NOFOLLOW) == 0, "kind %d wasn't made", kind);
        clean();
    }
}

/* O_PATH with O_CREAT gives what is there as well. */
static void paths(void)
{
    struct stat about;
    int fd = inroot_openat(root, "a/b/f", O_PATH | O_CREAT, 0600, way | more);
    expect(fd > 0 && fcntl(fd, F_GETFL) & O_PATH, "a file that is there: %d", fd);
    close(fd);
    gives(inroot_openat(root, "a/b", O_PATH | O_CREAT, 0600, way | more), -EISDIR, "a directory that is there");
    gives(inroot_openat(root, "a/b/f", O_PATH | O_CREAT | O_EXCL, 0600, way | more), -EEXIST, "a file that is there, and O_EXCL");
    fd = inroot_openat(root, "a/b/s", O_PATH | O_CREAT, 0600, way | more);
    expect(fd > 0 && fstat(fd, &about) == 0 && S_ISREG(about.st_mode), "the target of a link: %d", fd);
    close(fd);
    gives(unlinkat(root, "a/gone", 0), 0, "the target");
    fd = inroot_openat(root, "a/b/s", O_PATH | O_CREAT | O_NOFOLLOW, 0600, way | more);
    expect(fd > 0 && fstat(fd, &about) == 0 && S_ISLNK(about.st_mode), "the link itself: %d", fd);
    close(fd);
}

static void mount_over(void)
{
    sure(mount("a/other", "a/b/new", NULL, MS_BIND, NULL), "a/other");
}

/* Nobody can tell the directory that is mounted from the one that was made, but by its mount. */
static void covered(void)
{
    struct inroot_error error;
    umask(0);
    sure(mkdirat(root, "a/other", 0750), "a/other");
    sure(fchdir(root), "root");
    own_mounts_or_end();
    root = sure(open(".", O_PATH | O_DIRECTORY | O_CLOEXEC), "root");
    for (way = 0; way <= INROOT_EXACT; way += INROOT_EXACT) {
        meanwhile = mount_over;
        gives(make_one(0, INROOT_GIVE), -EXDEV, "a directory over which one is mounted");
        expect(inroot_last_error(&error) == 0 && strcmp(error.step, "Give") == 0, "the step %s", error.step);
        sure(umount2("a/b/new", MNT_DETACH), "a/b/new");
        clean();
    }
}

static void each(void)
{
    umask(0);
    int before = open_descriptors();
    each_kind();
    devices();
    others();
    another_device();
    refused();
    unseen();
    paths();
    expect(open_descriptors() == before, "%d descriptors are left", open_descriptors() - before);
}

int main(int count, char **words)
{
    if (count != 2)
        return 2;
    root = sure(open(words[1], O_PATH | O_DIRECTORY | O_CLOEXEC), words[1]);
    sure(mkdirat(root, "a", 0755), "a");
    sure(mkdirat(root, "a/b", 0755), "a/b");
    sure(mknodat(root, "a/b/f", S_IFREG | 0600, 0), "f");
    sure(symlinkat("/a/b", root, "a/link"), "link");
    sure(symlinkat("../gone", root, "a/b/s"), "s");
    open_proc();
    int skipped = in_each_way(root, each);
    more = INROOT_NO_XDEV;
    skipped |= in_each_way(root, each);
    skipped |= apart(covered);
    printf("given: %d not as they are to be\n", wrong);
    return wrong != 0 ? 1 : skipped;
}
