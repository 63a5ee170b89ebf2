/*
 * acts: each call of inroot.h, by the kernel's walk and with INROOT_EXACT, in a chroot and on one mount. Somebody acts
 * before the first system call of the call, before the second, and so on; or that system call fails, or no descriptor
 * is left. They move a directory out, or elsewhere, and back later; put a link that leads outside in its place;
 * exchange the root's own directory; remove, replace and exchange entries; put something else where the call has made
 * an entry; mount over a directory; and replace the root's descriptor, which the program promised not to do. Nothing
 * outside may be opened, listed, made, changed or removed, and no call may name a path at which the object never stood.
 * A call that fails has changed nothing, or says that it has; none changes an entry twice; none closes a descriptor
 * twice or leaves one open. Objects outside are known by inodes, and their state by all that fstat(2) says.
 *
 * usage: acts DIR [few]. With `few` somebody acts before one system call of each kind in one of three rounds. Exits 0 where that
 * holds, and a walk without checks is led out. 77: no openat2(2) here. 78: no right to change a root or to mount.
 */
#define _GNU_SOURCE
#include "tries.h"


/* ---- the calls: what they give is a descriptor, a number or -errno */

/* The flags that each call gets in this round. */
static int flags;

static int open_file(void) { return inroot_open(root, "a/b/f", flags); }
static int open_directory(void) { return inroot_open(root, "a/b/d", flags); }
static int open_up(void) { return inroot_open(root, "a/b/d/../f", flags); }
static int open_far_up(void) { return inroot_open(root, "a/b/d/../../../t/f", flags); }
static int open_link(void) { return inroot_open(root, "a/b/l", flags); }
static int open_absolute(void) { return inroot_open(root, "t/u/f", flags); }
static int open_reading(void) { return inroot_openat(root, "a/b/f", O_RDONLY, 0, flags); }
static int open_truncated(void) { return inroot_openat(root, "a/b/f", O_WRONLY | O_TRUNC, 0, flags); }
static int open_nameless(void) { return inroot_openat(root, "a/b", O_RDWR | O_TMPFILE, 0600, flags); }
static int open_or_make(void) { return inroot_openat(root, "a/b/new", O_RDWR | O_CREAT, 0600, flags); }
static int open_there(void) { return inroot_openat(root, "a/b/f", O_RDWR | O_CREAT, 0600, flags); }
static int open_dangling(void) { return inroot_openat(root, "a/b/n", O_RDWR | O_CREAT, 0600, flags); }
static int make_and_open(void) { return inroot_openat(root, "a/b/new", O_RDWR | O_CREAT | O_EXCL, 0600, flags); }
static int make_by_path(void) { return inroot_openat(root, "a/b/new", O_PATH | O_CREAT | O_EXCL, 0600, flags); }
static int make_file(void) { return inroot_mknod(root, "a/b/new", S_IFREG | 0600, 0, flags); }
static int give_file(void) { return inroot_mknod(root, "a/b/new", S_IFREG | 0600, 0, flags | INROOT_GIVE); }
static int make_pipe(void) { return inroot_mknod(root, "a/b/new", S_IFIFO | 0600, 0, flags); }
static int give_pipe(void) { return inroot_mknod(root, "a/b/new", S_IFIFO | 0600, 0, flags | INROOT_GIVE); }
static int make_directory(void) { return inroot_mkdir(root, "a/b/new", 0700, flags); }
static int give_directory(void) { return inroot_mkdir(root, "a/b/d/../new", 0700, flags | INROOT_GIVE); }
static int make_link(void) { return inroot_symlink(root, "text", "a/b/new", flags); }
static int give_link(void) { return inroot_symlink(root, "text", "a/b/new", flags | INROOT_GIVE); }
static int make_name(void) { return inroot_link(root, "a/b/f", "t/new", flags); }
static int give_name(void) { return inroot_link(root, "t/f", "a/b/new", flags | INROOT_GIVE); }
static int remove_file(void) { return inroot_unlink(root, "a/b/f", flags); }
static int remove_directory(void) { return inroot_rmdir(root, "a/b/d/e", flags); }
static int rename_away(void) { return inroot_rename(root, "a/b/f", "t/new", INROOT_PLAIN, flags); }
static int rename_over(void) { return inroot_rename(root, "t/f", "a/b/f", INROOT_PLAIN, flags); }
static int rename_both(void) { return inroot_rename(root, "a/b/f", "t/f", INROOT_EXCHANGE, flags); }
static int make_all(void) { return inroot_mkdir_all(root, "a/b/v/w", 0700, flags); }
static int make_all_up(void) { return inroot_mkdir_all(root, "a/b/d/../v/w", 0700, flags); }
static int make_through(void) { return inroot_mkdir_all(root, "a/b/n/w", 0700, flags | INROOT_FOLLOW); }
static int make_file_all(void) { return inroot_mkfile_all(root, "a/b/v/new", 0600, 0700, flags); }
static int make_file_through(void) { return inroot_mkfile_all(root, "a/b/n", 0600, 0700, flags | INROOT_FOLLOW); }
static int remove_all(void) { return (int)inroot_remove_all(root, "a/b", flags); }

static int status(void)
{
    struct stat about;
    int failed = inroot_stat(root, "a/b/f", &about, flags);
    if (failed == 0)
        is_inside(&about, "what a status is of");
    return failed;
}

static int read_link(void)
{
    char text[64];
    ssize_t length = inroot_readlink(root, "a/b/l", flags, text, sizeof text);
    if (length >= 0)
        expect(memcmp(text, "../", 3) == 0, "%s: the link's text is '%.*s'", what_is_done, (int)length, text);
    return (int)length;
}

static int open_parent(void)
{
    char last[256];
    return inroot_open_parent(root, "a/b/new", flags, last);
}

/* Where these objects stand, at one time or another. */
static bool is_place(const char *place)
{
    static const char *const places[] = {"/a/b/f", "/a/c/f", "/a/b/d", "/a/c/d", "/d"};
    for (size_t one = 0; one < sizeof places / sizeof *places; one++)
        if (strcmp(place, places[one]) == 0)
            return true;
    return false;
}

static int place_of(int dir, const char *path, int how)
{
    char place[256];
    int fd = sure(__real_openat(dir, path, O_PATH | how | O_CLOEXEC), path);
    begin_counting();
    int length = (int)inroot_place(root, fd, place, sizeof place);
    end_counting();
    __real_close(fd);
    if (length >= 0)
        expect(is_place(place), "%s: the place is '%s'", what_is_done, place);
    return length;
}

static int place_of_file(void) { return place_of(root, "a/b/f", 0); }
static int place_of_directory(void) { return place_of(root, "a/b/d", O_DIRECTORY); }

/* What was found is changed, whatever has its name by then. */
static int change_found(void)
{
    const struct timespec times[2] = {{.tv_sec = 1}, {.tv_sec = 2}};
    int fd = inroot_open(root, "a/b/f", flags);
    int failed = fd < 0 ? fd : inroot_fchmod(fd, 0740);
    if (failed == 0)
        failed = inroot_futimens(fd, times);
    if (failed == 0)
        failed = inroot_fchown(fd, geteuid(), getegid());
    if (fd >= 0)
        close(fd);
    return failed;
}

static const struct row rows[] = {
    {"open a file", open_file, OPENS | ON_MOUNT, 0},
    {"open a directory", open_directory, OPENS | BY_D | ON_MOUNT, 0},
    {"open behind ..", open_up, OPENS | BY_D | ON_MOUNT, 0},
    {"open behind three ..", open_far_up, OPENS | BY_D | ON_MOUNT, 0},
    {"open a link's target", open_link, OPENS | ON_MOUNT, 0},
    {"open behind an absolute link", open_absolute, OPENS | ON_MOUNT, 0},
    {"open for reading", open_reading, OPENS, 0},
    {"open and truncate", open_truncated, OPENS | ON_MOUNT, 0},
    {"open a file without a name", open_nameless, OPENS_NEW, 0},
    {"open or make, missing", open_or_make, OPENS | ON_MOUNT, ANY},
    {"open or make, there", open_there, OPENS, ANY},
    {"open or make through a link", open_dangling, OPENS | ON_MOUNT, ANY},
    {"make and open", make_and_open, OPENS | ON_MOUNT, 1},
    {"make and give by O_PATH", make_by_path, GIVES, 1},
    {"make a file", make_file, 0, 1},
    {"make and give a file", give_file, GIVES, 1},
    {"make a FIFO", make_pipe, 0, 1},
    {"make and give a FIFO", give_pipe, GIVES, 1},
    {"make a directory", make_directory, 0, 1},
    {"make and give a directory", give_directory, GIVES | BY_D | ON_MOUNT, 1},
    {"make a link", make_link, 0, 1},
    {"make and give a link", give_link, GIVES, 1},
    {"make a name", make_name, 0, 1},
    {"make and give a name", give_name, GIVES, 1},
    {"remove a file", remove_file, 0, 1},
    {"remove a directory", remove_directory, BY_D, 1},
    {"rename", rename_away, 0, 1},
    {"rename over", rename_over, 0, 1},
    {"exchange", rename_both, 0, 1},
    {"make all", make_all, OPENS, ANY},
    {"make all behind ..", make_all_up, OPENS | BY_D | ON_MOUNT, ANY},
    {"make all through a link", make_through, OPENS, ANY},
    {"make a file and all above", make_file_all, OPENS, ANY},
    {"make a file through a link", make_file_through, OPENS, ANY},
    {"remove all", remove_all, BY_D, ANY},
    {"status", status, 0, 0},
    {"read a link", read_link, 0, 0},
    {"open a parent", open_parent, OPENS, 0},
    {"the place of a file", place_of_file, COUNTS_ITSELF | ON_MOUNT, 0},
    {"the place of a directory", place_of_directory, COUNTS_ITSELF | BY_D, 0},
    {"change what was found", change_found, 0, ANY},
};
enum { ROWS = sizeof rows / sizeof *rows };

/* ---- the rounds */

static void each(const char *who, int by, const struct act *acts, int count)
{
    flags = by;
    tries = 0;
    turn = phase++;
    held = -1;
    look_outside(outside);
    for (int one = 0; one < ROWS; one++) {
        if (hand >= 0 && !(rows[one].what & ON_MOUNT))
            continue;
        int length = count_moments(who, &rows[one]);
        for (int act = 0; act < count; act++)
            try_each(who, &rows[one], &acts[act], length);
    }
    printf("acts: %s: %ld tries\n", who, tries);
}

/* By the kernel's walk; by the steps behind it, where it doesn't succeed; and with INROOT_EXACT. */
static void by_each_way(const char *where, int more, const struct act *acts, int count)
{
    static const struct {
        const char *name;
        int flags;
        bool steps;
    } ways[] = {{"by the kernel's walk", 0, false}, {"by steps behind it", 0, true}, {"with INROOT_EXACT", INROOT_EXACT, false}};
    for (size_t one = 0; one < sizeof ways / sizeof *ways; one++) {
        char who[128];
        snprintf(who, sizeof who, "%s%s", ways[one].name, where);
        no_kernel_walk = ways[one].steps;
        each(who, ways[one].flags | more, acts, count);
    }
    no_kernel_walk = false;
}

static void by_descriptor(void)
{
    by_each_way("", 0, all_acts, ALL_ACTS);
}

static void in_chroot(void)
{
    chroot_or_end(root);
    by_each_way(" in a chroot", 0, all_acts, ALL_ACTS);
}

static void have_own_mounts(void)
{
    own_mounts_or_end();
    open_directories();
}

static void beside_mounts(void)
{
    have_own_mounts();
    may_mount = true;
    by_each_way(" on one mount", INROOT_NO_XDEV, mount_acts, MOUNT_ACTS);
}

static void on_moved_mount(void)
{
    have_own_mounts();
    begin_hand();
    by_each_way(" on a mount that is moved", 0, moved_acts, MOVED_ACTS);
    chroot_or_end(root);
    by_each_way(" on a mount that is moved, in a chroot", 0, moved_acts, MOVED_ACTS);
}

static void on_moved_root(void)
{
    is_root_moved = true;
    have_own_mounts();
    begin_hand();
    by_each_way(" on a root that is a mount and is moved", 0, moved_acts, MOVED_ACTS);
}

/* What a call has made is known by its number alone. */
static void where_numbers_lie(void)
{
    static const struct row found[] = {
        {"open a file", open_file, OPENS, 0},
        {"open behind ..", open_up, OPENS, 0},
        {"open a link's target", open_link, OPENS, 0},
    };
    lies = true;
    lied_about = outside[0].st_dev;
    few = false;
    for (flags = 0; flags <= INROOT_EXACT; flags += INROOT_EXACT) {
        no_kernel_walk = flags == 0;
        for (size_t one = 0; one < sizeof found / sizeof *found; one++)
            try_each("where numbers lie", &found[one], &brought, count_moments("where numbers lie", &found[one]));
    }
}

static void where_calls_fail(void)
{
    static const int faults[] = {
        EINTR, EPERM, EACCES, EIO, EMFILE, ENFILE, ENOMEM, ENOSYS, ESTALE, EAGAIN, EINVAL, ENOENT, ENOTDIR, ELOOP, EXDEV, EBADF,
        EOVERFLOW, ENAMETOOLONG, EROFS, EBUSY, EEXIST, EISDIR, ENOTEMPTY, EOPNOTSUPP, 524,
    };
    for (size_t one = 0; one < sizeof faults / sizeof *faults; one++) {
        char name[64];
        snprintf(name, sizeof name, "a system call fails by %d", faults[one]);
        const struct act fault = {name, do_nothing, NULL, 0, faults[one]};
        by_each_way("", 0, &fault, 1);
    }
}

/* Another thread has taken the last descriptor. */
static void where_none_is_left(void)
{
    static const struct act taken = {"no descriptor is left", do_nothing, NULL, 0, 0};
    for (shortage = EMFILE; shortage >= ENFILE; shortage--)
        by_each_way(", short of descriptors", 0, &taken, 1);
}

static void by_another_descriptor(void)
{
    breaks_promise = true;
    by_each_way(" and a number that another file gets", 0, &lost_root, 1);
}

/* ---- the control */

static int unchecked(void)
{
    int fd = __real_openat(root, ".", O_PATH | O_DIRECTORY | O_CLOEXEC);
    static const char *const parts[] = {"a", "b", "d", "..", "..", "..", "secret"};
    for (size_t part = 0; fd >= 0 && part < sizeof parts / sizeof *parts; part++) {
        int next = openat(fd, parts[part], O_PATH | O_NOFOLLOW | O_CLOEXEC);
        __real_close(fd);
        fd = next;
    }
    return fd < 0 ? -errno : fd;
}

static void lead_out(const struct act *acts, int count, const char *by)
{
    static const struct row control = {"a walk without checks", unchecked, OPENS | MAY_MISS, 0};
    const int before = wrong;
    quiet = true;
    few = false;
    led_out = 0;
    int length = count_moments("the control", &control);
    for (int act = 0; act < count; act++)
        try_each("the control", &control, &acts[act], length);
    quiet = false;
    printf("acts: a walk without checks: led out %d times by %s\n", led_out, by);
    wrong = before;
    gives_least(led_out, 1, "how often a walk without checks is led out by %s", by);
}

static void be_led_out(void)
{
    lead_out(all_acts, ALL_ACTS, "renames");
}

static void be_led_out_by_mounts(void)
{
    have_own_mounts();
    begin_hand();
    lead_out(moved_acts, MOVED_ACTS, "a mount that is moved");
}

int main(int count, char **words)
{
    static const struct {
        void (*run)(void);
        unsigned phase;
    } rounds[] = {
        {be_led_out, 0}, {be_led_out_by_mounts, 0}, {by_descriptor, 0}, {in_chroot, 1}, {beside_mounts, 0}, {on_moved_mount, 0},
        {on_moved_root, 1}, {where_numbers_lie, 0}, {where_calls_fail, 0}, {where_none_is_left, 0}, {by_another_descriptor, 0},
    };
    int skipped = 0;
    if (count < 2 || count > 3)
        return 2;
    few = count == 3 && strcmp(words[2], "few") == 0;
    if (count == 3 && !few)
        return 2;
    if (!WRAPS_ALL)
        return NO_WRAP;
    if (!has_openat2())
        return NO_OPENAT2;
    begin_acts(words[1]);
    open_proc();
    for (size_t one = 0; one < sizeof rounds / sizeof *rounds; one++) {
        phase = rounds[one].phase;
        int status = apart(rounds[one].run);
        skipped = status != 0 ? status : skipped;
    }
    printf("acts: %d not as they are to be\n", wrong);
    return wrong != 0 ? 1 : skipped;
}
