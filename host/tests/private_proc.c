/*
 * private_proc: where somebody covers /proc, as a whole or by links that lie, calls by inroot_use_private_proc() read
 * inside; the same calls without it are led out. Where the program has closed the library's descriptor of it, no call
 * goes by /proc, nor by another proc(5) that has the number since, or another mount of the same one, nor in a child
 * that another thread made in the midst of inroot_use_private_proc(). Of the descriptor of /proc itself the same holds:
 * no file outside is read, and no mode changed. No attribute goes by a covered /proc of which the private one is a
 * copy, or the handed-in one another mount. An attribute that a link refuses is EPERM by a private one, too. Each
 * system call by which a private one is made fails, by five errors, or is interrupted by signals: a copy of /proc takes
 * its place, or the first error is returned, and nothing stays open. So also where a new one lacks the thread.
 *
 * usage: private_proc DIR. Exits 0 where that holds. 78: no right to mount here, so that nothing was tried.
 */
#define _GNU_SOURCE
#include "filter.h"
#include "wraps.h"

#include <string.h>
#include <sys/stat.h>
#include <sys/vfs.h>
#include <sys/xattr.h>

static char where[4096];
static int box;

/* What is done before the next statx(2) of the library that is about a descriptor. */
static void (*act)(void);

enum { OPEN_TREE = 428, FSOPEN = 430, FSCONFIG = 431, FSMOUNT = 432 };

/* By which error each fails, and how often: of FSCONFIG the one that makes it. And how often the thread's link can't be read. */
static struct failing {
    long number;
    int error, times;
} failing[2];
static int thread_error, thread_times;

static bool is_failing(long number, const long *with)
{
    for (int one = 0; one < 2; one++)
        if (failing[one].number == number && failing[one].times > 0 && (number != FSCONFIG || with[1] == 6)) {
            failing[one].times--;
            errno = failing[one].error;
            return true;
        }
    return false;
}

ssize_t __wrap_readlinkat(int dir, const char *name, char *text, size_t size)
{
    if (strcmp(name, "thread-self") == 0 && thread_times > 0) {
        thread_times--;
        errno = thread_error;
        return -1;
    }
    return __real_readlinkat(dir, name, text, size);
}

/* What is made stays at no execve(2), and runs no program. */
static bool is_made_rightly(long number, const long *with)
{
    enum { CLOSES = 1, NOTHING_RUNS = 2 | 4 | 8 };
    switch (number) {
    /* With no name it is none of the library. */
    case FSOPEN: return (int)with[0] == -1 || with[1] & CLOSES;
    case FSMOUNT: return with[1] & CLOSES && with[2] == NOTHING_RUNS;
    case OPEN_TREE: return with[2] & O_CLOEXEC;
    default: return true;
    }
}

static long my_syscall(long number, const long *with)
{
    expect(is_made_rightly(number, with), "system call %ld makes what stays at execve(2), or runs programs", number);
    return is_failing(number, with) ? -1 : REAL_SYSCALL(number, with);
}

INSTEAD_OF_SYSCALL(my_syscall)

int __wrap_statx(int dir, const char *name, int flags, unsigned int mask, struct statx *about)
{
    void (*now)(void) = act;
    if (now != NULL && dir != AT_FDCWD) {
        act = NULL;
        now();
    }
    return __real_statx(dir, name, flags, mask, about);
}

static void cover(const char *place)
{
    if (mount("tmpfs", place, "tmpfs", 0, NULL) != 0)
        _exit(NO_RIGHT);
}

/* The links of the thread's descriptors say that everything is the secret outside. */
static void cover_table(const char *table)
{
    char link[4400], secret[4200];
    snprintf(secret, sizeof secret, "%s/secret", where);
    cover(table);
    for (int fd = 0; fd < 64; fd++) {
        snprintf(link, sizeof link, "%s/%d", table, fd);
        sure(symlink(secret, link), link);
    }
}

static void cover_with_lies(void)
{
    cover_table("/proc/thread-self/fd");
}

/* What is read by each call is the text of the file inside. */
static void reads(const char *what, int wanted)
{
    char text[16] = "";
    int fd = inroot_openat(box, "a/../a/f", O_RDONLY, 0, INROOT_EXACT);
    if (wanted < 0) {
        gives(fd, wanted, "%s", what);
        return;
    }
    ssize_t got = fd < 0 ? fd : read(fd, text, sizeof text - 1);
    expect(got == 6 && strcmp(text, "inside") == 0, "%s: %zd, %s", what, got, text);
    close(fd);
}

static void use_private(void)
{
    gives(inroot_use_private_proc(), 0, "inroot_use_private_proc");
    gives(inroot_use_private_proc(), -EBUSY, "the second time");
}

static void whole(void)
{
    own_mounts_or_end();
    cover("/proc");
    reads("without /proc", -ENOSYS);
    use_private();
    reads("a private one", 0);
}

static void in_part(void)
{
    own_mounts_or_end();
    cover_with_lies();
    use_private();
    reads("a private one beside a covered one", 0);
}

/* As a child of fork(2) does that keeps nothing: the numbers are another's then. */
static void close_all_but_root(int most)
{
    for (int fd = STDERR_FILENO + 1; fd < most; fd++)
        if (fd != box)
            close(fd);
}

/* The program has closed what it didn't open. /proc, which somebody has covered, doesn't take its place. */
static void closed(void)
{
    own_mounts_or_end();
    cover_with_lies();
    use_private();
    close_all_but_root(64);
    reads("a private one that was closed", -ENOSYS);
    gives(inroot_reopen(box, O_RDONLY), -ENOSYS, "a directory once more");
    gives(inroot_proc_open(INROOT_PROC_SELF, "comm", O_RDONLY), -ENOSYS, "a file of it");
    gives(inroot_use_private_proc(), -EBUSY, "another private one");
}

/* The child knows that a /proc was handed in, though not by which number: it doesn't go by the one that is covered. */
static void go_on_in_child(void)
{
    int status;
    pid_t child = sure(fork(), "fork");
    if (child == 0) {
        int file = sure(openat(box, "a/f", O_PATH | O_CLOEXEC), "a/f");
        cover_with_lies();
        gives(inroot_reopen(file, O_RDONLY), -ENOSYS, "a file once more in a child that was made meanwhile");
        reads("in a child that was made meanwhile", -ENOSYS);
        end_part();
    }
    sure(waitpid(child, &status, 0), "waitpid");
    ended_well(status, "a child that was made meanwhile");
}

static void forked_meanwhile(void)
{
    own_mounts_or_end();
    act = go_on_in_child;
    use_private();
    expect(act == NULL, "no child was made meanwhile");
    reads("where a child was made meanwhile", 0);
}

static void sets_none(const char *what)
{
    char value[4], secret[4200];
    int file = sure(inroot_open(box, "a/f", 0), "a/f");
    gives(inroot_fsetxattr(file, "user.x", "x", 1, 0), -ENOSYS, "an attribute by a path, with %s", what);
    snprintf(secret, sizeof secret, "%s/secret", where);
    expect(getxattr(secret, "user.x", value, sizeof value) < 0, "a file outside has the attribute, with %s", what);
    close(file);
}

static void set_by_paths(void)
{
    enum { SET_AT = 463, REMOVE_AT = 466 };
    for (int number = SET_AT; number <= REMOVE_AT; number++)
        refuse(number, ENOSYS);
}

/* A copy of /proc is of the same file system, and has what is at /proc not covered. Before Linux 6.13 attributes go by a path. */
static void attribute(void)
{
    own_mounts_or_end();
    cover_with_lies();
    refuse(FSOPEN, EPERM);
    set_by_paths();
    use_private();
    sets_none("a private one");
}

static uint64_t number_of(const char *path)
{
    struct statfs about;
    uint64_t number = 0;
    if (statfs(path, &about) == 0)
        memcpy(&number, &about.f_fsid, sizeof number);
    return number;
}

static char other[4200];

/* What somebody has covered has the number of the /proc that was closed: nothing goes by it, and nothing outside is changed. */
static void by_the_number(const char *what)
{
    char table[4300], secret[4200];
    struct stat before, after;
    snprintf(table, sizeof table, "%s/%d/task/%d/fd", other, (int)getpid(), (int)getpid());
    snprintf(secret, sizeof secret, "%s/secret", where);
    cover_table(table);
    close_all_but_root(64);
    for (int fd = -1; fd < 16;)
        fd = sure(open(other, O_PATH | O_DIRECTORY | O_CLOEXEC), other);
    reads(what, 0);
    int file = sure(openat(box, "a/f", O_PATH | O_CLOEXEC), "a/f");
    sure(stat(secret, &before), secret);
    gives(inroot_fchmod(file, 0604), 0, "%s: the mode of a file", what);
    sure(stat(secret, &after), secret);
    gives_mode(after.st_mode, before.st_mode, "%s: the secret", what);
}

static void mount_other(const char *source, const char *kind, unsigned long flags)
{
    own_mounts_or_end();
    reads("by /proc", 0);
    snprintf(other, sizeof other, "%s/proc", where);
    sure(mkdir(other, 0755) == 0 || errno == EEXIST ? 0 : -1, other);
    if (mount(source, other, kind, flags, NULL) != 0)
        _exit(NO_RIGHT);
}

/* The program has handed another mount of /proc in, which isn't covered. */
static void attribute_by_another(void)
{
    own_mounts_or_end();
    snprintf(other, sizeof other, "%s/proc", where);
    sure(mkdir(other, 0755) == 0 || errno == EEXIST ? 0 : -1, other);
    if (mount("/proc", other, NULL, MS_BIND, NULL) != 0)
        _exit(NO_RIGHT);
    int proc = sure(open(other, O_PATH | O_DIRECTORY | O_CLOEXEC), other);
    cover_with_lies();
    set_by_paths();
    gives(inroot_use_proc(proc), 0, "inroot_use_proc");
    sets_none("another mount of /proc");
}

/* Another proc(5). Where the kernel doesn't number file systems of that kind, nobody can tell them apart. */
static void another(void)
{
    mount_other("proc", "proc", 0);
    if (number_of(other) == number_of("/proc"))
        _exit(NO_RIGHT);
    by_the_number("another one by the number");
}

/* Linux 5.8 gives each mount a number, and Linux 6.8 one that no other mount ever gets. */
enum { TELLS_MOUNT = 0x1000, TELLS_UNIQUE = 0x4000 };

static bool numbers_mounts(unsigned what)
{
    uint32_t told[64] = {0};
    return syscall(SYS_statx, AT_FDCWD, "/", 0, what, told) == 0 && told[0] & what;
}

/* Another mount of the same one, as a container has it. Before Linux 5.8 nobody can tell them apart. */
static void another_mount(void)
{
    if (!numbers_mounts(TELLS_MOUNT))
        _exit(NO_RIGHT);
    mount_other("/proc", NULL, MS_BIND);
    by_the_number("another mount by the number");
}

/* A copy of /proc was closed, and /proc, which is covered, has its number. Before Linux 6.8 nobody can tell them apart. */
static void copied(void)
{
    own_mounts_or_end();
    if (!numbers_mounts(TELLS_UNIQUE))
        _exit(NO_RIGHT);
    refuse(FSOPEN, EPERM);
    use_private();
    reads("a copy of /proc", 0);
    cover_with_lies();
    close_all_but_root(64);
    for (int fd = -1; fd < 16;)
        fd = sure(open("/proc", O_PATH | O_DIRECTORY | O_CLOEXEC), "/proc");
    reads("/proc by the number of its copy", -ENOSYS);
    gives(inroot_reopen(box, O_RDONLY), -ENOSYS, "a directory once more by that");
}

/* Without it, what is opened to be read is what the covered one leads to: the test would see that. */
static void control(void)
{
    char text[16] = "";
    own_mounts_or_end();
    cover_with_lies();
    int fd = inroot_reopen(box, O_RDONLY);
    ssize_t got = fd < 0 ? -1 : read(fd, text, sizeof text - 1);
    expect(got == 6 && strcmp(text, "secret") == 0, "the control: %d, %zd", fd, got);
}

/* The answer about the object counts, and not that no path leads to it. Before Linux 6.13 there is a path alone. */
static void refuses_attribute(void)
{
    enum { SET_AT = 463 };
    const long value[2] = {0};
    int link = inroot_open(box, "l", INROOT_NOFOLLOW);
    bool by_name = syscall(SET_AT, -1, ".", 0, "user.x", value, sizeof value) < 0 && errno != ENOSYS;
    gives(inroot_fsetxattr(link, "user.x", "", 0, 0), by_name ? -EPERM : -ENOSYS, "an attribute of a link by a private one");
    close(link);
}

static void ordinary(void)
{
    int failed = inroot_use_private_proc();
    if (failed == -EPERM || failed == -ENOSYS)
        _exit(NO_RIGHT);
    gives(failed, 0, "inroot_use_private_proc");
    reads("a private one", 0);
    refuses_attribute();
}

/* ---- what fails */

static const long makes[] = {FSOPEN, FSCONFIG, FSMOUNT};
static long making;
static int making_error;

/* Without a new one, and then without a copy either: nothing stays open, and the call may be made again. */
static void fails_each(void)
{
    int before = open_descriptors();
    failing[0] = (struct failing){making, making_error, 1};
    failing[1] = (struct failing){OPEN_TREE, EMFILE, 1};
    gives(inroot_use_private_proc(), -making_error, "system call %ld fails, and there is no copy", making);
    gives(failing[0].times + failing[1].times, 0, "system call %ld: what is to fail still", making);
    gives(open_descriptors(), before, "system call %ld fails: open descriptors", making);
    failing[0].times = thread_times = 1;
    thread_error = ENOENT;
    gives(inroot_use_private_proc(), -ENOSYS, "system call %ld fails, and the copy doesn't have the thread", making);
    gives(open_descriptors(), before, "system call %ld fails, and the copy is none: open descriptors", making);
    failing[0].times = 1;
    use_private();
    gives(open_descriptors(), before + 1, "system call %ld fails, and there is a copy: open descriptors", making);
    reads("a copy", 0);
}

/* Each in a process of its own, since one that is kept stays. */
static int all_fail(void)
{
    static const int errors[] = {EPERM, ENOSYS, EINVAL, ENOMEM, ENODEV};
    int skipped = 0;
    for (int one = 0; one < 3 && skipped == 0; one++)
        for (int at = 0; at < 5 && skipped == 0; at++) {
            making = makes[one];
            making_error = errors[at];
            skipped = apart(fails_each);
        }
    return skipped;
}

/* Signals at open_tree(2) and at readlinkat(2). */
static void signals(void)
{
    int before = open_descriptors();
    failing[0] = (struct failing){FSOPEN, EPERM, 1};
    failing[1] = (struct failing){OPEN_TREE, EINTR, 4};
    thread_error = EINTR;
    thread_times = 4;
    use_private();
    gives(failing[1].times + thread_times, 0, "signals that are to come still");
    gives(open_descriptors(), before + 1, "signals: open descriptors");
    reads("where signals came", 0);
}

/* What was made is of the children's processes: this thread isn't there. A copy of /proc is tried then. */
static void of_children(void)
{
    const int own = sure(open("/proc/self/ns/pid", O_RDONLY | O_CLOEXEC), "/proc/self/ns/pid");
    if (unshare(CLONE_NEWPID) != 0)
        _exit(NO_RIGHT);
    int before = open_descriptors();
    use_private();
    gives(open_descriptors(), before + 1, "a namespace of the children's: open descriptors");
    reads("where children have processes of their own", 0);
    sure(setns(own, CLONE_NEWPID), "setns");
}

/* A new one that is none, and no copy: ENOSYS, and not the copy's error. */
static void none_at_all(void)
{
    int before = open_descriptors();
    thread_error = ENOENT;
    thread_times = 1;
    failing[0] = (struct failing){OPEN_TREE, EPERM, 1};
    gives(inroot_use_private_proc(), -ENOSYS, "a new one without the thread, and no copy");
    gives(open_descriptors(), before, "a new one without the thread, and no copy: open descriptors");
    thread_times = 2;
    gives(inroot_use_private_proc(), -ENOSYS, "neither has the thread");
    gives(open_descriptors(), before, "neither has the thread: open descriptors");
    use_private();
}

/* Nothing is kept of a call that failed. */
static void refused(void)
{
    if (setgid(65534) != 0 || setuid(65534) != 0)
        _exit(NO_RIGHT);
    gives(inroot_use_private_proc(), -EPERM, "as nobody");
    reads("by /proc afterwards", 0);
    gives(inroot_use_private_proc(), -EBUSY, "behind the first call");
}

static void put_text(int dir, const char *name, const char *text)
{
    int fd = sure(openat(dir, name, O_WRONLY | O_CREAT | O_EXCL | O_CLOEXEC, 0644), name);
    sure((int)write(fd, text, strlen(text)), name);
    close(fd);
}

int main(int count, char **words)
{
    /* In the place of none come those that fail. */
    static void (*const parts[])(void) = {
        ordinary, refused, control, whole, in_part, closed, forked_meanwhile, attribute, attribute_by_another, another, another_mount,
        copied, NULL, signals, none_at_all, of_children,
    };
    if (count != 2 || realpath(words[1], where) == NULL)
        return 2;
    int base = sure(open(where, O_PATH | O_DIRECTORY | O_CLOEXEC), where);
    sure(mkdirat(base, "box", 0755), "box");
    box = sure(openat(base, "box", O_PATH | O_DIRECTORY | O_CLOEXEC), "box");
    sure(mkdirat(box, "a", 0755), "a");
    chmod(where, 0755);
    sure(symlinkat("none", box, "l"), "l");
    put_text(box, "a/f", "inside");
    put_text(base, "secret", "secret");
    int skipped = 0;
    for (size_t one = 0; one < sizeof parts / sizeof *parts && skipped == 0; one++)
        skipped = parts[one] == NULL ? all_fail() : apart(parts[one]);
    printf("private_proc: %d not as they are to be\n", wrong);
    return wrong != 0 ? 1 : skipped;
}
