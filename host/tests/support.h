/* support.h: what the checks of the driver share. */
#ifndef SUPPORT_H
#define SUPPORT_H

#include "../error_name.h"
#include "../inroot.h"
#include "../openat2.h"

#include <errno.h>
#include <fcntl.h>
#include <limits.h>
#include <sched.h>
#include <stdarg.h>
#include <stdbool.h>
#include <stdint.h>
#include <stdio.h>
#include <stdlib.h>
#include <string.h>
#include <sys/mount.h>
#include <sys/resource.h>
#include <sys/stat.h>
#include <sys/syscall.h>
#include <sys/wait.h>
#include <unistd.h>

/* How a check ends that says nothing here: the machine doesn't let it run, or nothing led its control out. The script names it. */
enum { NO_WRAP = 76, NO_OPENAT2 = 77, NO_RIGHT = 78, NOT_FOOLED = 79 };

/* How many times something wasn't as it is to be. */
static int wrong;

/* Tells what isn't so. Where a value is compared, gives() and its kin below tell both: what was wanted, and what came. */
__attribute__((format(printf, 2, 3), unused)) static void expect(bool holds, const char *what, ...)
{
    va_list words;
    if (holds)
        return;
    __atomic_add_fetch(&wrong, 1, __ATOMIC_RELAXED);
    va_start(words, what);
    fputs("not so: ", stdout);
    vprintf(what, words);
    putchar('\n');
    fflush(stdout);
    va_end(words);
}

/* Counts what isn't so, and writes out its words, for the values that are put behind them. */
#define EXPECT(holds, what)                                                                                              \
    if (holds)                                                                                                           \
        return;                                                                                                          \
    char words[8192];                                                                                                    \
    va_list given;                                                                                                       \
    va_start(given, what);                                                                                               \
    vsnprintf(words, sizeof words, what, given);                                                                         \
    va_end(given)

/* A value as a reader knows it: with its name, where it is the negative number of an error. */
static inline const char *value_text(long value, char room[64])
{
    if (value < 0 && value > -134)
        snprintf(room, 64, "%ld (-%s)", value, error_name((int)-value));
    else
        snprintf(room, 64, "%ld", value);
    return room;
}

/* A call gave what was wanted. */
__attribute__((format(printf, 3, 4), unused)) static void gives(long got, long wanted, const char *what, ...)
{
    char came[64], due[64];
    EXPECT(got == wanted, what);
    expect(false, "%s: wanted %s, got %s", words, value_text(wanted, due), value_text(got, came));
}

/* A call gave a descriptor, whichever it is. */
__attribute__((format(printf, 2, 3), unused)) static void gives_fd(int got, const char *what, ...)
{
    char came[64];
    EXPECT(got >= 0, what);
    expect(false, "%s: wanted a descriptor, got %s", words, value_text(got, came));
}

/* Something has this mode. */
__attribute__((format(printf, 3, 4), unused)) static void gives_mode(mode_t got, mode_t wanted, const char *what, ...)
{
    EXPECT(got == wanted, what);
    expect(false, "%s: wanted the mode %o, got %o", words, wanted, got);
}

/* Something has this text. */
__attribute__((format(printf, 3, 4), unused)) static void gives_text(const char *got, const char *wanted, const char *what, ...)
{
    EXPECT(strcmp(got, wanted) == 0, what);
    expect(false, "%s: wanted '%s', got '%s'", words, wanted, got);
}

/* A number is at most so large. */
__attribute__((format(printf, 3, 4), unused)) static void gives_most(long got, long most, const char *what, ...)
{
    char came[64];
    EXPECT(got <= most, what);
    expect(false, "%s: wanted at most %ld, got %s", words, most, value_text(got, came));
}

/* A number is at least so large. */
__attribute__((format(printf, 3, 4), unused)) static void gives_least(long got, long least, const char *what, ...)
{
    char came[64];
    EXPECT(got >= least, what);
    expect(false, "%s: wanted at least %ld, got %s", words, least, value_text(got, came));
}

/* A call opened the object that stands at this path below a directory. A link there is the object itself. */
__attribute__((format(printf, 4, 5), unused)) static void gives_object(int got, int dir, const char *path, const char *what, ...)
{
    char came[64];
    struct stat about = {0}, wanted = {0};
    int asked = got < 0 ? got : fstat(got, &about) == 0 ? 0 : -errno;
    bool stands = fstatat(dir, path, &wanted, AT_SYMLINK_NOFOLLOW) == 0;
    EXPECT(stands && asked == 0 && about.st_ino == wanted.st_ino && about.st_dev == wanted.st_dev, what);
    expect(false, "%s: wanted the object at %s, inode %ld, got inode %s", words, path, (long)wanted.st_ino,
           value_text(asked < 0 ? asked : (long)about.st_ino, came));
}

/* A process has ended by itself, and with status 0. */
__attribute__((format(printf, 2, 3), unused)) static void ended_well(int status, const char *what, ...)
{
    EXPECT(WIFEXITED(status) && WEXITSTATUS(status) == 0, what);
    if (WIFEXITED(status))
        expect(false, "%s: wanted status 0, got %d", words, WEXITSTATUS(status));
    else
        expect(false, "%s: wanted status 0, got signal %d", words, WTERMSIG(status));
}

/* Whether this is one of these objects. */
static inline bool is_one_of(int fd, const struct stat *objects, size_t count)
{
    struct stat about;
    if (fstat(fd, &about) != 0)
        return false;
    for (size_t one = 0; one < count; one++)
        if (about.st_ino == objects[one].st_ino && about.st_dev == objects[one].st_dev)
            return true;
    return false;
}

/* Whether both descriptors are of one object, or both are the same error. */
static inline bool is_same_object(int fd, int other)
{
    struct stat one, two;
    if (fd < 0 || other < 0)
        return fd == other;
    return fstat(fd, &one) == 0 && fstat(other, &two) == 0 && one.st_ino == two.st_ino && one.st_dev == two.st_dev;
}

/*
 * Whether the kernel says of this descriptor that its entry was removed. LINKS is /proc/self/fd, which was opened before: a
 * thread in a chroot has no /proc. No name may end so itself.
 */
__attribute__((unused)) static bool is_called_removed(int links, int fd)
{
    static const char gone[] = " (deleted)";
    char name[16], text[PATH_MAX];
    snprintf(name, sizeof name, "%d", fd);
    const ssize_t length = readlinkat(links, name, text, sizeof text), end = sizeof gone - 1;
    return length > end && memcmp(text + length - end, gone, (size_t)end) == 0;
}

/* Whether this thread has openat2(2), which an older kernel lacks and a filter may refuse. */
static inline bool has_openat2(void)
{
    const struct open_how how = {.flags = O_PATH | O_CLOEXEC};
    int fd = (int)syscall(SYS_openat2, AT_FDCWD, ".", &how, sizeof how);
    if (fd >= 0)
        close(fd);
    return fd >= 0 || (errno != ENOSYS && errno != EPERM);
}

/* How a race ends. What is wrong counts first; where its control was not fooled, it has shown nothing. */
static inline int ending(bool fooled)
{
    if (!fooled)
        puts("the control was not fooled: the race shows nothing");
    return wrong != 0 ? 1 : fooled ? 0 : NOT_FOOLED;
}

/* A random number below a bound, from a state of one's own (xorshift64). */
static inline unsigned pick(uint64_t *state, unsigned bound)
{
    *state ^= *state << 13;
    *state ^= *state >> 7;
    *state ^= *state << 17;
    return (unsigned)(*state >> 33) % bound;
}

/* Ends the check where a call that must succeed didn't. */
static inline int sure(int result, const char *what)
{
    if (result < 0) {
        perror(what);
        exit(1);
    }
    return result;
}

/* Asked one by one, since in a chroot there is no /proc. */
static inline int open_descriptors(void)
{
    int count = 0;
    for (int at = 0; at < 2048; at++)
        count += fcntl(at, F_GETFD) >= 0;
    return count;
}

/* Takes the numbers between those that are in use, by copies of the root. Gives the next one, so that a limit of it leaves none. */
static inline int take_gaps(int root)
{
    int top = 255;
    while (top >= 0 && fcntl(top, F_GETFD) < 0)
        top--;
    int fd = sure(dup(root), "dup");
    while (fd < top)
        fd = sure(dup(root), "dup");
    close(fd);
    return fd;
}

/* Has the calls ask a /proc that is open already, so that descriptors can be counted. */
static inline void open_proc(void)
{
    int proc = sure(open("/proc", O_PATH | O_DIRECTORY | O_CLOEXEC), "/proc");
    int failed = inroot_use_proc(proc);
    close(proc);
    if (failed)
        exit(1);
}

/*
 * What looks for lost memory, where the program is built with that sanitizer; its name is LLVM's and GCC's. It reads /proc. So a
 * thread in a chroot goes back to the root that the program began with, whose descriptor is behind those that tests count.
 */
extern int __lsan_do_recoverable_leak_check(void) __attribute__((weak));
static int root_at_first = -1;

static inline void lift_limit(void)
{
    struct rlimit most;
    if (getrlimit(RLIMIT_NOFILE, &most) == 0) {
        most.rlim_cur = most.rlim_max;
        setrlimit(RLIMIT_NOFILE, &most);
    }
}

__attribute__((constructor, unused)) static void keep_first_root(void)
{
    struct rlimit most;
    if (!__lsan_do_recoverable_leak_check || getrlimit(RLIMIT_NOFILE, &most) != 0)
        return;
    int fd = sure(open("/", O_PATH | O_DIRECTORY | O_CLOEXEC), "/");
    lift_limit();
    root_at_first = sure(fcntl(fd, F_DUPFD_CLOEXEC, 2048), "a descriptor behind 2047");
    setrlimit(RLIMIT_NOFILE, &most);
    close(fd);
}

/* Ends a process in which a part of a check ran. Memory that is lost there is wrong, too. No count is one that says *skipped*. */
__attribute__((unused, noreturn)) static void end_part(void)
{
    if (__lsan_do_recoverable_leak_check) {
        lift_limit();
        /* Who has no right to go back is in no chroot; else the sanitizer itself ends the process as one that failed. */
        bool back = seteuid(getuid()) == 0 && fchdir(root_at_first) == 0 && chroot(".") == 0;
        expect(back || errno == EPERM, "a part goes back to its first root: %s", strerror(errno));
        expect(__lsan_do_recoverable_leak_check() == 0, "no memory is lost");
    }
    fflush(stdout);
    _exit(wrong < NO_OPENAT2 ? wrong : NO_OPENAT2 - 1);
}

/* Gives this process another root directory, or ends it as one that was skipped. */
__attribute__((unused)) static void chroot_or_end(int root)
{
    if (fchdir(root) != 0 || chroot(".") != 0)
        _exit(NO_RIGHT);
}

/* Gives this process mounts of its own, or ends it as one that was skipped. */
static inline void own_mounts_or_end(void)
{
    if (unshare(CLONE_NEWNS) == 0 && mount(NULL, "/", NULL, MS_REC | MS_PRIVATE, NULL) == 0)
        return;
    fflush(stdout);
    _exit(NO_RIGHT);
}

/* How a process ended in which a part ran: adds up what wasn't as it is to be, or gives that it was skipped. */
static inline int count_part(int status)
{
    if (!WIFEXITED(status))
        expect(false, "it ended by signal %d", WTERMSIG(status));
    else if (WEXITSTATUS(status) == NO_OPENAT2 || WEXITSTATUS(status) == NO_RIGHT)
        return WEXITSTATUS(status);
    else
        wrong += WEXITSTATUS(status);
    return 0;
}

/* Runs it in a process of its own, and below this root directory if that isn't negative. */
__attribute__((unused)) static int apart_in(int root, void (*what)(void))
{
    int status;
    fflush(stdout);
    pid_t child = sure(fork(), "fork");
    if (child == 0) {
        wrong = 0;
        if (root >= 0)
            chroot_or_end(root);
        what();
        end_part();
    }
    sure(waitpid(child, &status, 0), "waitpid");
    return count_part(status);
}

__attribute__((unused)) static int apart(void (*what)(void))
{
    return apart_in(-1, what);
}

/* By which way a part makes its calls: 0, the kernel's walk, or INROOT_EXACT. */
__attribute__((unused)) static int way;

/* Runs it by each way, and by each in a chroot, which is left out where there is no right to it. */
__attribute__((unused)) static int in_each_way(int root, void (*what)(void))
{
    int skipped = 0;
    for (way = 0; way <= INROOT_EXACT; way += INROOT_EXACT) {
        apart(what);
        skipped |= apart_in(root, what);
    }
    return skipped;
}

/* A directory `box` below the one that is given, as the root. */
static inline void begin_in_box(int count, char **words, int *base, int *root)
{
    if (count != 2)
        exit(2);
    if (!has_openat2())
        exit(NO_OPENAT2);
    *base = sure(open(words[1], O_PATH | O_DIRECTORY | O_CLOEXEC), words[1]);
    sure(mkdirat(*base, "box", 0755), "box");
    *root = sure(openat(*base, "box", O_PATH | O_DIRECTORY | O_CLOEXEC), "box");
}

/* A child of fork(2), which waits for a byte. */
struct child {
    pid_t id;
    int go;
};

/* Begins a child that does this once it is let go. */
__attribute__((unused)) static struct child begin_child(void (*what)(void))
{
    int go[2];
    char byte;
    sure(pipe2(go, O_CLOEXEC), "pipe");
    fflush(stdout);
    pid_t child = sure(fork(), "fork");
    if (child == 0) {
        wrong = 0;
        sure((int)read(go[0], &byte, 1), "read");
        what();
        end_part();
    }
    close(go[0]);
    return (struct child){child, go[1]};
}

/* Lets it go, and waits for its end. */
__attribute__((unused)) static void end_child(struct child child, const char *what)
{
    char byte = 0;
    int status;
    sure((int)write(child.go, &byte, 1), "write");
    close(child.go);
    sure(waitpid(child.id, &status, 0), "waitpid");
    ended_well(status, "%s", what);
}

/* Whether this process may become nobody and root again. In a user namespace there may be no such user. */
__attribute__((unused)) static bool may_be_nobody(void)
{
    return geteuid() == 0 && seteuid(65534) == 0 && seteuid(0) == 0;
}

/* Whether a thread may be given another root directory here. */
__attribute__((unused)) static bool may_chroot(int root)
{
    int status;
    pid_t child = sure(fork(), "fork");
    if (child == 0)
        _exit(fchdir(root) == 0 && chroot(".") == 0 ? 0 : 1);
    sure(waitpid(child, &status, 0), "waitpid");
    return WIFEXITED(status) && WEXITSTATUS(status) == 0;
}

#endif
