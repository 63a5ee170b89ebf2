/*
 * numbers: the number of the /proc that the library keeps open is another file's of a proc(5) by now, since the program or a child
 * of fork(2) closed what it didn't open. The library leaves that file alone, and its calls go on. So do those of a thread with a
 * table of descriptors of its own. Nor does the library keep the numbers of the standard files.
 *
 * usage: numbers DIR. Exits 0 where that holds.
 */
#define _GNU_SOURCE
#include "support.h"

#include <errno.h>
#include <fcntl.h>
#include <linux/magic.h>
#include <pthread.h>
#include <sched.h>
#include <signal.h>
#include <string.h>
#include <sys/stat.h>
#include <sys/vfs.h>

enum { MOST = 64 };

/* `root` holds the file `a/b/f`; `proc` is open, and none of the library's. */
static int root, proc;

/* What takes the number: a file of a proc(5), or a directory that isn't its top; or NULL, the directory of a process that has ended. */
static const char *taker;
static struct stat taken;

static bool is_proc(int fd)
{
    struct statfs about;
    return fd != proc && fstatfs(fd, &about) == 0 && about.f_type == PROC_SUPER_MAGIC;
}

/* The one descriptor of a proc(5) that isn't among those before, or -1. */
static int kept_beside(const bool before[MOST])
{
    int found = -1;
    for (int fd = 0; fd < MOST; fd++)
        if (is_proc(fd) && !before[fd]) {
            expect(found < 0, "more than one is kept: %d and %d", found, fd);
            found = fd;
        }
    return found;
}

static void note(bool now[MOST])
{
    for (int fd = 0; fd < MOST; fd++)
        now[fd] = is_proc(fd);
}

static bool is_taker(int fd)
{
    struct stat about;
    return fstat(fd, &about) == 0 && about.st_ino == taken.st_ino;
}

/* There no name is looked up any more: ESRCH. */
static int open_ended(void)
{
    char name[16];
    pid_t child = sure(fork(), "fork");
    if (child == 0) {
        pause();
        _exit(0);
    }
    snprintf(name, sizeof name, "%d", (int)child);
    int fd = sure(openat(proc, name, O_RDONLY | O_CLOEXEC), name);
    sure(kill(child, SIGKILL), "kill");
    sure(waitpid(child, NULL, 0), "waitpid");
    return fd;
}

static void take(int fd)
{
    int other = taker == NULL ? open_ended() : sure(openat(proc, taker, O_RDONLY | O_CLOEXEC), taker);
    sure(fstat(other, &taken), "fstat");
    sure(dup3(other, fd, O_CLOEXEC), "dup3");
    close(other);
}

static void opens(const char *path, const char *when)
{
    int fd = inroot_open(root, path, INROOT_EXACT);
    gives_object(fd, root, "a/b/f", "%s, %s", path, when);
    if (fd >= 0)
        close(fd);
}

static void closed(int fd, const char *what)
{
    gives_fd(fd, "%s", what);
    if (fd >= 0)
        close(fd);
}

/* ---- the program's own */

/* What asks /proc, and leaves nothing open. */
static void calls(const char *when)
{
    int left = open_descriptors();
    opens("a/b/f", when);
    opens("a/b/../b/f", when);
    closed(inroot_openat(root, "a/b/f", O_RDWR, 0, INROOT_EXACT), "a file to be used");
    closed(inroot_openat(root, "a/b", O_RDONLY | O_DIRECTORY, 0, INROOT_EXACT), "a directory to be read");
    closed(inroot_reopen(root, O_RDONLY), "the root once more");
    closed(inroot_proc_open(INROOT_PROC_SELF, "comm", O_RDONLY), "a file of /proc");
    gives(inroot_link(root, "a/b/f", "a/g", 0), 0, "a second name");
    gives(unlinkat(root, "a/g", 0), 0, "its removal");
    gives(inroot_mkdir(root, "a/new", 0755, INROOT_EXACT), 0, "a directory");
    gives(inroot_remove_all(root, "a/new", INROOT_EXACT), 1, "its removal");
    gives(inroot_open(root, "a/b/f/x", INROOT_EXACT), -ENOTDIR, "below a file");
    gives(open_descriptors(), left, "open descriptors %s", when);
}

static void of_program(void)
{
    bool before[MOST];
    note(before);
    opens("a/b/f", "at first");
    int number = kept_beside(before);
    gives_least(number, STDERR_FILENO + 1, "the number of /proc");
    take(number);
    for (int turn = 0; turn < 2; turn++)
        calls("after that");
    expect(is_taker(number), "the other file was closed");
}

/* A child of fork(2) has closed all that it inherited, and opened a file of its own. */
static void of_child(void)
{
    bool before[MOST];
    int status;
    note(before);
    opens("a/b/f", "at first");
    int number = kept_beside(before);
    pid_t child = sure(fork(), "fork");
    if (child == 0) {
        wrong = 0;
        take(number);
        calls("in a child");
        expect(is_taker(number), "a child's own file was closed");
        end_part();
    }
    sure(waitpid(child, &status, 0), "waitpid");
    ended_well(status, "a child");
    calls("in the parent");
}

/* The number is the program's in the other threads alone. */
static void *apart_from_others(void *number)
{
    sure(unshare(CLONE_FILES), "unshare");
    take(*(int *)number);
    calls("in a thread with a table of its own");
    expect(is_taker(*(int *)number), "a thread's own file was closed");
    return NULL;
}

static void of_thread(void)
{
    bool before[MOST];
    pthread_t thread;
    note(before);
    opens("a/b/f", "at first");
    int number = kept_beside(before);
    pthread_create(&thread, NULL, apart_from_others, &number);
    pthread_join(thread, NULL);
    calls("beside a thread with a table of its own");
    expect(is_proc(number), "the library's own was closed");
}

/* ---- a program that began without its standard files */

static void standard(void)
{
    close(STDIN_FILENO);
    close(STDERR_FILENO);
    opens("a/b/f", "without standard files");
    expect(!is_proc(STDIN_FILENO) && !is_proc(STDERR_FILENO), "/proc has the number of a standard file");
}

int main(int count, char **words)
{
    static const char *const takers[] = {"self/status", "sys", NULL};
    if (count != 2)
        return 2;
    root = sure(open(words[1], O_PATH | O_DIRECTORY | O_CLOEXEC), words[1]);
    proc = sure(open("/proc", O_PATH | O_DIRECTORY | O_CLOEXEC), "/proc");
    sure(mkdirat(root, "a", 0755), "a");
    sure(mkdirat(root, "a/b", 0755), "a/b");
    sure(mknodat(root, "a/b/f", S_IFREG | 0600, 0), "a/b/f");
    /* No call is made before the parts, so that each has a /proc of its own. */
    apart(standard);
    for (size_t at = 0; at < sizeof takers / sizeof *takers; at++) {
        taker = takers[at];
        apart(of_program);
        apart(of_child);
        apart(of_thread);
    }
    printf("numbers: %d not as they are to be\n", wrong);
    return wrong != 0;
}
