/*
 * threads: whose descriptors and root a call asks about, in threads and processes of all kinds: after fork(2), vfork(2) and
 * unshare(2), after the main thread has ended, in a thread that is cancelled or ends, and under signals.
 *
 * usage: threads DIR. Exits 0 where each call's answer is about the caller.
 */
#define _GNU_SOURCE
#include "support.h"

#include <errno.h>
#include <fcntl.h>
#include <pthread.h>
#include <signal.h>
#include <stdatomic.h>
#include <sys/stat.h>
#include <sys/time.h>

static int base, root, outside;

/* Puts another table of descriptors in the way: what is open there, on the numbers that come next, is the file f. */
static void fill(const char *path)
{
    for (int at = 0; at < 40; at++)
        sure(openat(root, path, O_PATH | O_NOFOLLOW | O_CLOEXEC), path);
}

/* ---- fork(2), vfork(2) */

/* In a child, where each number that comes next is that of the directory `a` in the parent's table. */
static void in_child(void)
{
    for (way = 0; way <= INROOT_EXACT; way += INROOT_EXACT) {
        int fd = inroot_open(root, "f", INROOT_NO_RETRY | way);
        gives_object(fd, root, "f", "f after fork");
        int dir = inroot_open(root, "a/b", INROOT_NO_RETRY | way);
        gives_object(dir, root, "a/b", "a/b after fork");
        gives(inroot_open(root, "none", INROOT_NO_RETRY | way), -ENOENT, "none after fork");
    }
}

static void *fork_here(void *unused)
{
    int first = inroot_open(root, "f", INROOT_EXACT);
    gives_fd(first, "f before the fork");
    close(first);
    struct child child = begin_child(in_child);
    fill("a");
    end_child(child, "a child after fork");
    return unused;
}

static void *vfork_here(void *unused)
{
    int status;
    /* volatile: the child shares this stack. */
    volatile int outcome = -1;
    pid_t child = vfork();
    if (child == 0) {
        int fd = inroot_open(root, "f", INROOT_NO_RETRY | INROOT_EXACT);
        outcome = fd;
        _exit(fd >= 0 ? 0 : 1);
    }
    sure(child, "vfork");
    sure(waitpid(child, &status, 0), "waitpid");
    gives_fd(outcome, "f after vfork");
    gives_fd(inroot_open(root, "f", INROOT_EXACT), "f in the parent after vfork");
    return unused;
}

/* ---- a table of descriptors of its own, and a main thread that has ended */

/* The numbers that come next are those of the directory `a` in the others' table. */
static void *with_own_table(void *turn)
{
    atomic_int *now = turn;
    sure(unshare(CLONE_FILES), "unshare");
    *now = 1;
    while (*now == 1)
        sched_yield();
    int fd = inroot_open(root, "f", INROOT_NO_RETRY | INROOT_EXACT);
    gives_object(fd, root, "f", "f with a table of its own");
    int dir = inroot_open(root, "a/b/..", INROOT_NO_RETRY | INROOT_EXACT);
    gives_fd(dir, "a/b/.. with a table of its own");
    return NULL;
}

static void own_table(void)
{
    pthread_t thread;
    static atomic_int turn;
    pthread_create(&thread, NULL, with_own_table, &turn);
    while (turn == 0)
        sched_yield();
    fill("a");
    turn = 2;
    pthread_join(thread, NULL);
}

/*
 * A lie: the thread's own root is `out`, and the file that it opens there is `f` in its table. In the others' table that number is a
 * file below the other root, so that a check by their table would find the object where it isn't.
 */
static void *lied_to(void *turn)
{
    atomic_int *now = turn;
    sure(unshare(CLONE_FILES), "unshare");
    *now = 1;
    while (*now == 1)
        sched_yield();
    /* What the number of the root stands for in this table is outside, and what is found there has left it. */
    sure(dup3(outside, root, O_CLOEXEC), "dup3");
    int fd = inroot_open(root, "f", INROOT_NO_RETRY | INROOT_EXACT);
    gives_object(fd, outside, "f", "f below the thread's own root");
    return NULL;
}

static void own_root(void)
{
    pthread_t thread;
    static atomic_int turn;
    outside = sure(openat(base, "out", O_PATH | O_DIRECTORY | O_CLOEXEC), "out");
    pthread_create(&thread, NULL, lied_to, &turn);
    while (turn == 0)
        sched_yield();
    fill("a");
    turn = 2;
    pthread_join(thread, NULL);
}

static void *outlive(void *leader)
{
    pthread_join(*(pthread_t *)leader, NULL);
    int fd = inroot_open(root, "f", INROOT_NO_RETRY | INROOT_EXACT), dir = inroot_open(root, "a/b", INROOT_NO_RETRY | INROOT_EXACT);
    gives_fd(fd, "f after the main thread has ended");
    gives_fd(dir, "a/b after the main thread has ended");
    end_part();
}

static void main_ends(void)
{
    static pthread_t leader;
    pthread_t thread;
    leader = pthread_self();
    pthread_create(&thread, NULL, outlive, &leader);
    pthread_exit(NULL);
}

/* All descriptors above the root closed, as daemons do: the calls find that theirs are gone, or others'. */
static void closed_behind(void)
{
    int fd = inroot_open(root, "f", 0);
    gives_fd(fd, "f");
    for (int at = root + 1; at < 64; at++)
        close(at);
    fill("a");
    fd = inroot_open(root, "f", INROOT_NO_RETRY | INROOT_EXACT);
    gives_fd(fd, "f after all else was closed");
    int before = open_descriptors();
    close(inroot_open(root, "f", INROOT_NO_RETRY | INROOT_EXACT));
    gives(open_descriptors(), before, "open descriptors after all else was closed");
}

/* ---- cancelled, ended, interrupted */

/* A descriptor that a call gave, which close(2), a point to be cancelled at, would leave. */
static void close_calmly(int fd)
{
    int state;
    pthread_setcancelstate(PTHREAD_CANCEL_DISABLE, &state);
    if (fd >= 0)
        close(fd);
    pthread_setcancelstate(state, NULL);
}

/* Ends only when it is cancelled. */
static void *never_ends(void *with)
{
    const int flags = with != NULL ? INROOT_EXACT : 0;
    for (;; pthread_testcancel()) {
        close_calmly(inroot_open(root, "a/b/../b/../b/../../a/b", flags));
        close_calmly(inroot_mkdir_all(root, "n/e/w", 0755, flags));
        inroot_remove_all(root, "n", flags);
    }
    return NULL;
}

static void cancelled(void)
{
    open_proc();
    int before = open_descriptors();
    for (int at = 0; at < 400; at++) {
        pthread_t thread;
        pthread_create(&thread, NULL, never_ends, at % 2 ? &base : NULL);
        usleep((unsigned)(at % 17) * 60);
        pthread_cancel(thread);
        pthread_join(thread, NULL);
    }
    /* What the C library loads to end a thread may stay open. */
    gives_most(open_descriptors() - before, 1, "descriptors left of threads that were cancelled");
}

/* A thread with a table of its own asks a /proc of its own. */
static void *end_here(void *unused)
{
    sure(unshare(CLONE_FILES), "unshare");
    close(inroot_open(root, "f", INROOT_EXACT));
    return unused;
}

static void ended(void)
{
    close(inroot_open(root, "f", INROOT_EXACT));
    int before = open_descriptors();
    for (int at = 0; at < 100; at++) {
        pthread_t thread;
        pthread_create(&thread, NULL, end_here, NULL);
        pthread_join(thread, NULL);
    }
    int left = open_descriptors() - before;
    gives(left, 0, "descriptors left of threads that ended");
}

static atomic_int alarms;

static void on_alarm(int signal)
{
    (void)signal;
    alarms++;
}

static void storm(void)
{
    struct sigaction action = {.sa_handler = on_alarm};
    const struct itimerval often = {.it_interval = {.tv_usec = 50}, .it_value = {.tv_usec = 50}}, never = {.it_value = {0}};
    sure(sigaction(SIGALRM, &action, NULL), "sigaction");
    int before = open_descriptors(), failed = 0;
    sure(setitimer(ITIMER_REAL, &often, NULL), "setitimer");
    for (int at = 0; at < 20000; at++) {
        const int flags = at % 2 ? INROOT_EXACT : 0;
        int fd = inroot_open(root, "a/b/../b", INROOT_NO_RETRY | flags);
        failed += fd < 0;
        if (fd >= 0)
            close(fd);
        if (at % 10 > 1)
            continue;
        fd = inroot_mkdir_all(root, "s/t/u", 0755, flags);
        failed += fd < 0;
        if (fd >= 0)
            close(fd);
        failed += inroot_remove_all(root, "s", flags) != 3;
    }
    sure(setitimer(ITIMER_REAL, &never, NULL), "setitimer");
    gives(failed, 0, "calls that failed under %d signals", alarms);
    gives_least(alarms, 101, "signals");
    gives_most(open_descriptors() - before, 1, "descriptors that are left after signals");
}

static void in_thread(void *(*what)(void *))
{
    pthread_t thread;
    pthread_create(&thread, NULL, what, NULL);
    pthread_join(thread, NULL);
}

static void forks(void)
{
    in_thread(fork_here);
}

static void vforks(void)
{
    in_thread(vfork_here);
}

int main(int count, char **words)
{
    static const struct {
        const char *name;
        void (*run)(void);
    } parts[] = {
        {"fork", forks}, {"vfork", vforks}, {"own table", own_table}, {"own root", own_root}, {"main thread ended", main_ends},
        {"closed behind", closed_behind}, {"cancelled", cancelled}, {"ended", ended}, {"signals", storm},
    };
    if (count != 2)
        return 2;
    base = sure(open(words[1], O_PATH | O_DIRECTORY | O_CLOEXEC), words[1]);
    sure(fchmodat(base, ".", 0755, 0), "chmod");
    static const char *const dirs[] = {"root", "root/a", "root/a/b", "out"};
    for (size_t at = 0; at < sizeof dirs / sizeof *dirs; at++)
        sure(mkdirat(base, dirs[at], 0777), dirs[at]);
    root = sure(openat(base, "root", O_PATH | O_DIRECTORY | O_CLOEXEC), "root");
    sure(mknodat(root, "f", S_IFREG | 0600, 0), "f");
    sure(mknodat(base, "out/f", S_IFREG | 0600, 0), "f");
    for (size_t at = 0; at < sizeof parts / sizeof *parts; at++) {
        int before = wrong;
        apart(parts[at].run);
        if (wrong != before)
            printf("threads: %s\n", parts[at].name);
    }
    printf("threads: %d not as they are to be\n", wrong);
    return wrong != 0;
}
