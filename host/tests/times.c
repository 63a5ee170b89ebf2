/*
 * times: how long calls take beside others. One resolution: by openat2(2); by a plain walk of single openat(2) calls that asks the
 * same questions; by a join of the path as text, part by part, that is then opened, and that no race may meet; and by inroot_open(),
 * by the kernel's walk and with INROOT_EXACT. Four directories of a path made: by mkdirat(2) from the root, by the calls of mkdir(1)
 * with -p, and by inroot_mkdir_all(). And many files in a directory removed, by rm(1) and by inroot_remove_all().
 *
 * The ways take turns batch by batch, on one processor, so that what the machine does beside weighs on all of them, and the least of
 * many batches counts.
 *
 * usage: times DIR [FILES]. Prints a line for each. 77: no openat2(2) here.
 */
#define _GNU_SOURCE
#include "../openat2.h"
#include "support.h"

#include <errno.h>
#include <fcntl.h>
#include <limits.h>
#include <spawn.h>
#include <string.h>
#include <sys/stat.h>
#include <sys/syscall.h>
#include <time.h>
#include <unistd.h>

enum { BATCHES = 100, BATCH = 50, DEPTH = 32, FILES = 20000, REMOVALS = 3 };

static int root;
static char where[PATH_MAX];

/* ---- one resolution: a descriptor */

static int by_kernel(const char *path)
{
    struct open_how how = {.flags = O_PATH | O_CLOEXEC, .resolve = RESOLVE_IN_ROOT};
    int fd;
    /* A rename anywhere on the machine may refuse a path with `..`. */
    do
        fd = (int)syscall(SYS_openat2, root, path, &how, sizeof how);
    while (fd < 0 && errno == EAGAIN);
    return fd;
}

/* Of names and `..` alone: opens each part, asks for its kind, and after each `..` and at the end where it stands. */
static int plainly(const char *path)
{
    char text[256], link[32], stands[PATH_MAX], *rest = text, *part;
    struct stat about;
    int at = fcntl(root, F_DUPFD_CLOEXEC, 0);
    strcpy(text, path);
    while ((part = strsep(&rest, "/")) != NULL) {
        int next = openat(at, part, O_PATH | O_NOFOLLOW | O_CLOEXEC);
        fstat(next, &about);
        if (strcmp(part, "..") == 0) {
            fstat(at, &about);
            fchdir(next);
            syscall(SYS_getcwd, stands, sizeof stands);
        }
        close(at);
        at = next;
    }
    if (fchdir(at) == 0) {
        syscall(SYS_getcwd, stands, sizeof stands);
    } else {
        snprintf(link, sizeof link, "/proc/self/fd/%d", at);
        readlink(link, stands, sizeof stands);
    }
    return at;
}

/* Of names and `..` alone, as SecureJoin of Go's filepath-securejoin: each part is looked at, and the text is opened. */
static int by_join(const char *path)
{
    char text[256], joined[PATH_MAX + 256], *rest = text, *part;
    struct stat about;
    size_t top = strlen(where), length = top;
    strcpy(joined, where);
    strcpy(text, path);
    while ((part = strsep(&rest, "/")) != NULL) {
        if (strcmp(part, "..") == 0) {
            while (length > top && joined[--length] != '/')
                ;
            joined[length] = 0;
        } else {
            joined[length] = '/';
            strcpy(joined + length + 1, part);
            length += 1 + strlen(part);
        }
        lstat(joined, &about);
    }
    return open(joined, O_PATH | O_CLOEXEC);
}

static int here(const char *path)
{
    return inroot_open(root, path, 0);
}

static int exactly(const char *path)
{
    return inroot_open(root, path, INROOT_EXACT);
}

/* ---- four directories made: a descriptor */

/* By paths from the root, which follow links. */
static int make_by_paths(const char *path)
{
    char text[64];
    for (const char *end = path; *end != 0; end++) {
        end += strcspn(end, "/");
        snprintf(text, sizeof text, "%.*s", (int)(end - path), path);
        sure(mkdirat(root, text, 0755), text);
        if (*end == 0)
            break;
    }
    return openat(root, path, O_PATH | O_CLOEXEC);
}

/* As mkdir(1) does: it goes into each directory that it made. */
static int make_as_mkdir(const char *path)
{
    char text[64], *rest = text, *part;
    int at = -1;
    sure(fchdir(root), "fchdir");
    strcpy(text, path);
    while ((part = strsep(&rest, "/")) != NULL) {
        sure(mkdir(part, 0755), part);
        at = sure(open(part, O_RDONLY | O_NOCTTY | O_NONBLOCK | O_NOFOLLOW | O_DIRECTORY | O_CLOEXEC), part);
        if (rest != NULL) {
            sure(fchdir(at), part);
            close(at);
        }
    }
    return at;
}

static int make_here(const char *path)
{
    return inroot_mkdir_all(root, path, 0755, 0);
}

static int make_exactly(const char *path)
{
    return inroot_mkdir_all(root, path, 0755, INROOT_EXACT);
}

static void remove_made(const char *path)
{
    char text[64];
    for (strcpy(text, path); text[0] != 0;) {
        sure(unlinkat(root, text, AT_REMOVEDIR), text);
        char *slash = strrchr(text, '/');
        *(slash == NULL ? text : slash) = 0;
    }
}

/* ---- batches */

static double now(void)
{
    struct timespec time;
    clock_gettime(CLOCK_MONOTONIC, &time);
    return (double)time.tv_sec * 1e6 + (double)time.tv_nsec / 1e3;
}

/* What is to be timed, and what undoes it, if anything does. */
struct task {
    const char *path;
    int (*go)(const char *path);
    void (*undo)(const char *path);
};

/* Of one batch, after a first call that isn't counted, since another way had the turn before. */
static double microseconds(const struct task *task)
{
    double taken = 0;
    for (int at = -1; at < BATCH; at++) {
        double from = now();
        close(sure(task->go(task->path), task->path));
        if (at >= 0)
            taken += now() - from;
        if (task->undo != NULL)
            task->undo(task->path);
    }
    return taken / BATCH;
}

struct how {
    const char *name;
    int (*go)(const char *path);
};

enum { MOST_WAYS = 8 };

static void time_ways(const char *what, const char *path, const struct how *ways, int count, void (*undo)(const char *))
{
    double least[MOST_WAYS];
    for (int batch = 0; batch < BATCHES; batch++)
        for (int one = 0; one < count; one++) {
            const struct task task = {.path = path, .go = ways[one].go, .undo = undo};
            const double taken = microseconds(&task);
            if (batch == 0 || taken < least[one])
                least[one] = taken;
        }
    printf("times: %s:", what);
    for (int one = 0; one < count; one++)
        printf("%s %s %.2f", one == 0 ? "" : ",", ways[one].name, least[one]);
    puts(" us");
}

/* ---- many files */

static void make_files(const char *name, long files)
{
    char file[32];
    sure(mkdirat(root, name, 0755), name);
    int dir = sure(openat(root, name, O_PATH | O_DIRECTORY | O_CLOEXEC), name);
    for (long at = 0; at < files; at++) {
        snprintf(file, sizeof file, "file%ld", at);
        sure(mknodat(dir, file, S_IFREG | 0600, 0), file);
    }
    close(dir);
}

static double removed_by_rm(const char *name)
{
    extern char **environ;
    char path[PATH_MAX + 16];
    int status;
    pid_t child;
    snprintf(path, sizeof path, "%s/%s", where, name);
    char *words[] = {(char[]){"rm"}, (char[]){"-rf"}, path, NULL};
    double from = now();
    errno = posix_spawnp(&child, "rm", NULL, NULL, words, environ);
    sure(-errno, "rm");
    sure(waitpid(child, &status, 0), "waitpid");
    return now() - from;
}

static double removed_here(const char *name, long files)
{
    double from = now();
    ssize_t removed = inroot_remove_all(root, name, 0);
    double taken = now() - from;
    gives(removed, files + 1, "entries removed");
    return taken;
}

static void time_removals(long files)
{
    double by_rm = 0, here = 0;
    for (int turn = 0; turn < REMOVALS; turn++) {
        make_files("many", files);
        double taken = removed_by_rm("many");
        by_rm = turn == 0 || taken < by_rm ? taken : by_rm;
        make_files("many", files);
        taken = removed_here("many", files);
        here = turn == 0 || taken < here ? taken : here;
    }
    printf("times: %ld files removed: rm -rf %.3f s, inroot_remove_all %.3f s (%.2f times)\n", files, by_rm / 1e6, here / 1e6,
           here / by_rm);
}

/* ---- */

/* This thread and those that it makes, where the system allows it: another processor may be faster or busier. */
static void stay_on_one_processor(void)
{
    cpu_set_t one;
    int here = sched_getcpu();
    CPU_ZERO(&one);
    CPU_SET(here < 0 ? 0 : here, &one);
    sched_setaffinity(0, sizeof one, &one);
}

static void time_all(const char *deep, long files)
{
    static const struct how found[] = {
        {"openat2", by_kernel}, {"the kernel's walk", here}, {"with INROOT_EXACT", exactly}, {"a plain walk", plainly},
        {"a join of text", by_join},
    };
    /* The first three follow links. */
    enum { FOLLOWED = 3 };
    static const struct how made[] = {
        {"mkdirat(2) from the root", make_by_paths}, {"as mkdir -p", make_as_mkdir}, {"the kernel's walk", make_here},
        {"with INROOT_EXACT", make_exactly},
    };
    const char *const paths[][2] = {
        {"f", "f"}, {"a/b", "a/b"}, {"a/b/f", "a/b/f"}, {"four b/..", "a/b/../b/../b/../b/.."}, {"32 directories", deep},
    };
    static const char *const linked[][2] = {
        {"l, a link to a/b", "l"}, {"k, a link to a/b/f", "k"}, {"d/l/f, l a link to ../a/b", "d/l/f"},
    };
    for (size_t at = 0; at < sizeof paths / sizeof *paths; at++)
        time_ways(paths[at][0], paths[at][1], found, sizeof found / sizeof *found, NULL);
    for (size_t at = 0; at < sizeof linked / sizeof *linked; at++)
        time_ways(linked[at][0], linked[at][1], found, FOLLOWED, NULL);
    time_ways("four directories made", "n/e/w/s", made, sizeof made / sizeof *made, remove_made);
    time_removals(files);
}

int main(int count, char **words)
{
    static char deep[2 * DEPTH + 1];
    if (count < 2 || count > 3 || realpath(words[1], where) == NULL)
        return 2;
    root = sure(open(where, O_PATH | O_DIRECTORY | O_CLOEXEC), where);
    if (by_kernel(".") < 0 && errno == ENOSYS)
        return NO_OPENAT2;
    sure(mkdirat(root, "a", 0755), "a");
    sure(mkdirat(root, "a/b", 0755), "a/b");
    sure(mknodat(root, "a/b/f", S_IFREG | 0600, 0), "a/b/f");
    sure(mknodat(root, "f", S_IFREG | 0600, 0), "f");
    sure(symlinkat("a/b", root, "l"), "l");
    sure(symlinkat("a/b/f", root, "k"), "k");
    for (int at = 0; at < DEPTH; at++) {
        strcat(deep, at == 0 ? "d" : "/d");
        sure(mkdirat(root, deep, 0755), deep);
    }
    sure(symlinkat("../a/b", root, "d/l"), "d/l");
    stay_on_one_processor();
    time_all(deep, count == 3 ? atol(words[2]) : FILES);
    return wrong != 0;
}
