/*
 * race: one thread moves directories out of the root and back while others resolve paths with `..` below it. An escape
 * is an object that was never inside. A walk that doesn't ask where it stands is the control, and must be fooled.
 *
 * usage: race DIR SECONDS [swap]. Exits 0 with no escape of inroot_open() and at least one of the control. With `swap` the
 * root's own directory is exchanged with the one outside and back, too. 79: the control was not fooled.
 */
#define _GNU_SOURCE
#include "../openat2.h"
#include "support.h"
#include "until.h"

#include <errno.h>
#include <fcntl.h>
#include <pthread.h>
#include <stdatomic.h>
#include <stdbool.h>
#include <string.h>
#include <sys/stat.h>
#include <sys/syscall.h>
#include <unistd.h>

static int base, root, out;
static bool swaps;
static atomic_bool stop, fooled;

/* What is outside, whatever its name is by now. */
static struct stat outside[3];
static atomic_ulong renames;

/* Who resolves, and what came of it. */
struct resolver {
    const char *name;
    int (*resolve)(const char *path);
    bool control;
    unsigned long raced;
    atomic_ulong opened, failed, escaped;
};

/*
 * Paths that lead to `secret` or above the root only where `..` leads out of it; two of names alone, opened at once; and by links whose
 * texts have what those paths have.
 */
static const char *const paths[] = {
    "a/b/c/../../secret", "a/b/../secret", "a/b/c/../../../secret", "a/b/c/d/../../..", "a/b/c/../f", "a/b/f", "a/b/c/d",
    "down/../../secret", "down/d/../../..", "down/up", "a/b/c/out", "down/d", "down/f",
};
enum { PATHS = sizeof paths / sizeof *paths };

static bool is_outside(int fd)
{
    return is_one_of(fd, outside, sizeof outside / sizeof *outside);
}

static int by_default(const char *path)
{
    return inroot_open(root, path, 0);
}

static int by_default_once(const char *path)
{
    return inroot_open(root, path, INROOT_NO_RETRY);
}

static int exactly(const char *path)
{
    return inroot_open(root, path, INROOT_EXACT);
}

static int exactly_once(const char *path)
{
    return inroot_open(root, path, INROOT_EXACT | INROOT_NO_RETRY);
}

static int by_kernel(const char *path)
{
    struct open_how how = {.flags = O_PATH | O_CLOEXEC, .resolve = RESOLVE_IN_ROOT};
    long fd = syscall(SYS_openat2, root, path, &how, sizeof how);
    return fd < 0 ? -errno : (int)fd;
}

/* The control: each part opened in the one before, without a question. */
static int unchecked(const char *path)
{
    char text[64], *rest = text, *part;
    int at = fcntl(root, F_DUPFD_CLOEXEC, 0);
    strcpy(text, path);
    while (at >= 0 && (part = strsep(&rest, "/")) != NULL) {
        int next = openat(at, part, O_PATH | O_NOFOLLOW | O_CLOEXEC), error = errno;
        close(at);
        at = next;
        errno = error;
    }
    return at < 0 ? -errno : at;
}

static void *resolve(void *self)
{
    struct resolver *me = self;
    uint64_t state = 88172645463325252u + (uintptr_t)self;
    while (!stop) {
        int fd = me->resolve(paths[pick(&state, PATHS)]);
        if (fd < 0) {
            me->raced += fd == -EAGAIN;
            me->failed++;
            continue;
        }
        me->opened++;
        bool escaped = is_outside(fd);
        me->escaped += escaped;
        if (escaped && me->control)
            fooled = true;
        close(fd);
    }
    return NULL;
}

/* Moves a/b and a/b/c out of the root, and back. */
static void *move(void *self)
{
    (void)self;
    while (!stop) {
        renameat(root, "a/b", out, "b");
        if (swaps)
            syscall(SYS_renameat2, base, "root", base, "out", RENAME_EXCHANGE);
        renameat(out, "b", root, "a/b");
        renameat(root, "a/b/c", out, "c");
        if (swaps)
            syscall(SYS_renameat2, base, "root", base, "out", RENAME_EXCHANGE);
        renameat(out, "c", root, "a/b/c");
        renames += swaps ? 6 : 4;
    }
    return NULL;
}

static void make_tree(void)
{
    static const char *const dirs[] = {"root", "out", "root/a", "root/a/b", "root/a/b/c", "root/a/b/c/d"};
    for (size_t at = 0; at < sizeof dirs / sizeof *dirs; at++)
        sure(mkdirat(base, dirs[at], 0755), dirs[at]);
    sure(mknodat(base, "out/secret", S_IFREG | 0600, 0), "out/secret");
    sure(mknodat(base, "root/a/b/f", S_IFREG | 0600, 0), "root/a/b/f");
    sure(symlinkat("/a/b/c", base, "root/down"), "root/down");
    sure(symlinkat("../f", base, "root/a/b/c/f"), "root/a/b/c/f");
    sure(symlinkat("d/../../../secret", base, "root/a/b/c/out"), "root/a/b/c/out");
    sure(symlinkat("../..", base, "root/a/b/c/up"), "root/a/b/c/up");
    root = sure(openat(base, "root", O_PATH | O_DIRECTORY | O_CLOEXEC), "root");
    out = sure(openat(base, "out", O_PATH | O_DIRECTORY | O_CLOEXEC), "out");
    sure(fstat(base, &outside[0]), "fstat");
    sure(fstat(out, &outside[1]), "fstat");
    sure(fstatat(out, "secret", &outside[2], 0), "out/secret");
}

enum { THREADS = 6, OURS = 4 };

/* Whether it is known that the race sees a hole before its time is over (checks/mutants --races). */
static const bool may_end_early = false;

/* Whether each of the library's has opened something, and the control was fooled. */
static bool is_met(const void *race)
{
    const struct resolver *all = race;
    bool met = fooled;
    for (int at = 0; at < OURS; at++)
        met = met && all[at].opened > 0;
    return met;
}

static bool is_enough(const void *race)
{
    const struct resolver *all = race;
    bool enough = renames >= ENOUGH_MOVES && all[THREADS - 1].escaped >= ENOUGH_LED;
    for (int at = 0; at < OURS; at++)
        enough = enough && all[at].opened >= ENOUGH_DONE && all[at].opened + all[at].failed >= ENOUGH_CALLS;
    return enough;
}

int main(int count, char **words)
{
    struct resolver resolvers[] = {
        {.name = "inroot_open", .resolve = by_default},
        {.name = "inroot_open, one try", .resolve = by_default_once},
        {.name = "inroot_open, INROOT_EXACT", .resolve = exactly},
        {.name = "inroot_open, INROOT_EXACT, one try", .resolve = exactly_once},
        {.name = "openat2", .resolve = by_kernel},
        {.name = "a walk without a check", .resolve = unchecked, .control = true},
    };
    _Static_assert(sizeof resolvers / sizeof *resolvers == THREADS, "the control is the last one");
    const struct goals goals = {is_met, may_end_early ? is_enough : NULL};
    pthread_t mover, threads[THREADS];
    if (count < 3 || count > 4)
        return 2;
    swaps = count == 4;
    base = sure(open(words[1], O_PATH | O_DIRECTORY | O_CLOEXEC), words[1]);
    make_tree();
    open_proc();
    int before = open_descriptors();
    pthread_create(&mover, NULL, move, NULL);
    for (int at = 0; at < THREADS; at++)
        pthread_create(&threads[at], NULL, resolve, &resolvers[at]);
    wait_for_race((unsigned)atoi(words[2]), &goals, resolvers);
    stop = true;
    pthread_join(mover, NULL);
    for (int at = 0; at < THREADS; at++) {
        pthread_join(threads[at], NULL);
        struct resolver *r = &resolvers[at];
        printf("race: %s: %lu opened, %lu escaped, %lu EAGAIN, %lu failed\n", r->name, (unsigned long)r->opened,
               (unsigned long)r->escaped, r->raced, (unsigned long)r->failed);
    }
    int left = open_descriptors() - before;
    printf("race: %lu renames, %d descriptors left open\n", (unsigned long)renames, left);
    gives(left, 0, "descriptors left open");
    for (int at = 0; at < OURS; at++) {
        const struct resolver *r = &resolvers[at];
        gives_least((long)r->opened, 1, "%s: what was opened", r->name);
        gives((long)r->escaped, 0, "%s: escaped", r->name);
    }
    return ending(fooled);
}
