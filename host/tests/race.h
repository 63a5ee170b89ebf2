/* race.h: what races share: workers beside one thread that is in their way, and inodes that tell what was inside. */
#ifndef RACE_H
#define RACE_H

#include "support.h"
#include "until.h"

#include <errno.h>
#include <limits.h>
#include <pthread.h>
#include <stdatomic.h>
#include <string.h>
#include <sys/stat.h>

/* Where a worker asks, and how: by the kernel's walk or by INROOT_EXACT, in a thread with the process's root directory or another. */
enum place { PLAIN, CHROOT, EXACT, EXACT_CHROOT, PLACES };

/* Who makes calls of one kind, and what came of them. */
struct worker {
    const char *name;
    enum place place;
    /* A call with these flags: a descriptor, 0 or -errno. */
    int (*work)(int at, int flags, uint64_t *state);
    bool control;
    unsigned long raced, removed;
    atomic_ulong calls, done, escaped;
};

static atomic_bool stop, fooled;
static atomic_ulong moves;
static int root, links;
/* Where a control wasn't fooled, though one was there. */
static bool has_shown = true;

/* What ever stands below the root: all else that is opened has escaped. */
enum { MOST_INSIDE = 64, MOST_WORKERS = 16 };
static struct stat inside[MOST_INSIDE];
static int inside_count;

static inline void is_of_inside(int dir, const char *name)
{
    sure(inside_count < MOST_INSIDE ? 0 : -1, "more stands inside");
    sure(fstatat(dir, name, &inside[inside_count++], AT_SYMLINK_NOFOLLOW), name);
}

static inline bool has_escaped(int fd)
{
    struct stat about;
    sure(fstat(fd, &about), "fstat");
    for (int at = 0; at < inside_count; at++)
        if (about.st_ino == inside[at].st_ino && about.st_dev == inside[at].st_dev)
            return false;
    return true;
}

/*
 * Whether the kernel walked for this thread's last call. What somebody removes just while the kernel looks it up, such a call may
 * open, as openat2(2) itself does (removed.c). No call with INROOT_EXACT is excused, and no object whose entry isn't called removed.
 */
static _Thread_local bool by_kernel;

static inline void judge(struct worker *me, int fd)
{
    if (!has_escaped(fd))
        return;
    if (by_kernel && !me->control && is_called_removed(links, fd)) {
        me->removed++;
        return;
    }
    me->escaped++;
    if (me->control)
        fooled = true;
}

static inline void *work_on(void *self)
{
    struct worker *me = self;
    uint64_t state = 88172645463325252u + (uintptr_t)self;
    const int flags = me->place == EXACT || me->place == EXACT_CHROOT ? INROOT_EXACT : 0;
    by_kernel = flags == 0;
    while (!stop) {
        int got = me->work(root, flags, &state);
        me->calls++;
        me->done += got >= 0;
        me->raced += got == -EAGAIN;
        if (got <= 0)
            continue;
        judge(me, got);
        close(got);
    }
    return NULL;
}

/* Goes to its place first. */
static inline void *work_there(void *self)
{
    const struct worker *me = self;
    if (me->place == CHROOT || me->place == EXACT_CHROOT) {
        sure(unshare(CLONE_FS), "unshare");
        sure(fchdir(root), "fchdir");
        sure(chroot("."), "chroot");
    }
    return work_on(self);
}

static inline void *in_the_way(void *what)
{
    void (*const *move)(void) = what;
    while (!stop) {
        (*move)();
        moves++;
    }
    return NULL;
}

static inline void tell_worker(const char *race, const struct worker *w)
{
    printf("%s: %s: %lu calls, %lu done, %lu EAGAIN, %lu escaped, %lu removed\n", race, w->name, (unsigned long)w->calls,
           (unsigned long)w->done, w->raced, (unsigned long)w->escaped, w->removed);
    if (w->control)
        return;
    gives((long)w->escaped, 0, "%s: %s: escaped", race, w->name);
    gives_least((long)w->done, 1, "%s: %s: done", race, w->name);
}

/* The workers of a race. */
struct crowd {
    const struct worker *workers;
    int count;
};

/* Whether each has done something, and the control was fooled, where there is one. */
static inline bool is_met(const void *race)
{
    const struct crowd *all = race;
    bool met = true;
    for (int at = 0; at < all->count; at++)
        met = met && (all->workers[at].control ? fooled : all->workers[at].done > 0);
    return met;
}

static inline bool is_enough(const void *race)
{
    const struct crowd *all = race;
    bool enough = moves >= ENOUGH_MOVES;
    for (int at = 0; at < all->count; at++) {
        const struct worker *w = &all->workers[at];
        enough = enough && w->calls >= ENOUGH_CALLS && (w->control ? w->escaped >= ENOUGH_LED : w->done >= ENOUGH_DONE);
    }
    return enough;
}

/* Whether it is known that the race sees a hole before its time is over (checks/mutants --races). */
static bool may_end_early;

static inline void race(const char *name, struct worker *workers, int count, void (*move)(void), unsigned seconds)
{
    const struct goals goals = {is_met, may_end_early ? is_enough : NULL};
    const struct crowd all = {workers, count};
    pthread_t mover, threads[MOST_WORKERS];
    bool has_control = false;
    links = sure(open("/proc/self/fd", O_PATH | O_DIRECTORY | O_CLOEXEC), "/proc/self/fd");
    int before = open_descriptors();
    sure(count <= MOST_WORKERS ? 0 : -1, "more workers");
    pthread_create(&mover, NULL, in_the_way, &move);
    for (int at = 0; at < count; at++) {
        has_control |= workers[at].control;
        pthread_create(&threads[at], NULL, work_there, &workers[at]);
    }
    wait_for_race(seconds, &goals, &all);
    stop = true;
    pthread_join(mover, NULL);
    for (int at = 0; at < count; at++)
        pthread_join(threads[at], NULL);
    for (int at = 0; at < count; at++)
        tell_worker(name, &workers[at]);
    int left = open_descriptors() - before;
    has_shown = has_shown && (fooled || !has_control);
    gives(left, 0, "%s: descriptors left open", name);
    printf("%s: %lu moves, %d descriptors left open\n", name, (unsigned long)moves, left);
}

/*
 * Workers that make calls of this kind in all these places at once, beside one that makes a control's. Nothing outside may be
 * changed.
 */
static inline void race_in(const char *title, const struct worker *control, int (*work)(int at, int flags, uint64_t *state),
                           const enum place *places, int count, void (*move)(void), unsigned seconds)
{
    static const char *const names[] = {
        [PLAIN] = "by the kernel's walk",
        [CHROOT] = "by the kernel's walk in a chroot",
        [EXACT] = "with INROOT_EXACT",
        [EXACT_CHROOT] = "with INROOT_EXACT in a chroot",
    };
    _Static_assert(sizeof names / sizeof *names == PLACES, "each place has its name");
    struct worker workers[MOST_WORKERS] = {*control};
    sure(count < MOST_WORKERS ? 0 : -1, "more workers");
    for (int one = 0; one < count; one++)
        workers[one + 1] = (struct worker){.name = names[places[one]], .place = places[one], .work = work};
    race(title, workers, count + 1, move, seconds);
}

/*
 * usage: RACE DIR SECONDS KIND. Gives which row of a table begins with the name of this kind, and opens the directory; or ends the
 * program as one does that can't be run.
 */
static inline size_t row_of(const void *rows, size_t rows_count, size_t size, int count, char **words,
                            char where[PATH_MAX], int *base)
{
    const char *const *name = rows;
    size_t one = 0;
    if (count != 4 || realpath(words[1], where) == NULL)
        exit(2);
    for (; one < rows_count && strcmp(*name, words[3]) != 0; one++)
        name += size / sizeof *name;
    if (one == rows_count)
        exit(2);
    *base = sure(open(where, O_PATH | O_DIRECTORY | O_CLOEXEC), where);
    if (!may_chroot(*base))
        exit(NO_RIGHT);
    return one;
}

/* A walk without a check: each part is opened in the one before. */
static inline int walk_unchecked(int from, const char *path)
{
    char text[8192], *rest = text, *part;
    int dir = fcntl(from, F_DUPFD_CLOEXEC, 0);
    snprintf(text, sizeof text, "%s", path);
    while (dir >= 0 && (part = strsep(&rest, "/")) != NULL) {
        int next = openat(dir, part, O_PATH | O_NOFOLLOW | O_CLOEXEC), error = errno;
        close(dir);
        dir = next;
        errno = error;
    }
    return dir < 0 ? -errno : dir;
}

#endif
