/*
 * peers: races as other libraries have them. Directories are made beside renames and beside deletion, paths are looked up
 * beside exchanges of a directory for one outside and for a link, 2 to 128 threads make the same at once, and 16 threads do
 * everything: by the kernel's walk and with INROOT_EXACT, also in a chroot. With `storm` all of it under a storm of signals, with
 * `overlay` or `bind` on such a mount.
 *
 * usage: peers DIR SECONDS RACE [storm|overlay|bind]. RACE is rename, delete, exchange, create or all. Exits 0 where nothing that
 * was always outside was found or changed, no descriptor is left, and an unchecked walk was fooled. 78: no right to do so here. 79: that
 * walk was not fooled.
 */
#define _GNU_SOURCE
#include "support.h"
#include "until.h"

#include <dirent.h>
#include <errno.h>
#include <fcntl.h>
#include <limits.h>
#include <pthread.h>
#include <signal.h>
#include <stdatomic.h>
#include <string.h>
#include <sys/stat.h>
#include <sys/syscall.h>
#include <sys/time.h>

static int base, root, out;
static atomic_bool stop, fooled;
/* Where a control wasn't fooled, though one was there. */
static bool has_shown = true;
static atomic_ulong moves;
static char outside_path[PATH_MAX + 8];
static struct stat outside[3];

/* Who makes calls of one kind, and what came of them. */
struct worker {
    const char *name;
    int (*work)(int flags, uint64_t *state);
    int flags;
    bool in_chroot, control;
    atomic_ulong done, raced, failed, escaped;
};

static bool is_outside(int fd)
{
    return is_one_of(fd, outside, sizeof outside / sizeof *outside);
}

/* ---- what workers do: a descriptor, or -errno */

static int make_all(int flags, uint64_t *state)
{
    static const char *const paths[] = {"x/d/e/f", "x/d/e/g", "x/d/../d/h"};
    return inroot_mkdir_all(root, paths[pick(state, 3)], 0755, flags);
}

static const char *const looked_up[] = {"a/b/c/../../secret", "a/b/../secret", "a/b/c/../../..", "a/b/secret", "a/b/c/../f", "a/b/c"};

static int look_up(int flags, uint64_t *state)
{
    return inroot_open(root, looked_up[pick(state, 6)], flags);
}

/* Each part opened in the one before, without a question. */
static int unchecked(int flags, uint64_t *state)
{
    char text[64], *rest = text, *part;
    int dir = fcntl(root, F_DUPFD_CLOEXEC, 0);
    (void)flags;
    snprintf(text, sizeof text, "%s", looked_up[pick(state, 6)]);
    while (dir >= 0 && (part = strsep(&rest, "/")) != NULL) {
        int next = openat(dir, part, O_PATH | O_NOFOLLOW | O_CLOEXEC), error = errno;
        close(dir);
        dir = next;
        errno = error;
    }
    return dir < 0 ? -errno : dir;
}

static int everything(int flags, uint64_t *state)
{
    static const char *const names[] = {"x/d/n", "x/d/e/n", "a/b/n", "a/b/c/../n", "x/d/../n"};
    const char *name = names[pick(state, 5)];
    ssize_t removed;
    char text[64];
    switch (pick(state, 8)) {
    case 0: return inroot_mknod(root, name, S_IFREG | 0644, 0, flags);
    case 1: return inroot_mkdir(root, name, 0755, flags);
    case 2: return inroot_symlink(root, outside_path, name, flags);
    case 3: return inroot_unlink(root, name, flags);
    case 4: return inroot_rmdir(root, name, flags);
    case 5: return inroot_rename(root, name, names[pick(state, 5)], (int)pick(state, 3), flags);
    case 6: return (int)inroot_readlink(root, name, flags, text, sizeof text) < 0 ? -ENOENT : 0;
    default:
        removed = inroot_remove_all(root, name, flags);
        return removed < 0 ? (int)removed : 0;
    }
}

static int all_kinds(int flags, uint64_t *state)
{
    int which = (int)pick(state, 3);
    return which == 0 ? make_all(flags, state) : which == 1 ? look_up(flags, state) : everything(flags, state);
}

static bool gives_zero(const struct worker *me)
{
    return me->work == all_kinds;
}

/* This thread alone. */
static void enter_chroot(void)
{
    sure(unshare(CLONE_FS), "unshare");
    sure(fchdir(root), "fchdir");
    sure(chroot("."), "chroot");
}

static void *work(void *self)
{
    struct worker *me = self;
    uint64_t state = 88172645463325252u + (uintptr_t)self;
    if (me->in_chroot)
        enter_chroot();
    while (!stop) {
        int got = me->work(me->flags, &state);
        me->done += got >= 0;
        me->raced += got == -EAGAIN;
        me->failed += got < 0;
        if (got > 0 || (got == 0 && !gives_zero(me))) {
            bool escaped = is_outside(got);
            me->escaped += escaped;
            if (escaped && me->control)
                fooled = true;
            close(got);
        }
    }
    return NULL;
}

/* ---- who is in their way */

static void rename_about(uint64_t *state)
{
    static const char *const there[] = {"x/d", "x/d/e", "y", "z"};
    const char *from = there[pick(state, 2)], *to = there[2 + pick(state, 2)];
    if (renameat(root, from, root, to) == 0)
        renameat(root, to, root, from);
    inroot_remove_all(root, to, 0);
}

static void delete_about(uint64_t *state)
{
    static const char *const there[] = {"x/d/e/f", "x/d/e/g", "x/d/e", "x/d/h", "x/d"};
    unlinkat(root, there[pick(state, 5)], AT_REMOVEDIR);
}

/* A directory for the one outside, out of the root and back, and for a link that leads there. */
static void exchange_about(uint64_t *state)
{
    static const char *const there[] = {"a/b", "a/b/c"};
    const char *one = there[pick(state, 2)];
    unsigned how = pick(state, 3);
    if (how == 2) {
        renameat(root, one, out, "away");
        renameat(out, "away", root, one);
        return;
    }
    int dir = how == 0 ? out : root;
    const char *other = how == 0 ? "dir" : "link";
    if (syscall(SYS_renameat2, root, one, dir, other, 2) == 0)
        syscall(SYS_renameat2, root, one, dir, other, 2);
}

static void all_about(uint64_t *state)
{
    switch (pick(state, 3)) {
    case 0: rename_about(state); break;
    case 1: delete_about(state); break;
    default: exchange_about(state);
    }
}

static void *in_the_way(void *what)
{
    void (*const *about)(uint64_t *) = what;
    uint64_t state = 0x2545f4914f6cdd1d;
    while (!stop) {
        (*about)(&state);
        moves++;
    }
    return NULL;
}

/* ---- the tree */

static void make_dirs(void)
{
    static const char *const dirs[] = {"root", "out", "out/dir", "out/dir/c", "root/a", "root/a/b", "root/a/b/c", "root/x"};
    for (size_t at = 0; at < sizeof dirs / sizeof *dirs; at++)
        sure(mkdirat(base, dirs[at], 0755), dirs[at]);
    root = sure(openat(base, "root", O_PATH | O_DIRECTORY | O_CLOEXEC), "root");
    out = sure(openat(base, "out", O_PATH | O_DIRECTORY | O_CLOEXEC), "out");
    sure(mknodat(out, "secret", S_IFREG | 0600, 0), "secret");
    sure(mknodat(root, "a/b/f", S_IFREG | 0600, 0), "f");
    sure(symlinkat(outside_path, root, "link"), "link");
    sure(fstat(base, &outside[0]), "fstat");
    sure(fstat(out, &outside[1]), "fstat");
    sure(fstatat(out, "secret", &outside[2], 0), "secret");
}

/* Nothing was made or removed where nobody but the mover was: the secret stands there, beside one directory. */
static void is_untouched(const char *race)
{
    struct stat about;
    int count = 0;
    DIR *all = fdopendir(sure(openat(base, "out", O_RDONLY | O_DIRECTORY | O_CLOEXEC), "out"));
    while (readdir(all) != NULL)
        count++;
    closedir(all);
    gives(count, 4, "%s: entries of out, `.` and `..` among them", race);
    gives(fstatat(out, "secret", &about, AT_SYMLINK_NOFOLLOW), 0, "%s: out/secret, asked for", race);
    gives(fstatat(out, "dir", &about, AT_SYMLINK_NOFOLLOW), 0, "%s: out/dir, asked for", race);
}

/* ---- races */

/* Whether it is known that the race sees a hole before its time is over (checks/mutants --races). */
static bool ends_early;

/* The workers of a race. */
struct crowd {
    const struct worker *workers;
    int count;
};

/* Whether each has done something, and the control was fooled, where there is one. */
static bool is_met(const void *race)
{
    const struct crowd *all = race;
    bool met = true;
    for (int at = 0; at < all->count; at++)
        met = met && (all->workers[at].control ? fooled : all->workers[at].done > 0);
    return met;
}

/* A call with one try shows that it was met by a move: it gives EAGAIN. */
static bool is_enough_of(const struct worker *w)
{
    bool enough = w->done + w->failed >= ENOUGH_CALLS;
    if (w->control)
        return enough && w->escaped >= ENOUGH_LED;
    return enough && w->done >= ENOUGH_DONE && (!(w->flags & INROOT_NO_RETRY) || w->raced >= ENOUGH_DONE);
}

static bool is_enough(const void *race)
{
    const struct crowd *all = race;
    bool enough = moves >= ENOUGH_MOVES;
    for (int at = 0; at < all->count; at++)
        enough = enough && is_enough_of(&all->workers[at]);
    return enough;
}

static void race(const char *name, struct worker *workers, int count, void (*about)(uint64_t *), unsigned seconds)
{
    const struct goals goals = {is_met, ends_early ? is_enough : NULL};
    const struct crowd all = {workers, count};
    pthread_t mover, threads[16];
    int before = open_descriptors();
    bool has_control = false;
    pthread_create(&mover, NULL, in_the_way, &about);
    for (int at = 0; at < count; at++) {
        has_control |= workers[at].control;
        pthread_create(&threads[at], NULL, work, &workers[at]);
    }
    wait_for_race(seconds, &goals, &all);
    stop = true;
    pthread_join(mover, NULL);
    for (int at = 0; at < count; at++) {
        struct worker *w = &workers[at];
        pthread_join(threads[at], NULL);
        double calls = (double)(w->done + w->failed);
        printf("peers: %s: %s: %lu done, %lu escaped, %lu EAGAIN (%.4f %%), %lu failed\n", name, w->name, (unsigned long)w->done,
               (unsigned long)w->escaped, (unsigned long)w->raced, calls > 0 ? 100 * (double)w->raced / calls : 0,
               (unsigned long)w->failed);
        if (!w->control) {
            gives((long)w->escaped, 0, "%s: %s: escaped", name, w->name);
            gives_least((long)w->done, 1, "%s: %s: done", name, w->name);
        }
    }
    int left = open_descriptors() - before;
    has_shown = has_shown && (fooled || !has_control);
    gives(left, 0, "%s: descriptors left open", name);
    is_untouched(name);
    printf("peers: %s: %lu moves, %d descriptors left open\n", name, (unsigned long)moves, left);
}

static void race_of_ways(const char *name, int (*what)(int, uint64_t *), void (*about)(uint64_t *), bool chroots, unsigned seconds)
{
    struct worker workers[6] = {
        {.name = "the kernel's walk, one try", .work = what, .flags = INROOT_NO_RETRY},
        {.name = "the kernel's walk", .work = what},
        {.name = "INROOT_EXACT, one try", .work = what, .flags = INROOT_EXACT | INROOT_NO_RETRY},
        {.name = "INROOT_EXACT", .work = what, .flags = INROOT_EXACT},
    };
    int count = 4;
    if (chroots)
        workers[count++] = (struct worker){.name = "INROOT_EXACT in a chroot", .work = what, .flags = INROOT_EXACT, .in_chroot = true};
    if (what == look_up)
        workers[count++] = (struct worker){.name = "a walk without a check", .work = unchecked, .control = true};
    race(name, workers, count, about, seconds);
}

static void race_of_all(bool chroots, unsigned seconds)
{
    static const char *const names[] = {
        "the kernel's walk", "INROOT_EXACT", "the kernel's walk in a chroot", "INROOT_EXACT in a chroot",
    };
    struct worker workers[16];
    for (int at = 0; at < 16; at++) {
        const int kind = chroots ? at % 4 : at % 2;
        workers[at] = (struct worker){
            .name = names[kind], .work = all_kinds, .flags = kind % 2 ? INROOT_EXACT : 0, .in_chroot = kind >= 2,
        };
    }
    race("16 threads", workers, 16, all_about, seconds);
}

/* ---- create beside create */

struct maker {
    pthread_barrier_t *together;
    bool in_chroot;
    int flags, dir, file;
};

static void *make_same(void *self)
{
    struct maker *me = self;
    if (me->in_chroot)
        enter_chroot();
    pthread_barrier_wait(me->together);
    me->dir = inroot_mkdir_all(root, "same/b/c/d/e/f", 0755, me->flags);
    me->file = inroot_mknod(root, "same/file", S_IFREG | 0644, 0, me->flags);
    if (me->dir >= 0)
        close(me->dir);
    return NULL;
}

/* All find the directories made, and one has made the file. */
static void make_together(int count, bool chroots)
{
    pthread_barrier_t together;
    pthread_t threads[128];
    struct maker makers[128];
    int made = 0;
    pthread_barrier_init(&together, NULL, (unsigned)count);
    for (int at = 0; at < count; at++) {
        makers[at] = (struct maker){.together = &together, .in_chroot = chroots && at % 2, .flags = at / 2 % 2 ? INROOT_EXACT : 0};
        pthread_create(&threads[at], NULL, make_same, &makers[at]);
    }
    for (int at = 0; at < count; at++) {
        pthread_join(threads[at], NULL);
        gives_fd(makers[at].dir, "%d threads: directories", count);
        gives(makers[at].file, makers[at].file == 0 ? 0 : -EEXIST, "%d threads: a file", count);
        made += makers[at].file == 0;
    }
    gives(made, 1, "%d threads: those that made the file", count);
    gives(inroot_remove_all(root, "same", 0), 7, "%d threads: what they made", count);
    pthread_barrier_destroy(&together);
}

/* Each has 254 threads. */
enum { ENOUGH_ROUNDS = 8 };

static void create(bool chroots, unsigned seconds)
{
    const bool is_whole = getenv("INROOT_WHOLE_RACES") != NULL;
    const double end = seconds_now() + seconds;
    unsigned long rounds = 0;
    do {
        for (int count = 2; count <= 128; count *= 2)
            make_together(count, chroots);
        rounds++;
    } while (seconds_now() < end && (is_whole || rounds < ENOUGH_ROUNDS));
    printf("peers: create: %lu rounds of 2 to 128 threads, %d not as they are to be\n", rounds, wrong);
}

/* ---- signals and mounts */

static void ignore(int signal)
{
    (void)signal;
}

static void storm(void)
{
    struct sigaction action = {.sa_handler = ignore};
    const struct itimerval often = {.it_interval = {.tv_usec = 100}, .it_value = {.tv_usec = 100}};
    sure(sigaction(SIGALRM, &action, NULL), "sigaction");
    sure(setitimer(ITIMER_REAL, &often, NULL), "setitimer");
}

/* Moves the check to a mount of its own below DIR. */
static void mount_here(const char *dir, bool overlay)
{
    char target[PATH_MAX], options[4 * PATH_MAX];
    static const char *const dirs[] = {"lower", "upper", "work", "mount"};
    for (size_t at = 0; at < sizeof dirs / sizeof *dirs; at++)
        sure(mkdirat(base, dirs[at], 0755), dirs[at]);
    snprintf(target, sizeof target, "%.4000s/mount", dir);
    snprintf(options, sizeof options, "lowerdir=%s/lower,upperdir=%s/upper,workdir=%s/work", dir, dir, dir);
    own_mounts_or_end();
    char lower[PATH_MAX];
    snprintf(lower, sizeof lower, "%.4000s/lower", dir);
    if (overlay ? mount("overlay", target, "overlay", 0, options) != 0 : mount(lower, target, NULL, MS_BIND, NULL) != 0)
        exit(NO_RIGHT);
    close(base);
    base = sure(open(target, O_PATH | O_DIRECTORY | O_CLOEXEC), target);
    snprintf(outside_path, sizeof outside_path, "%s/out", target);
}

int main(int count, char **words)
{
    if (count < 4 || count > 5)
        return 2;
    const char *what = words[3], *on = count == 5 ? words[4] : "";
    unsigned seconds = (unsigned)atoi(words[2]);
    char dir[PATH_MAX];
    if (realpath(words[1], dir) == NULL)
        return 1;
    base = sure(open(dir, O_PATH | O_DIRECTORY | O_CLOEXEC), dir);
    snprintf(outside_path, sizeof outside_path, "%s/out", dir);
    if (strcmp(on, "overlay") == 0 || strcmp(on, "bind") == 0)
        mount_here(dir, strcmp(on, "overlay") == 0);
    make_dirs();
    open_proc();
    bool chroots = may_chroot(root);
    ends_early = false;
    if (strcmp(on, "storm") == 0)
        storm();
    if (strcmp(what, "rename") == 0)
        race_of_ways("directories made beside renames", make_all, rename_about, chroots, seconds);
    else if (strcmp(what, "delete") == 0)
        race_of_ways("directories made beside deletion", make_all, delete_about, chroots, seconds);
    else if (strcmp(what, "exchange") == 0)
        race_of_ways("lookups beside exchange", look_up, exchange_about, chroots, seconds);
    else if (strcmp(what, "create") == 0)
        create(chroots, seconds);
    else if (strcmp(what, "all") == 0)
        race_of_all(chroots, seconds);
    else
        return 2;
    return ending(has_shown);
}
