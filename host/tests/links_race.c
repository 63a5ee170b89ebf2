/*
 * links_race: a file is opened and made (O_CREAT) in a directory that another thread exchanges for one in which the
 * name is a link, again and again. Under INROOT_NO_LINKS no file is opened, or made, that a link leads to.
 *
 * usage: links_race DIR SECONDS. Exits 0 where that holds, and the same calls without the flag were led there. 79: those
 * calls were not led there.
 */
#define _GNU_SOURCE
#include "support.h"
#include "until.h"

#include <errno.h>
#include <pthread.h>
#include <stdatomic.h>
#include <sys/stat.h>
#include <sys/syscall.h>

static int root;
static atomic_bool stop;
static struct stat elsewhere;

struct worker {
    const char *name;
    const char *directory;         /* of its own, so that nobody else makes the link's target */
    int flags;
    unsigned long failed;
    atomic_ulong opened, refused, led, made, turns;
};

static int made_in(int dir, const char *name)
{
    sure(mkdirat(dir, name, 0755), name);
    return sure(openat(dir, name, O_PATH | O_DIRECTORY | O_CLOEXEC), name);
}

/*
 * Exchanges a directory without the name for one in which it is a link, again and again. It sees what was made
 * through the link, and takes away what the calls made in the other.
 */
static void *place(void *self)
{
    struct worker *me = self;
    int dir = sure(openat(root, me->directory, O_PATH | O_DIRECTORY | O_CLOEXEC), me->directory);
    int plain = made_in(dir, "d"), linked = made_in(dir, "e");
    for (unsigned turn = 0; !stop; turn++) {
        if (turn % 8 == 0) {
            unlinkat(linked, "f", 0);
            symlinkat(turn % 16 == 0 ? "target" : "/elsewhere", linked, "f");
        }
        syscall(SYS_renameat2, dir, "d", dir, "e", INROOT_EXCHANGE);
        me->made += unlinkat(linked, "target", 0) == 0;
        unlinkat(plain, "f", 0);
        me->turns++;
    }
    close(plain);
    close(linked);
    close(dir);
    return NULL;
}

static void *work(void *self)
{
    struct worker *me = self;
    struct stat about;
    char path[16];
    snprintf(path, sizeof path, "%s/d/f", me->directory);
    for (unsigned turn = 0; !stop; turn++) {
        int flags = me->flags | (turn % 2 ? INROOT_NO_RETRY : 0);
        int fd = inroot_openat(root, path, O_RDWR | O_CREAT, 0600, flags);
        me->opened += fd >= 0;
        me->refused += fd == -ELOOP;
        me->failed += fd < 0 && fd != -ELOOP;
        if (fd < 0)
            continue;
        me->led += fstat(fd, &about) == 0 && about.st_ino == elsewhere.st_ino && about.st_dev == elsewhere.st_dev;
        close(fd);
    }
    return NULL;
}

static bool follows(const struct worker *me)
{
    return !(me->flags & INROOT_NO_LINKS);
}

enum { WORKERS = 3, CONTROL = WORKERS - 1 };

/* Whether it is known that the race sees a hole before its time is over (checks/mutants --races). */
static const bool may_end_early = false;

/* Whether each came to a link: to be led there, or to be refused. */
static bool is_met(const void *race)
{
    const struct worker *workers = race;
    bool met = true;
    for (int one = 0; one < WORKERS; one++)
        met = met && workers[one].opened > 0 && (follows(&workers[one]) ? workers[one].led : workers[one].refused) > 0;
    return met;
}

static bool is_enough(const void *race)
{
    const struct worker *workers = race;
    bool enough = workers[CONTROL].led >= ENOUGH_LED;
    for (int one = 0; one < WORKERS; one++) {
        const struct worker *w = &workers[one];
        enough = enough && w->turns >= ENOUGH_MOVES && w->opened >= ENOUGH_DONE && w->opened + w->refused >= ENOUGH_CALLS &&
                 (follows(w) || w->refused >= ENOUGH_DONE);
    }
    return enough;
}

static void judge(const struct worker *me)
{
    printf("links_race: %s: opened %lu, refused %lu, failed %lu; led to a file by a link %lu, made by one %lu\n", me->name,
           (unsigned long)me->opened, (unsigned long)me->refused, me->failed, (unsigned long)me->led, (unsigned long)me->made);
    gives_least(me->opened, 1, "%s: what was opened", me->name);
    if (follows(me))
        return;
    gives((long)me->led, 0, "%s: links that were followed", me->name);
    gives((long)me->made, 0, "%s: what was made behind a link", me->name);
    gives_least((long)me->refused, 1, "%s: links that were refused", me->name);
}

int main(int count, char **words)
{
    struct worker workers[WORKERS] = {
        {.name = "by the kernel's walk", .directory = "a", .flags = INROOT_NO_LINKS},
        {.name = "with INROOT_EXACT", .directory = "b", .flags = INROOT_NO_LINKS | INROOT_EXACT},
        {.name = "without the flag", .directory = "c"},
    };
    const struct goals goals = {is_met, may_end_early ? is_enough : NULL};
    pthread_t threads[WORKERS], placers[WORKERS];
    if (count != 3)
        return 2;
    root = sure(open(words[1], O_PATH | O_DIRECTORY | O_CLOEXEC), words[1]);
    sure(mknodat(root, "elsewhere", S_IFREG | 0600, 0), "elsewhere");
    sure(fstatat(root, "elsewhere", &elsewhere, AT_SYMLINK_NOFOLLOW), "elsewhere");
    open_proc();
    int before = open_descriptors();
    for (int one = 0; one < WORKERS; one++) {
        sure(mkdirat(root, workers[one].directory, 0755), "mkdirat");
        pthread_create(&placers[one], NULL, place, &workers[one]);
        pthread_create(&threads[one], NULL, work, &workers[one]);
    }
    wait_for_race((unsigned)atoi(words[2]), &goals, workers);
    stop = true;
    for (int one = 0; one < WORKERS; one++) {
        pthread_join(threads[one], NULL);
        pthread_join(placers[one], NULL);
        judge(&workers[one]);
    }
    gives(open_descriptors(), before, "descriptors that are open");
    printf("links_race: %d not as they are to be\n", wrong);
    return ending(workers[CONTROL].led > 0);
}
