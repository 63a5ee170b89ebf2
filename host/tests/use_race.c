/*
 * use_race: calls read, write, make, publish, link, look at (stat) and change files (mode, times, an attribute) below a
 * directory that another thread exchanges for a link out of the root. Nothing outside is read, made, linked or changed.
 *
 * usage: use_race DIR SECONDS. Exits 0 where that holds, and a walk without checks was led out. 79: that walk was not
 * led out.
 */
#define _GNU_SOURCE
#include "support.h"
#include "until.h"

#include <errno.h>
#include <limits.h>
#include <pthread.h>
#include <stdatomic.h>
#include <string.h>
#include <sys/stat.h>
#include <sys/syscall.h>
#include <sys/xattr.h>

static int base, root;
static char outside[PATH_MAX + 8];
static atomic_bool stop;
static atomic_ulong swaps, led_out;
static struct stat secret;

enum { DOINGS = 8 };

struct worker {
    const char *name;
    atomic_ulong done[DOINGS], failed;
    unsigned long escaped;
    int flags;
};

static bool is_secret(int fd)
{
    struct stat about;
    return fstat(fd, &about) == 0 && about.st_ino == secret.st_ino && about.st_dev == secret.st_dev;
}

static int read_it(int at, struct worker *me)
{
    char text[16];
    int fd = inroot_openat(at, "x/d/f", O_RDONLY, 0, me->flags);
    if (fd < 0)
        return fd;
    ssize_t length = read(fd, text, sizeof text);
    me->escaped += length != 6 || memcmp(text, "inside", 6) != 0;
    return fd;
}

static int write_it(int at, struct worker *me, int how)
{
    int fd = inroot_openat(at, "x/d/new", O_WRONLY | O_CREAT | how, 0600, me->flags);
    if (fd == -EEXIST)
        inroot_unlink(at, "x/d/new", 0);
    if (fd < 0)
        return fd;
    me->escaped += is_secret(fd) || write(fd, "new", 3) != 3;
    inroot_unlink(at, "x/d/new", 0);
    return fd;
}

static int publish(int at, const struct worker *me)
{
    int fd = inroot_openat(at, "x/d", O_WRONLY | O_TMPFILE, 0600, me->flags);
    int failed = fd < 0 ? fd : inroot_link_fd(at, fd, "x/d/whole", me->flags);
    if (fd >= 0)
        close(fd);
    if (failed == 0 || failed == -EEXIST)
        inroot_unlink(at, "x/d/whole", 0);
    return failed;
}

static int link_it(int at, struct worker *me)
{
    struct stat about;
    int failed = inroot_link(at, "x/d/f", "x/second", me->flags);
    if (failed == -EEXIST)
        inroot_unlink(at, "x/second", 0);
    if (failed == 0) {
        me->escaped += inroot_stat(at, "x/second", &about, 0) == 0 && about.st_ino == secret.st_ino;
        inroot_unlink(at, "x/second", 0);
    }
    return failed;
}

static int tell(int at, struct worker *me)
{
    struct stat about;
    int failed = inroot_stat(at, "x/d/f", &about, me->flags);
    me->escaped += failed == 0 && about.st_ino == secret.st_ino;
    return failed;
}

static int make_node(int at, const struct worker *me)
{
    int failed = inroot_mknod(at, "x/d/node", S_IFIFO | 0600, 0, me->flags);
    if (failed == 0 || failed == -EEXIST)
        inroot_unlink(at, "x/d/node", 0);
    return failed;
}

/* What is found gets another mode, other times and an attribute, where the file system has some. */
static int change_it(int at, struct worker *me)
{
    const struct timespec times[2] = {{1, 2}, {3, 4}};
    int fd = inroot_open(at, "x/d/f", me->flags);
    if (fd < 0)
        return fd;
    int set = inroot_fsetxattr(fd, "user.raced", "x", 1, 0);
    expect(inroot_fchmod(fd, 0640) == 0 && inroot_futimens(fd, times) == 0, "what was found isn't changed");
    expect(set == 0 || set == -EOPNOTSUPP, "it gets no attribute: %d", set);
    me->escaped += is_secret(fd);
    return fd;
}

static int doing(int which, int at, struct worker *me)
{
    switch (which) {
    case 0: return read_it(at, me);
    case 1: return write_it(at, me, 0);
    case 2: return write_it(at, me, O_EXCL);
    case 3: return publish(at, me);
    case 4: return link_it(at, me);
    case 5: return tell(at, me);
    case 6: return make_node(at, me);
    default: return change_it(at, me);
    }
}

static void *work(void *self)
{
    struct worker *me = self;
    for (int which = 0; !stop; which = (which + 1) % DOINGS) {
        int result = doing(which, root, me);
        me->done[which] += result >= 0;
        me->failed += result < 0;
        if (result > 0)
            close(result);
    }
    return NULL;
}

/* Puts a link that leads out in the place of the directory, and back. It follows no link itself. */
static void *swap(void *self)
{
    int dir = sure(openat(root, "x", O_PATH | O_DIRECTORY | O_CLOEXEC), "x");
    while (!stop) {
        syscall(SYS_renameat2, dir, "d", root, "link", RENAME_EXCHANGE);
        syscall(SYS_renameat2, dir, "d", root, "link", RENAME_EXCHANGE);
        swaps++;
    }
    close(dir);
    return self;
}

/* What leads a program out that checks nothing. */
static void *walk_unchecked(void *self)
{
    while (!stop) {
        int fd = openat(root, "x/d/f", O_RDONLY | O_CLOEXEC);
        if (fd >= 0) {
            led_out += is_secret(fd);
            close(fd);
        }
    }
    return self;
}

static void write_file(const char *name, const char *text)
{
    int fd = sure(openat(base, name, O_WRONLY | O_CREAT | O_CLOEXEC, 0600), name);
    sure((int)write(fd, text, strlen(text)), name);
    close(fd);
}

/* Everything outside is as it was: a directory with one file, which has its text and no second name. */
static bool is_untouched(void)
{
    struct stat about, file;
    char text[16];
    int fd = sure(openat(base, "out/f", O_RDONLY | O_CLOEXEC), "out/f");
    bool same = read(fd, text, sizeof text) == 7 && memcmp(text, "outside", 7) == 0;
    sure(fstat(fd, &file), "out/f");
    same = same && file.st_mode == secret.st_mode && file.st_mtim.tv_sec == secret.st_mtim.tv_sec &&
           fgetxattr(fd, "user.raced", text, sizeof text) < 0;
    close(fd);
    sure(fstatat(base, "out", &about, 0), "out");
    return same && file.st_nlink == 1 && file.st_ino == secret.st_ino && unlinkat(base, "out/f", 0) == 0 &&
           unlinkat(base, "out", AT_REMOVEDIR) == 0;
}

static void begin(const char *dir)
{
    static const char *const dirs[] = {"root", "root/x", "root/x/d", "out"};
    base = sure(open(dir, O_PATH | O_DIRECTORY | O_CLOEXEC), dir);
    if (realpath(dir, outside) == NULL)
        exit(1);
    strcat(outside, "/out");
    for (size_t one = 0; one < sizeof dirs / sizeof *dirs; one++)
        sure(mkdirat(base, dirs[one], 0755), dirs[one]);
    write_file("root/x/d/f", "inside");
    write_file("out/f", "outside");
    sure(fstatat(base, "out/f", &secret, 0), "out/f");
    root = sure(openat(base, "root", O_PATH | O_DIRECTORY | O_CLOEXEC), "root");
    sure(symlinkat(outside, root, "link"), "link");
    open_proc();
}

enum { WORKERS = 2 };

/* Whether each did each of these so often, and the walk without checks was led out so often. */
static bool has_come_to(const struct worker *workers, unsigned long least_done, unsigned long least_led)
{
    bool come = led_out >= least_led;
    for (int one = 0; one < WORKERS * DOINGS; one++)
        come = come && workers[one / DOINGS].done[one % DOINGS] >= least_done;
    return come;
}

static bool is_met(const void *race)
{
    return has_come_to(race, 1, 1);
}

static bool is_enough(const void *race)
{
    const struct worker *workers = race;
    bool enough = swaps >= ENOUGH_MOVES && has_come_to(workers, ENOUGH_DONE, ENOUGH_LED);
    for (int one = 0; one < WORKERS; one++)
        enough = enough && workers[one].failed >= ENOUGH_CALLS;
    return enough;
}

static void judge(struct worker *me)
{
    printf("use_race: %s: read %lu, wrote %lu and %lu, named %lu, linked %lu, told %lu, nodes %lu, changed %lu, failed %lu; "
           "escaped %lu\n",
           me->name, (unsigned long)me->done[0], (unsigned long)me->done[1], (unsigned long)me->done[2],
           (unsigned long)me->done[3], (unsigned long)me->done[4], (unsigned long)me->done[5], (unsigned long)me->done[6],
           (unsigned long)me->done[7], (unsigned long)me->failed, me->escaped);
    gives((long)me->escaped, 0, "%s: escaped", me->name);
    for (int which = 0; which < DOINGS; which++)
        gives_least(me->done[which], 1, "%s: successes of doing %d", me->name, which);
}

int main(int count, char **words)
{
    struct worker workers[WORKERS] = {{.name = "by the kernel's walk"}, {.name = "with INROOT_EXACT", .flags = INROOT_EXACT}};
    static const struct goals goals = {is_met, is_enough};
    pthread_t swapper, threads[WORKERS], unchecked;
    if (count != 3)
        return 2;
    begin(words[1]);
    int before = open_descriptors();
    pthread_create(&swapper, NULL, swap, NULL);
    pthread_create(&unchecked, NULL, walk_unchecked, NULL);
    for (int one = 0; one < WORKERS; one++)
        pthread_create(&threads[one], NULL, work, &workers[one]);
    wait_for_race((unsigned)atoi(words[2]), &goals, workers);
    stop = true;
    pthread_join(swapper, NULL);
    pthread_join(unchecked, NULL);
    for (int one = 0; one < WORKERS; one++) {
        pthread_join(threads[one], NULL);
        judge(&workers[one]);
    }
    int left = open_descriptors() - before;
    bool untouched = is_untouched();
    printf(
        "use_race: %lu swaps, a walk without checks was led out %lu times, what is outside is %s, %d descriptors "
        "left open\n",
        (unsigned long)swaps, (unsigned long)led_out, untouched ? "untouched" : "CHANGED", left);
    gives(left, 0, "descriptors left open");
    expect(untouched, "something outside was changed");
    return ending(led_out > 0);
}
