/*
 * bulk: directories are made and removed with all below them, while another thread exchanges them for links that lead out
 * of the root. Nothing outside may be made or removed.
 *
 * usage: bulk DIR SECONDS. Exits 0 where that holds.
 */
#define _GNU_SOURCE
#include "support.h"

#include <dirent.h>
#include <errno.h>
#include <fcntl.h>
#include <limits.h>
#include <pthread.h>
#include <stdatomic.h>
#include <stdbool.h>
#include <string.h>
#include <sys/stat.h>
#include <sys/syscall.h>
#include <time.h>
#include <unistd.h>

static int base, root;
static char outside[PATH_MAX + 8];
static atomic_bool stop;
static atomic_ulong swaps;

/* What one thread did. */
struct worker {
    const char *name;
    int flags;
    unsigned long made, removed, failed;
};

static void *work(void *self)
{
    struct worker *me = self;
    while (!stop) {
        int fd = inroot_mkdir_all(root, "x/d/e/f", 0755, me->flags);
        me->made += fd >= 0;
        if (fd >= 0)
            close(fd);
        ssize_t count = inroot_remove_all(root, "x/d", me->flags);
        me->removed += count > 0 ? (unsigned long)count : 0;
        me->failed += (fd < 0) + (count < 0);
    }
    return NULL;
}

/* Exchanges an entry at a depth below the root for the link. It follows no link: by one of its own it would leave the root. */
static void exchange(size_t depth)
{
    static const char *const names[] = {"x", "d", "e", "f"};
    int dir = root;
    for (size_t at = 0; at < depth && dir >= 0; at++) {
        int next = openat(dir, names[at], O_PATH | O_DIRECTORY | O_NOFOLLOW | O_CLOEXEC);
        if (dir != root)
            close(dir);
        dir = next;
    }
    if (dir < 0)
        return;
    syscall(SYS_renameat2, dir, names[depth], root, "link", RENAME_EXCHANGE);
    close(dir);
}

/* Puts a link that leads out in the place of a directory, and back. */
static void *swap(void *self)
{
    uint64_t state = 0x2545f4914f6cdd1d;
    while (!stop) {
        size_t depth = 1 + pick(&state, 3);
        exchange(depth);
        exchange(depth);
        /* What the others removed meanwhile. */
        symlinkat(outside, root, "link");
        swaps++;
    }
    return self;
}

/* How many entries a directory has, `.` and `..` among them. */
static int entries(const char *dir)
{
    int count = 0;
    DIR *all = fdopendir(sure(openat(base, dir, O_RDONLY | O_DIRECTORY | O_CLOEXEC), dir));
    while (readdir(all) != NULL)
        count++;
    closedir(all);
    return count;
}

/* Everything outside is as it was: a directory in a directory, with another one and a file. */
static bool is_untouched(void)
{
    static const char *const kept[] = {"out/e/f", "out/e/keep"};
    struct stat about;
    for (size_t at = 0; at < sizeof kept / sizeof *kept; at++)
        if (fstatat(base, kept[at], &about, AT_SYMLINK_NOFOLLOW) != 0)
            return false;
    return entries("out") == 3 && entries("out/e") == 4 && entries("out/e/f") == 2;
}

int main(int count, char **words)
{
    struct worker workers[] = {{.name = "by the kernel's walk"}, {.name = "with INROOT_EXACT", .flags = INROOT_EXACT}};
    static const char *const dirs[] = {"root", "root/x", "out", "out/e", "out/e/f"};
    pthread_t swapper, threads[2];
    if (count != 3)
        return 2;
    base = sure(open(words[1], O_PATH | O_DIRECTORY | O_CLOEXEC), words[1]);
    if (realpath(words[1], outside) == NULL)
        return 1;
    strcat(outside, "/out");
    for (size_t at = 0; at < sizeof dirs / sizeof *dirs; at++)
        sure(mkdirat(base, dirs[at], 0755), dirs[at]);
    sure(mknodat(base, "out/e/keep", S_IFREG | 0600, 0), "keep");
    root = sure(openat(base, "root", O_PATH | O_DIRECTORY | O_CLOEXEC), "root");
    open_proc();
    int before = open_descriptors();
    pthread_create(&swapper, NULL, swap, NULL);
    for (int at = 0; at < 2; at++)
        pthread_create(&threads[at], NULL, work, &workers[at]);
    sleep((unsigned)atoi(words[2]));
    stop = true;
    pthread_join(swapper, NULL);
    for (int at = 0; at < 2; at++) {
        pthread_join(threads[at], NULL);
        printf("bulk: %s: %lu made, %lu entries removed, %lu failed\n", workers[at].name, workers[at].made, workers[at].removed, workers[at].failed);
    }
    int left = open_descriptors() - before;
    bool untouched = is_untouched();
    printf("bulk: %lu swaps, what is outside is %s, %d descriptors left open\n", (unsigned long)swaps, untouched ? "untouched" : "CHANGED", left);
    bool met = true;
    for (int at = 0; at < 2; at++)
        met = met && workers[at].made > 0 && workers[at].removed > 0;
    return !untouched || left != 0 || !met;
}
