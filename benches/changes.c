/*
 * Times what is made, renamed and removed below a directory, and a file that is opened to be read, and counts system calls:
 * by hand, which is openat2(2) of the directory, the one system call and close(2), and by libinroot.
 *
 *     changes FOLDER ROUNDS      FOLDER is empty, and best on a tmpfs
 *
 * Of each change the least of ROUNDS counts, and what it takes to read the clock is taken off. A line for each: what is done,
 * and microseconds and system calls by hand, by libinroot and with INROOT_EXACT.
 */
#define _GNU_SOURCE
#include "../host/inroot.h"
#include "../host/openat2.h"
#include "measure.h"

#include <fcntl.h>
#include <stdio.h>
#include <stdlib.h>
#include <sys/stat.h>

#define ABOVE "d0/d1/d2/"

enum way { HAND, INROOT, EXACT, WAYS };
enum change { MAKE_DIRECTORY, RENAME_DIRECTORY, REMOVE_DIRECTORY, MAKE_FILE, RENAME_FILE, REMOVE_FILE, MAKE_LINK, RENAME_LINK,
              REMOVE_LINK, OPEN_FILE, CHANGES };

static const char *const names[CHANGES] = {
    "a directory made", "a directory renamed", "a directory removed", "a file made", "a file renamed", "a file removed",
    "a link made", "a link renamed", "a link removed", "a file opened to be read",
};

static int top;
static enum way way;

static int look_up(const char *path, uint64_t how_opened)
{
    const struct open_how how = {.flags = how_opened | O_CLOEXEC, .resolve = RESOLVE_IN_ROOT};
    return (int)syscall(SYS_openat2, top, path, &how, sizeof how);
}

static int by_hand(enum change change)
{
    if (change == OPEN_FILE)
        return look_up(ABOVE "file", O_RDONLY);
    int dir = look_up(ABOVE, O_PATH | O_DIRECTORY), done = -1;
    int other = change % 3 == 1 ? look_up(ABOVE, O_PATH | O_DIRECTORY) : -1;
    switch (change) {
    case MAKE_DIRECTORY: done = mkdirat(dir, "new", 0755); break;
    case MAKE_FILE: done = mknodat(dir, "new", S_IFREG | 0644, 0); break;
    case MAKE_LINK: done = symlinkat("text", dir, "new"); break;
    case REMOVE_DIRECTORY: done = unlinkat(dir, "other", AT_REMOVEDIR); break;
    case REMOVE_FILE: case REMOVE_LINK: done = unlinkat(dir, "other", 0); break;
    default: done = renameat2(dir, "new", other, "other", 0); break;
    }
    if (other >= 0)
        close(other);
    close(dir);
    return done;
}

static int by_inroot(enum change change, int flags)
{
    switch (change) {
    case MAKE_DIRECTORY: return inroot_mkdir(top, ABOVE "new", 0755, flags);
    case MAKE_FILE: return inroot_mknod(top, ABOVE "new", S_IFREG | 0644, 0, flags);
    case MAKE_LINK: return inroot_symlink(top, "text", ABOVE "new", flags);
    case REMOVE_DIRECTORY: return inroot_rmdir(top, ABOVE "other", flags);
    case REMOVE_FILE: case REMOVE_LINK: return inroot_unlink(top, ABOVE "other", flags);
    case OPEN_FILE: return inroot_openat(top, ABOVE "file", O_RDONLY, 0, flags);
    default: return inroot_rename(top, ABOVE "new", ABOVE "other", INROOT_PLAIN, flags);
    }
}

static void make(enum change change)
{
    int given = way == HAND ? by_hand(change) : by_inroot(change, way == EXACT ? INROOT_EXACT : 0);
    if (given < 0) {
        fprintf(stderr, "changes: %s, by way %d: failed\n", names[change], way);
        exit(1);
    }
    if (change == OPEN_FILE)
        close(given);
}

/* What is counted: one change, in the middle of the three that belong together. count_calls() runs them in their order. */
static void make_one(int change)
{
    static int turn;
    if (turn++ % 2 == 1)
        make((enum change)change);
}

int main(int words, char **word)
{
    double calls[WAYS][CHANGES] = {{0}};
    long best[WAYS][CHANGES];
    if (words != 3)
        return fputs("usage: changes FOLDER ROUNDS\n", stderr), 2;
    top = open(word[1], O_PATH | O_DIRECTORY | O_CLOEXEC);
    way = INROOT;
    if (top < 0 || inroot_mkfile_all(top, ABOVE "file", 0644, 0755, 0) < 0)
        return perror(word[1]), 1;
    for (int turn = 0; turn < WAYS; turn++) {
        way = (enum way)turn;
        make(OPEN_FILE);
        count_calls(make_one, CHANGES, calls[way]);
        for (int change = 0; change < CHANGES; change++)
            best[way][change] = LONG_MAX;
    }
    for (int left = atoi(word[2]); left > 0; left--)
        for (int turn = 0; turn < WAYS * CHANGES; turn++) {
            int change = turn % CHANGES;
            way = (enum way)(turn / CHANGES);
            long from = now();
            make((enum change)change);
            long took = now() - from;
            best[way][change] = took < best[way][change] ? took : best[way][change];
        }
    long clock = clock_cost();
    printf("%-26s %16s %16s %16s\n", "", "by hand", "libinroot", "INROOT_EXACT");
    for (int change = 0; change < CHANGES; change++) {
        printf("%-26s", names[change]);
        for (int at = 0; at < WAYS; at++)
            printf("  %7.2f us (%2.0f)", (double)(best[at][change] - clock) / 1000, calls[at][change]);
        putchar('\n');
    }
    return 0;
}
