/*
 * Opens every path of a directory below it, and tells how long a path takes and how many system calls it makes, close(2)
 * included: of plain paths, of those that end in a link, and of those that `bin`, `lib` and the like lead into by a link.
 *
 *     paths ROOT MODE ROUNDS
 *
 * ROUNDS is a number, or `-`: then each line of standard input asks for one round and is answered by one, so that
 * several programs may take turns (benches/turns).
 *
 * MODE: openat2 (RESOLVE_IN_ROOT); naive (single openat(2) calls, no check); or libinroot: inroot, exact (INROOT_EXACT). Of
 * each path the least of ROUNDS counts, and what it takes to read the clock is taken off. Three lines: the kind of path, how
 * many there are and failed, the mean in microseconds, system calls of one path.
 */
#define _GNU_SOURCE
#include "../host/inroot.h"
#include "../host/openat2.h"
#include "measure.h"

#include <errno.h>
#include <fcntl.h>
#include <ftw.h>
#include <limits.h>
#include <stdbool.h>
#include <stdio.h>
#include <stdlib.h>
#include <string.h>
#include <sys/stat.h>
#include <unistd.h>

enum { MOST = 200000, KINDS = 3, LINKS = 40 };

static const char *const kinds[KINDS] = {"plain", "links", "by a link"};
static const char *const linked[] = {"bin", "lib", "lib64", "sbin"};

static struct {
    char *path;
    int kind;
    long best;
} paths[MOST];
static size_t count, above;
static int top, flags;
static char top_path[PATH_MAX];

static void give_up(const char *what)
{
    perror(what);
    exit(1);
}

/* ---- the paths */

static void add(const char *path, int kind)
{
    if (count == MOST)
        exit(1);
    paths[count].path = strdup(path);
    paths[count].kind = kind;
    paths[count++].best = LONG_MAX;
}

/* What is below `usr/bin` is found by `bin` too, where that is a link there. */
static void add_by_links(const char *path)
{
    char by[PATH_MAX];
    for (size_t at = 0; at < sizeof linked / sizeof *linked; at++) {
        struct stat about;
        size_t length = strlen(linked[at]);
        bool is_below = strncmp(path, "usr/", 4) == 0 && strncmp(path + 4, linked[at], length) == 0 && path[4 + length] == '/';
        if (is_below && fstatat(top, linked[at], &about, AT_SYMLINK_NOFOLLOW) == 0 && S_ISLNK(about.st_mode)) {
            snprintf(by, sizeof by, "%s", path + 4);
            add(by, 2);
        }
    }
}

static int take(const char *path, const struct stat *about, int what, struct FTW *where)
{
    (void)about;
    const char *below = path + above;
    struct stat target;
    if (where->level == 0)
        return 0;
    if (what != FTW_SL && what != FTW_SLN)
        add(below, 0);
    const struct open_how how = {.flags = O_PATH | O_CLOEXEC, .resolve = RESOLVE_IN_ROOT};
    int fd;
    /* The kernel refuses a path with `..` by EAGAIN while others rename. */
    do
        fd = what == FTW_SL || what == FTW_SLN ? (int)syscall(SYS_openat2, top, below, &how, sizeof how) : -1;
    while (fd < 0 && (what == FTW_SL || what == FTW_SLN) && errno == EAGAIN);
    if (fd >= 0 && fstat(fd, &target) == 0)
        add(below, 1);
    if (fd >= 0)
        close(fd);
    if (what != FTW_SL && what != FTW_SLN)
        add_by_links(below);
    return 0;
}

/* ---- other resolvers */

static char rest[4 * PATH_MAX], joined[4 * PATH_MAX];

/* Puts a link's text in front of what is left. */
static char *put(const char *text, const char *left)
{
    snprintf(joined, sizeof joined, "%s/%s", text, left);
    memcpy(rest, joined, strlen(joined) + 1);
    return rest;
}

/* Takes the next part off, or gives NULL. */
static char *next(char **left, char part[NAME_MAX + 1])
{
    *left += strspn(*left, "/");
    size_t length = strcspn(*left, "/");
    if (length == 0 || length > NAME_MAX)
        return NULL;
    memcpy(part, *left, length);
    part[length] = 0;
    *left += length;
    return part;
}

static int stack[PATH_MAX], depth;

static void drop_to(int least)
{
    while (depth > least)
        close(stack[depth--]);
}

static int naive(const char *path)
{
    char part[NAME_MAX + 1], text[PATH_MAX], *left = rest;
    int links = 0;
    struct stat about;
    snprintf(rest, sizeof rest, "%s", path);
    stack[depth = 0] = top;
    while (next(&left, part) != NULL) {
        if (strcmp(part, ".") == 0)
            continue;
        if (strcmp(part, "..") == 0) {
            drop_to(depth > 0 ? depth - 1 : 0);
            continue;
        }
        int fd = openat(stack[depth], part, O_PATH | O_NOFOLLOW | O_CLOEXEC);
        if (fd < 0 || fstat(fd, &about) != 0)
            return -errno;
        if (!S_ISLNK(about.st_mode)) {
            stack[++depth] = fd;
            continue;
        }
        ssize_t length = readlinkat(fd, "", text, sizeof text - 1);
        close(fd);
        if (length < 0 || ++links > LINKS)
            return -ELOOP;
        text[length] = 0;
        drop_to(text[0] == '/' ? 0 : depth);
        left = put(text, left);
    }
    int found = depth > 0 ? stack[depth--] : openat(top, ".", O_PATH | O_CLOEXEC);
    drop_to(0);
    return found;
}

static int by_openat2(const char *path)
{
    const struct open_how how = {.flags = O_PATH | O_CLOEXEC, .resolve = RESOLVE_IN_ROOT};
    int fd = (int)syscall(SYS_openat2, top, path, &how, sizeof how);
    return fd < 0 ? -errno : fd;
}

static int by_inroot(const char *path)
{
    return inroot_open(top, path, flags);
}

/* ---- modes */

static int (*open_by)(const char *path);

static bool is_mode(const char *mode, const char *name)
{
    return strcmp(mode, name) == 0;
}

static bool choose(const char *mode)
{
    open_by = is_mode(mode, "openat2") ? by_openat2 : is_mode(mode, "naive") ? naive : by_inroot;
    flags = is_mode(mode, "exact") ? INROOT_EXACT : 0;
    return open_by != by_inroot || flags != 0 || is_mode(mode, "inroot");
}

static size_t round_of(void)
{
    size_t failed = 0;
    for (size_t at = 0; at < count; at++) {
        long from = now();
        int fd = open_by(paths[at].path);
        if (fd >= 0)
            close(fd);
        long took = now() - from;
        failed += fd < 0;
        /* A path with `..` that the kernel refuses, since others rename, takes less. */
        paths[at].best = fd >= 0 && took < paths[at].best ? took : paths[at].best;
    }
    return failed;
}

static size_t make_rounds(const char *rounds)
{
    char line[8];
    size_t missed = 0;
    const bool by_turns = is_mode(rounds, "-");
    for (int left = by_turns ? INT_MAX : atoi(rounds); left > 0; left--) {
        if (by_turns && fgets(line, sizeof line, stdin) == NULL)
            break;
        missed = round_of();
        if (by_turns && (puts("") < 0 || fflush(stdout) != 0))
            break;
    }
    return missed;
}

/* Opens each path of one kind. */
static void open_kind(int kind)
{
    for (size_t at = 0; at < count; at++) {
        int fd = paths[at].kind == kind ? open_by(paths[at].path) : -1;
        if (fd >= 0)
            close(fd);
    }
}

int main(int words, char **word)
{
    double calls[KINDS] = {0};
    if (words != 4 || !choose(word[2]))
        return fputs("usage: paths ROOT openat2|naive|inroot|exact ROUNDS\n", stderr), 2;
    if (realpath(word[1], top_path) == NULL)
        give_up(word[1]);
    top = open(word[1], O_PATH | O_DIRECTORY | O_CLOEXEC);
    above = strlen(top_path) + 1;
    if (top < 0 || nftw(top_path, take, 64, FTW_PHYS) != 0)
        give_up(word[1]);
    count_calls(open_kind, KINDS, calls);
    size_t missed = make_rounds(word[3]);
    long clock = clock_cost();
    for (int kind = 0; kind < KINDS; kind++) {
        double sum = 0, of = 0;
        for (size_t at = 0; at < count; at++)
            if (paths[at].kind == kind) {
                sum += (double)(paths[at].best - clock);
                of++;
            }
        printf("%-8s %-9s %5.0f paths, %zu failed  %6.2f us  %5.2f calls\n", word[2], kinds[kind], of, missed, sum / of / 1000, calls[kind] / of);
    }
    return 0;
}
