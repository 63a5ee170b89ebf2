/* Times openat2(2) with RESOLVE_IN_ROOT along the same paths as crates/bench, over files of a temporary folder:
 *
 *     openat2 FOLDER        FOLDER is empty, and best on a tmpfs
 *
 * A line for each workload: its name and the nanoseconds of one openat2(2) and close(2), the least of fifteen rounds. */
#define _GNU_SOURCE
#include <errno.h>
#include <fcntl.h>
#include <linux/openat2.h>
#include <stdio.h>
#include <stdlib.h>
#include <string.h>
#include <sys/stat.h>
#include <sys/syscall.h>
#include <time.h>
#include <unistd.h>

#define ROUNDS 15
#define ROUND_NANOSECONDS 20e6
#define NAMES 64

static void give_up(const char *what) {
    perror(what);
    exit(1);
}

static double now(void) {
    struct timespec time;
    clock_gettime(CLOCK_MONOTONIC, &time);
    return time.tv_sec * 1e9 + time.tv_nsec;
}

static void make_directory(int dir, const char *name) {
    if (mkdirat(dir, name, 0700)) give_up(name);
}

static void make_file(int dir, const char *name) {
    if (mknodat(dir, name, S_IFREG | 0600, 0)) give_up(name);
}

static int enter(int dir, const char *name) {
    int fd = openat(dir, name, O_PATH | O_DIRECTORY | O_CLOEXEC);
    if (fd < 0) give_up(name);
    return fd;
}

/* Resolves so many paths in turn, and gives the nanoseconds of one. */
static double time_round(int root, char paths[][128], int count, long resolutions) {
    struct open_how how = {.flags = O_PATH | O_CLOEXEC, .resolve = RESOLVE_IN_ROOT};
    double start = now();
    for (long at = 0; at < resolutions; at++) {
        int fd;
        /* A rename anywhere in the system is enough for EAGAIN where a path has `..`. */
        do fd = syscall(SYS_openat2, root, paths[at % count], &how, sizeof how);
        while (fd < 0 && errno == EAGAIN);
        if (fd >= 0)
            close(fd);
        else if (errno != ENOENT)
            give_up("openat2");
    }
    return (now() - start) / resolutions;
}

static void tell(const char *name, int root, char paths[][128], int count) {
    double least = time_round(root, paths, count, 2000);
    long resolutions = ROUND_NANOSECONDS / least;
    for (int at = 0; at < ROUNDS; at++) {
        double each = time_round(root, paths, count, resolutions);
        if (each < least) least = each;
    }
    printf("%s\t%.0f\n", name, least);
    fflush(stdout);
}

static void tell_one(const char *name, int root, const char *path) {
    char paths[1][128];
    snprintf(paths[0], sizeof paths[0], "%s", path);
    tell(name, root, paths, 1);
}

/* Names that are there and that aren't, in a directory of so many files. */
static void tell_files(int top, int files) {
    char name[64], paths[NAMES][128];
    snprintf(name, sizeof name, "files_%d", files);
    make_directory(top, name);
    int root = enter(top, name);
    for (int at = 0; at < files; at++) {
        snprintf(name, sizeof name, "e%06d", at);
        make_file(root, name);
    }
    for (int is_absent = 0; is_absent < 2; is_absent++) {
        for (int at = 0; at < NAMES; at++)
            snprintf(paths[at], sizeof paths[at], "%c%06d", is_absent ? 'x' : 'e', at * 7919 % files);
        snprintf(name, sizeof name, "%s_%d", is_absent ? "absent" : "present", files);
        tell(name, root, paths, NAMES);
    }
}

int main(int words, char **word) {
    if (words != 2) return fprintf(stderr, "usage: openat2 FOLDER\n"), 2;
    int top = enter(AT_FDCWD, word[1]);
    make_directory(top, "mixed");
    int root = enter(top, "mixed");
    make_directory(root, "a");
    make_directory(root, "a/b");
    make_file(root, "a/b/f");
    make_directory(root, "k");
    if (symlinkat("/a/b", root, "abs")) give_up("abs");
    for (int at = 1; at <= 40; at++) {
        char name[16], to[16];
        snprintf(name, sizeof name, "k%d", at);
        snprintf(to, sizeof to, at == 1 ? "a" : "k%d", at - 1);
        if (symlinkat(to, root, name)) give_up(name);
    }
    for (int at = 0, dir = root; at < 32; at++) {
        make_directory(dir, "dd");
        dir = enter(dir, "dd");
    }
    char deep[128] = "dd";
    for (int at = 1; at < 32; at++) strcat(deep, "/dd");
    tell_one("names", root, "a/b/f");
    tell_one("depth_32", root, deep);
    tell_one("absolute_link", root, "abs/f");
    tell_one("links_40", root, "k40");
    tell_one("parents", root, "k/../k/../k/../k/..");
    tell_files(top, 10);
    tell_files(top, 1000);
    return 0;
}
