/*
 * tree: one call removes an entry with everything below, with 64 descriptors and in less than 64 megabytes: trees of
 * 5,000 and 40,000 levels (2,100 and 16,400 under sanitizers), the deepest after a call that was refused at its end;
 * and 1,000,000 files in one directory (650,000 in the gate). Somebody moves a directory while the call is below it. To
 * be linked with --wrap=unlinkat and --wrap=syscall.
 *
 * usage: tree DIR ENTRIES. Exits 0 where each is removed by one call, and nothing else is.
 */
#define _GNU_SOURCE
#include "support.h"
#include "wraps.h"

#include <errno.h>
#include <fcntl.h>
#include <string.h>
#include <sys/resource.h>
#include <sys/stat.h>
#include <sys/syscall.h>

/* A sanitizer takes memory of its own, and time. One proved call goes 20 directories deep, and all that are kept 4,160. */
#if defined(__has_feature)
#if __has_feature(address_sanitizer)
#define MEGABYTES 4096
#define DEEP 2100
#define DEEPER 4400
#endif
#endif
#ifndef MEGABYTES
#define MEGABYTES 64
#define DEEP 5000
#define DEEPER 40000
#endif

/* Those of the test itself, and at most 40 of the call. */
enum { DESCRIPTORS = 48 };

static int base, root;
static long entries;

/* ---- what happens in the midst of a call */

static void (*before_directory)(void);
static int refusal;

int __wrap_unlinkat(int dir, const char *name, int flags)
{
    if (refusal != 0 && flags == AT_REMOVEDIR) {
        errno = refusal;
        return -1;
    }
    if (flags == AT_REMOVEDIR && before_directory != NULL) {
        void (*now)(void) = before_directory;
        before_directory = NULL;
        now();
    }
    return __real_unlinkat(dir, name, flags);
}

static bool has_long_name;

/* Once, a name of 300 bytes in a directory, as some file systems have. Takes more words than were handed in. */
static long my_syscall(long number, const long *with)
{
    if (number != SYS_getdents64 || !has_long_name)
        return REAL_SYSCALL(number, with);
    const unsigned short length = 19 + 301;
    char *record = (char *)with[1];
    has_long_name = false;
    memset(record, 0, length);
    memcpy(record + 16, &length, sizeof length);
    memset(record + 19, 'n', 300);
    return length;
}

INSTEAD_OF_SYSCALL(my_syscall)

/* ---- trees */

static int make_in(int dir, const char *name)
{
    sure(mkdirat(dir, name, 0755), name);
    return sure(openat(dir, name, O_PATH | O_DIRECTORY | O_CLOEXEC), name);
}

/* A chain of so many directories, called `t` at the top, with a file beside every hundredth. Gives how many entries. */
static long make_chain(long depth)
{
    long count = 0;
    int dir = fcntl(root, F_DUPFD_CLOEXEC, 0);
    for (long at = 0; at < depth; at++) {
        if (at > 0 && at % 100 == 0) {
            sure(mknodat(dir, "f", S_IFREG | 0600, 0), "f");
            count++;
        }
        int next = make_in(dir, at == 0 ? "t" : "d");
        count++;
        close(dir);
        dir = next;
    }
    close(dir);
    return count;
}

static void make_files(int dir, long count)
{
    char name[32];
    for (long at = 0; at < count; at++) {
        snprintf(name, sizeof name, "file%ld", at);
        sure(mknodat(dir, name, S_IFREG | 0600, 0), name);
    }
}

/* Removes `t`, and looks at what that took. */
static void remove_it(const char *what, long count)
{
    struct rlimit few = {.rlim_cur = DESCRIPTORS, .rlim_max = DESCRIPTORS};
    struct rusage used;
    int before = open_descriptors();
    sure(setrlimit(RLIMIT_NOFILE, &few), "setrlimit");
    ssize_t removed = inroot_remove_all(root, "t", 0);
    gives(removed, count, "%s: entries removed", what);
    sure(getrusage(RUSAGE_SELF, &used), "getrusage");
    gives_most(used.ru_maxrss, MEGABYTES * 1024 - 1, "%s: kilobytes", what);
    gives_most(open_descriptors() - before, 1, "%s: descriptors left open", what);
    gives(faccessat(root, "t", F_OK, AT_SYMLINK_NOFOLLOW), -1, "%s: the tree, asked for", what);
    gives(errno, ENOENT, "%s: the tree, asked for: errno", what);
    printf("tree: %s: %ld entries, %ld kilobytes\n", what, count, used.ru_maxrss);
}

static void deep(void)
{
    remove_it("directories, each in the one before", make_chain(DEEP));
}

/* Deeper than one proved call goes. The call reports a refusal there as anywhere, and the next call removes all. */
static void deeper(void)
{
    struct inroot_error why;
    long count = make_chain(DEEPER);
    int before = open_descriptors();
    refusal = EIO;
    ssize_t removed = inroot_remove_all(root, "t", 0);
    gives(removed, -EIO, "a removal that is refused far below");
    gives_most(open_descriptors() - before, 1, "the same: descriptors left open");
    gives(inroot_last_error(&why), 0, "what is told of it");
    gives(why.error, EIO, "the error that is told of it");
    gives_text(why.step, "RemoveDir", "the step that is told of it");
    gives_text(why.name, "d", "the name that is told of it");
    refusal = 0;
    remove_it("more directories, each in the one before", count);
}

static void many(void)
{
    int dir = make_in(root, "t");
    make_files(dir, entries);
    close(dir);
    remove_it("files in one directory", entries + 1);
}

/* At each of many levels more names than a part of them has. */
static void many_and_deep(void)
{
    long count = 0;
    int dir = make_in(root, "t");
    for (int at = 0; at < 60; at++) {
        make_files(dir, 1000);
        int next = make_in(dir, "d");
        count += 1001;
        close(dir);
        dir = next;
    }
    close(dir);
    remove_it("1,000 files beside each of 60 directories", count + 1);
}

/* The longest names, at each level. */
static void long_names(void)
{
    char name[256];
    memset(name, 'x', 255);
    name[255] = 0;
    int dir = make_in(root, "t");
    for (int at = 0; at < 300; at++) {
        name[0] = 'y';
        sure(mknodat(dir, name, S_IFREG | 0600, 0), "long");
        name[0] = 'x';
        int next = make_in(dir, name);
        close(dir);
        dir = next;
    }
    close(dir);
    remove_it("names of 255 bytes", 601);
}

/* A name that is none elsewhere can't be asked for, and is told as such. */
static void too_long_name(void)
{
    close(make_in(root, "t"));
    has_long_name = true;
    ssize_t removed = inroot_remove_all(root, "t", 0);
    gives(removed, -ENAMETOOLONG, "a name of 300 bytes");
    removed = inroot_remove_all(root, "t", 0);
    gives(removed, 1, "the same without it");
}

/* ---- more than one directory in each */

/* So many directories, each in the one before, and in each beside it two more that are as deep. */
static long make_bush(int levels)
{
    long count = 1;
    int dir = make_in(root, "t");
    for (int level = 0; level < levels; level++) {
        for (const char *name = "d\0e\0f\0"; *name != 0; name += 2) {
            int below = make_in(dir, name);
            count++;
            for (int deeper = 0; *name != 'd' && deeper < levels; deeper++, count++) {
                int next = make_in(below, "d");
                close(below);
                below = next;
            }
            close(below);
        }
        int next = sure(openat(dir, "d", O_PATH | O_DIRECTORY | O_CLOEXEC), "d");
        close(dir);
        dir = next;
    }
    close(dir);
    return count;
}

static void bush(void)
{
    remove_it("three directories in each of 50, two of them as deep", make_bush(50));
}

/* ---- a directory that is moved */

static int out;

/* As the deepest directory is about to be removed: the fiftieth goes to where entries have the names of those that are due. */
static void move_out(void)
{
    char path[256] = "t";
    for (int at = 0; at < 49; at++)
        strcat(path, "/d");
    sure(renameat(root, path, out, "d"), "renameat");
}

static bool has(int dir, const char *name)
{
    return faccessat(dir, name, F_OK, AT_SYMLINK_NOFOLLOW) == 0;
}

static void moved(void)
{
    out = make_in(base, "out");
    make_files(out, 10);
    int dir = make_in(root, "t");
    for (int at = 0; at < 100; at++) {
        make_files(dir, 10);
        int next = make_in(dir, "d");
        close(dir);
        dir = next;
    }
    close(dir);
    before_directory = move_out;
    ssize_t removed = inroot_remove_all(root, "t", 0);
    /* What was below the directory that was moved is the call's, too, as long as it is there. */
    gives_least(removed, 49 * 11 + 1, "a directory is moved: entries removed");
    expect(!has(root, "t"), "a directory is moved: the others are there still");
    expect(has(out, "file0") && has(out, "file9") && has(out, "d"), "a directory is moved: something outside was removed");
    gives_least(inroot_remove_all(base, "out/d", 0), 0, "the entries of out/d");
    dir = make_in(root, "t");
    for (int at = 0; at < 100; at++) {
        int next = make_in(dir, "d");
        close(dir);
        dir = next;
    }
    close(dir);
    before_directory = move_out;
    removed = inroot_remove_all(root, "t", INROOT_NO_RETRY);
    gives_least(removed, 50, "a directory is moved, and one try: entries removed");
    expect(!has(root, "t"), "a directory is moved, and one try: the others are there still");
    expect(has(out, "file0") && has(out, "d"), "a directory is moved, and one try: something outside was removed");
}

int main(int count, char **words)
{
    static void (*const parts[])(void) = {deep, deeper, bush, many, many_and_deep, long_names, too_long_name, moved};
    if (count != 3)
        return 2;
    base = sure(open(words[1], O_PATH | O_DIRECTORY | O_CLOEXEC), words[1]);
    entries = atol(words[2]);
    for (size_t at = 0; at < sizeof parts / sizeof *parts; at++) {
        const char name[] = {'r', (char)('0' + at), 0};
        root = make_in(base, name);
        apart(parts[at]);
        close(root);
    }
    printf("tree: %d not as they are to be\n", wrong);
    return wrong != 0;
}
