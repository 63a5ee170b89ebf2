/*
 * fuzz_driver: the driver with system calls that fail by plan, and with others' changes between any two of them. Whatever comes,
 * no descriptor is left open, what is opened was inside once, and what is outside stays as it is.
 *
 * For libFuzzer, or with fuzz_main.c for stored cases. A case is bytes: who calls, the operation, flags, two paths by
 * their parts, and then one byte for each system call. Its tree is in INROOT_FUZZ_DIR, or a new directory here.
 */
#define _GNU_SOURCE
#include "../inroot.h"
#include "../openat2.h"
#include "wraps.h"

#include <dirent.h>
#include <errno.h>
#include <fcntl.h>
#include <pthread.h>
#include <semaphore.h>
#include <stdbool.h>
#include <stdint.h>
#include <stdio.h>
#include <stdlib.h>
#include <string.h>
#include <sys/stat.h>
#include <sys/syscall.h>
#include <sys/vfs.h>
#include <unistd.h>

int LLVMFuzzerTestOneInput(const uint8_t *data, size_t size);

#define MUST(holds) ((holds) ? (void)0 : (fprintf(stderr, "not so: %s\n", #holds), abort()))

static int base, root, out;
static struct stat secret;

/* The plan: a byte for each system call of the call under way, and none once they are used up. */
static struct {
    const uint8_t *at;
    size_t left;
    bool armed;
} plan;

static int opened_by_call;

/* ---- what others do in between */

static void change(unsigned which)
{
    plan.armed = false;
    switch (which % 8) {
    case 0: renameat(root, "a/b", out, "b"); break;
    case 1: renameat(out, "b", root, "a/b"); break;
    case 2: renameat(root, "a/b/c", out, "c"); break;
    case 3: renameat(out, "c", root, "a/b/c"); break;
    case 4: syscall(SYS_renameat2, root, "a/b", out, "d", 2); break;
    case 5: syscall(SYS_renameat2, root, "a/b", root, "up", 2); break;
    case 6: unlinkat(root, "a/b/f", 0); break;
    default: unlinkat(root, "a/b/c/e", AT_REMOVEDIR);
    }
    plan.armed = true;
}

/* The error by which the next system call fails, or 0. */
static int fails(void)
{
    static const int errors[] = {EACCES, EINTR, EMFILE, ENOMEM, EIO, ENOENT, ENOTDIR, EBUSY, ENFILE, EPERM, ESTALE, EROFS, ENOSPC,
                                 ELOOP, EEXIST, EAGAIN};
    if (!plan.armed || plan.left == 0)
        return 0;
    uint8_t byte = *plan.at++;
    plan.left--;
    if (byte >= 0xe0) {
        change(byte);
        return 0;
    }
    return byte >= 0xd0 ? errors[byte % 16] : 0;
}

#define WRAP(type, name, parameters, arguments)                  \
    type __real_##name parameters;                               \
    type __wrap_##name parameters;                               \
    type __wrap_##name parameters                                \
    {                                                            \
        int error = fails();                                     \
        if (error != 0) {                                        \
            errno = error;                                       \
            return -1;                                           \
        }                                                        \
        return __real_##name arguments;                          \
    }

WRAP(int, fstat, (int fd, struct stat *about), (fd, about))
WRAP(int, fstatfs, (int fd, struct statfs *about), (fd, about))
WRAP(ssize_t, readlinkat, (int dir, const char *name, char *text, size_t size), (dir, name, text, size))
WRAP(int, mkdirat, (int dir, const char *name, mode_t mode), (dir, name, mode))
WRAP(int, mknodat, (int dir, const char *name, mode_t mode, dev_t dev), (dir, name, mode, dev))
WRAP(int, symlinkat, (const char *text, int dir, const char *name), (text, dir, name))
WRAP(int, statx, (int dir, const char *name, int flags, unsigned what, struct statx *about), (dir, name, flags, what, about))
WRAP(int, unlinkat, (int dir, const char *name, int flags), (dir, name, flags))
WRAP(int, linkat, (int from, const char *old, int to, const char *new, int flags), (from, old, to, new, flags))

static int counted(int fd)
{
    opened_by_call += plan.armed && fd >= 0;
    return fd;
}

static int my_openat(int dir, const char *name, int flags, mode_t mode)
{
    int error = fails();
    if (error == 0)
        return counted(__real_openat(dir, name, flags, mode));
    errno = error;
    return -1;
}

INSTEAD_OF_OPENAT(my_openat)

static int my_fcntl(int fd, int what, int with)
{
    int error = fails();
    if (error == 0) {
        int result = __real_fcntl(fd, what, with);
        return what == F_DUPFD_CLOEXEC ? counted(result) : result;
    }
    errno = error;
    return -1;
}

INSTEAD_OF_FCNTL(my_fcntl)

int __wrap_close(int fd)
{
    int closed = __real_close(fd);
    if (plan.armed) {
        MUST(closed == 0);
        opened_by_call--;
    }
    return closed;
}

/* Of getdents64(2) a name of more than 255 bytes, now and then, as some file systems have. */
static long long_name(char *records)
{
    const unsigned short length = 19 + 301 + 4;
    memset(records, 0, length);
    memcpy(records + 16, &length, sizeof length);
    memset(records + 19, 'n', 300);
    return length;
}

static long my_syscall(long number, const long *with)
{
    if (number == SYS_getdents64 && plan.armed && plan.left > 0 && *plan.at == 0xcf)
        return long_name((char *)with[1]);
    int error = fails();
    if (error == 0) {
        long result = REAL_SYSCALL(number, with);
        return number == SYS_openat2 ? counted((int)result) : result;
    }
    errno = error;
    return -1;
}

INSTEAD_OF_SYSCALL(my_syscall)

/* ---- the tree */

static void clear(int dir, const char *name)
{
    int fd = openat(dir, name, O_RDONLY | O_DIRECTORY | O_NOFOLLOW | O_CLOEXEC);
    if (fd >= 0) {
        DIR *all = fdopendir(fd);
        MUST(all != NULL);
        for (struct dirent *one; (one = readdir(all)) != NULL;)
            if (strcmp(one->d_name, ".") != 0 && strcmp(one->d_name, "..") != 0)
                clear(dirfd(all), one->d_name);
        closedir(all);
    }
    unlinkat(dir, name, fd >= 0 ? AT_REMOVEDIR : 0);
}

static void make_tree(void)
{
    clear(root, "a");
    clear(root, "up");
    clear(root, "n");
    clear(root, "in");
    clear(out, "b");
    clear(out, "c");
    clear(out, "d");
    mkdirat(root, "a", 0755);
    mkdirat(root, "a/b", 0755);
    mkdirat(root, "a/b/c", 0755);
    mkdirat(root, "a/b/c/e", 0755);
    mknodat(root, "a/b/f", S_IFREG | 0600, 0);
    symlinkat("../../out", root, "up");
    symlinkat("/a/../a/b", root, "in");
    mkdirat(out, "d", 0755);
    mknodat(out, "d/keep", S_IFREG | 0600, 0);
}

static void begin(void)
{
    const char *given = getenv("INROOT_FUZZ_DIR");
    char name[] = "inroot-fuzz-XXXXXX";
    base = open(given != NULL ? given : mkdtemp(name), O_PATH | O_DIRECTORY | O_CLOEXEC);
    MUST(base >= 0);
    mkdirat(base, "root", 0755);
    mkdirat(base, "out", 0755);
    root = openat(base, "root", O_PATH | O_DIRECTORY | O_CLOEXEC);
    out = openat(base, "out", O_PATH | O_DIRECTORY | O_CLOEXEC);
    mknodat(out, "secret", S_IFREG | 0600, 0);
    MUST(fstatat(out, "secret", &secret, 0) == 0);
    int proc = open("/proc", O_PATH | O_DIRECTORY | O_CLOEXEC);
    MUST(inroot_use_proc(proc) == 0);
    close(proc);
}

/* ---- one case */

static struct {
    unsigned op, flags, mode;
    char first[256], second[256];
    ssize_t result;
} asked;

static unsigned char byte(const uint8_t **at, size_t *left)
{
    if (*left == 0)
        return 0;
    --*left;
    return *(*at)++;
}

/* A path of up to eight parts; the long one is too long for a name. */
static void path(char *text, const uint8_t **at, size_t *left)
{
    static const char *const parts[] = {"a", "b", "c", "e", "f", "n", "..", ".", "up", "in", "", "secret", "keep", "d", "m", "a"};
    unsigned count = byte(at, left) % 9;
    *text = 0;
    for (unsigned part = 0; part < count; part++) {
        strcat(text, parts[byte(at, left) % 16]);
        if (part + 1 < count)
            strcat(text, "/");
    }
}

/* What is opened for use: of a FIFO there is none here, which could make it wait. */
static int open_for_use(unsigned how, int flags)
{
    static const int ways[] = {O_RDONLY, O_RDWR, O_WRONLY | O_CREAT, O_RDWR | O_CREAT | O_EXCL, O_RDWR | O_CREAT | O_NOFOLLOW,
                               O_RDWR | O_TMPFILE, O_PATH | O_NOFOLLOW, O_RDONLY | O_DIRECTORY};
    int way = ways[how % 8];
    bool makes = way & O_CREAT || (way & O_TMPFILE) == O_TMPFILE;
    return inroot_openat(root, asked.first, way | (makes ? O_NONBLOCK : 0), makes ? 0600 : 0, flags);
}

/* Where `a/b/c` stands is told, or nothing. */
static ssize_t tell_place(void)
{
    char place[64] = "";
    int dir = __real_openat(root, "a/b/c", O_PATH | O_DIRECTORY | O_CLOEXEC);
    ssize_t length = dir >= 0 ? inroot_place(root, dir, place, sizeof place) : -ENOENT;
    MUST(length < 0 || strcmp(place, "/a/b/c") == 0 || strcmp(place, "/up/c") == 0);
    if (dir >= 0)
        __real_close(dir);
    return length;
}

static void call(void)
{
    char text[4096];
    struct stat about;
    const unsigned flags = (asked.flags & 3) | (asked.flags & 0x80 ? INROOT_EXACT : 0) | (asked.flags & 0x40 ? INROOT_NO_XDEV : 0);
    plan.armed = true;
    switch (asked.op) {
    case 0: asked.result = inroot_open(root, asked.first, (int)(flags | (asked.flags & 4))); break;
    case 1: asked.result = inroot_readlink(root, asked.first, (int)flags, text, sizeof text); break;
    case 2: asked.result = inroot_mknod(root, asked.first, S_IFREG | 0644, 0, (int)flags); break;
    case 3: asked.result = inroot_mkdir(root, asked.first, 0755, (int)flags); break;
    case 4: asked.result = inroot_symlink(root, asked.second, asked.first, (int)flags); break;
    case 5: asked.result = inroot_unlink(root, asked.first, (int)flags); break;
    case 6: asked.result = inroot_rmdir(root, asked.first, (int)flags); break;
    case 7: asked.result = inroot_rename(root, asked.first, asked.second, (int)asked.mode % 3, (int)flags); break;
    case 8: asked.result = inroot_mkdir_all(root, asked.first, 0755, (int)flags); break;
    case 9: asked.result = inroot_remove_all(root, asked.first, (int)flags); break;
    case 10: asked.result = open_for_use(asked.mode, (int)flags); break;
    case 11: asked.result = inroot_mknod(root, asked.first, S_IFSOCK | 0600, 0, (int)flags); break;
    case 12: asked.result = inroot_link(root, asked.first, asked.second, (int)(flags | (asked.flags & 4 ? INROOT_FOLLOW : 0))); break;
    case 13: asked.result = inroot_stat(root, asked.first, &about, (int)(flags | (asked.flags & 4))); break;
    case 14: asked.result = inroot_open_parent(root, asked.first, (int)flags, text); break;
    case 15: asked.result = inroot_mkdir(root, asked.first, 0700, (int)(flags | INROOT_GIVE)); break;
    case 16: asked.result = inroot_mkfile_all(root, asked.first, 0600, 0700, (int)(flags | (asked.flags & 4 ? INROOT_FOLLOW : 0))); break;
    case 17: asked.result = inroot_mkdir_all(root, asked.first, 0700, (int)(flags | INROOT_FOLLOW)); break;
    case 18: asked.result = inroot_mknod(root, asked.first, S_IFREG | 0600, 0, (int)(flags | INROOT_GIVE)); break;
    case 19: asked.result = inroot_link(root, asked.first, asked.second, (int)(flags | INROOT_GIVE)); break;
    case 20: asked.result = inroot_symlink(root, asked.second, asked.first, (int)(flags | INROOT_GIVE)); break;
    default: asked.result = tell_place();
    }
    plan.armed = false;
}

/* A thread in a chroot that makes the calls it is handed, where there is a right to that. */
static bool has_chroot;
static sem_t handed, answered;

static void await(sem_t *turn)
{
    while (sem_wait(turn) != 0)
        ;
}

static void *in_chroot(void *unused)
{
    has_chroot = unshare(CLONE_FS) == 0 && fchdir(root) == 0 && chroot(".") == 0;
    sem_post(&answered);
    while (has_chroot) {
        await(&handed);
        call();
        sem_post(&answered);
    }
    return unused;
}

static void begin_chroot(void)
{
    pthread_t thread;
    sem_init(&handed, 0, 0);
    sem_init(&answered, 0, 0);
    MUST(pthread_create(&thread, NULL, in_chroot, NULL) == 0);
    await(&answered);
}

/* What is outside was made or removed by nobody. */
static void look_outside(void)
{
    struct stat about;
    MUST(fstatat(out, "secret", &about, 0) == 0 && about.st_ino == secret.st_ino);
    MUST(faccessat(out, "n", F_OK, AT_SYMLINK_NOFOLLOW) != 0 && faccessat(out, "m", F_OK, AT_SYMLINK_NOFOLLOW) != 0);
}

int LLVMFuzzerTestOneInput(const uint8_t *data, size_t size)
{
    static bool begun;
    struct stat about;
    if (!begun) {
        begin();
        begin_chroot();
        begun = true;
    }
    make_tree();
    unsigned who = byte(&data, &size);
    unsigned op = byte(&data, &size);
    asked.op = op < 200 ? op % 10 : op < 232 ? 10 + op % 4 : 14 + op % 8;
    asked.flags = byte(&data, &size);
    asked.mode = asked.flags / 8;
    path(asked.first, &data, &size);
    path(asked.second, &data, &size);
    plan.at = data;
    plan.left = size;
    opened_by_call = 0;
    if (who % 2 != 0 && has_chroot) {
        sem_post(&handed);
        await(&answered);
    } else {
        call();
    }
    bool gives = asked.op == 0 || asked.op == 8 || asked.op == 10 || (asked.op >= 14 && asked.op <= 20);
    bool opens = gives && asked.result >= 0;
    MUST(opened_by_call == opens);
    if (opens) {
        MUST(fstat((int)asked.result, &about) == 0 && about.st_ino != secret.st_ino);
        close((int)asked.result);
    }
    look_outside();
    return 0;
}
