/*
 * exchange.c: the system calls of a call, one at a time, as the proved library asks for them (crates/linux_call). It is told
 * what each gave, and says what comes next.
 */
#define _GNU_SOURCE
#include "driver.h"
#include "openat2.h"
#include "statx.h"

#include <errno.h>
#include <fcntl.h>
#include <limits.h>
#include <pthread.h>
#include <string.h>
#include <sys/stat.h>
#include <sys/syscall.h>
#include <sys/sysmacros.h>
#include <sys/vfs.h>
#include <sys/xattr.h>
#include <time.h>
#include <unistd.h>

/* Of Linux 5.2 and 6.13; the headers may be older. The numbers are the same on every machine that the library is there for. */
enum { OPEN_TREE = 428, FSOPEN = 430, FSCONFIG = 431, FSMOUNT = 432, SET_AT = 463, GET_AT, LIST_AT, REMOVE_AT };
enum { FSOPEN_CLOSES = 1, FSMOUNT_CLOSES = 1, TREE_CLONES = 1, SETS_STRING = 1, CREATES = 6 };
/* MOUNT_ATTR_NOSUID, MOUNT_ATTR_NODEV and MOUNT_ATTR_NOEXEC. */
enum { ATTRIBUTES = 2 | 4 | 8 };

/* More answers than a call asks for one after another, and than the library lays by itself; and what a system call may read. */
enum { ANSWERS = 128, AHEAD = 4, READ = PATH_MAX + 256 };

static const struct inroot_machine_flags machine = {
    .directory = O_DIRECTORY, .nofollow = O_NOFOLLOW, .direct = O_DIRECT, .largefile = O_LARGEFILE,
};

/* The proved library has the numbers of the other flags, of errors and of texts' lengths. */
_Static_assert(O_RDONLY == 0 && O_WRONLY == 01 && O_RDWR == 02 && O_CREAT == 0100 && O_EXCL == 0200 &&
               O_NOCTTY == 0400 && O_TRUNC == 01000 && O_APPEND == 02000 && O_NONBLOCK == 04000 && O_DSYNC == 010000 &&
               O_NOATIME == 01000000 && O_CLOEXEC == 02000000 && O_SYNC == 04010000 && O_PATH == 010000000 &&
               O_TMPFILE == (020000000 | O_DIRECTORY) && PATH_MAX == 4096 && NAME_MAX == 255,
               "the numbers of crates/system_calls");

/* A call under way. */
struct exchange {
    struct inroot_call *call;
    struct inroot_due due;
    struct inroot_state state;
    struct inroot_gave answers[ANSWERS];
    size_t ready;
    unsigned char first[PATH_MAX + 2], second[PATH_MAX + 2], room[INROOT_ROOM];
    _Alignas(8) unsigned char read[READ];
};

/* ---- what is asked of a file */

/* Nothing is asked of a server. */
static long ask_object(const struct inroot_due *due, const char *name, struct inroot_gave *gave)
{
    const int how = AT_EMPTY_PATH | AT_SYMLINK_NOFOLLOW | AT_NO_AUTOMOUNT | AT_STATX_DONT_SYNC;
    const unsigned mount = STATX_MNT_ID | STATX_MNT_ID_UNIQUE;
    struct statx about = {0};
    const long result = statx((int)due->fd, name, how, STATX_TYPE | STATX_INO | STATX_NLINK | mount, &about);
    gave->device = makedev(about.stx_dev_major, about.stx_dev_minor);
    gave->inode = about.stx_ino;
    gave->mount = about.stx_mnt_id;
    gave->node = makedev(about.stx_rdev_major, about.stx_rdev_minor);
    gave->links = about.stx_nlink;
    gave->mode = about.stx_mode;
    gave->has_mount = about.stx_mask & mount;
    return result;
}

static long ask_file_system(const struct inroot_due *due, struct inroot_gave *gave)
{
    struct statfs about = {0};
    const long result = fstatfs((int)due->fd, &about);
    gave->file_system = (uint64_t)about.f_type;
    gave->flags = (uint64_t)about.f_flags;
    return result;
}

/* ---- extended attributes */

/* As setxattrat(2) and getxattrat(2) take a value. */
struct value {
    _Alignas(8) uint64_t at;
    uint32_t size, flags;
};

static long act_at(const struct inroot_call *call, const struct inroot_due *due, const char *name)
{
    const int fd = (int)due->fd;
    const struct value value = {(uintptr_t)call->value, (uint32_t)due->number, call->demand.how};
    switch (call->demand.what) {
    case INROOT_DO_SET_ATTRIBUTE: return syscall(SET_AT, fd, name, 0, call->attribute, &value, sizeof value);
    case INROOT_DO_GET_ATTRIBUTE: return syscall(GET_AT, fd, name, 0, call->attribute, &value, sizeof value);
    case INROOT_DO_LIST_ATTRIBUTES: return syscall(LIST_AT, fd, name, 0, call->value, (size_t)due->number);
    default: return syscall(REMOVE_AT, fd, name, 0, call->attribute);
    }
}

static long act_by_path(const struct inroot_call *call, const struct inroot_due *due, const char *path)
{
    const size_t size = due->number;
    switch (call->demand.what) {
    case INROOT_DO_SET_ATTRIBUTE: return setxattr(path, call->attribute, call->value, size, (int)call->demand.how);
    case INROOT_DO_GET_ATTRIBUTE: return getxattr(path, call->attribute, call->value, size);
    case INROOT_DO_LIST_ATTRIBUTES: return listxattr(path, call->value, size);
    default: return removexattr(path, call->attribute);
    }
}

/* ---- each system call */

static long open_path(const struct inroot_due *due, const char *path)
{
    const struct open_how how = {.flags = due->number, .mode = due->mode, .resolve = due->resolve};
    return syscall(SYS_openat2, (int)due->fd, path, &how, sizeof how);
}

static long configure(const struct inroot_due *due)
{
    if (due->number)
        return syscall(FSCONFIG, (int)due->fd, SETS_STRING, "subset", "pid", 0);
    return syscall(FSCONFIG, (int)due->fd, CREATES, NULL, NULL, 0);
}

/* What opens or makes something, and what changes an entry. */
static long make_entry(const struct exchange *x, const char *text, const char *other)
{
    const struct inroot_due *due = &x->due;
    const int fd = (int)due->fd;
    switch (due->what) {
    case INROOT_DUE_OPENAT2: return open_path(due, text);
    case INROOT_DUE_OPENAT: return openat(fd, text, (int)due->number, due->mode);
    case INROOT_DUE_MKDIRAT: return mkdirat(fd, text, due->mode);
    case INROOT_DUE_MKNODAT: return mknodat(fd, text, due->mode, due->number);
    case INROOT_DUE_SYMLINKAT: return symlinkat(other, fd, text);
    case INROOT_DUE_LINKAT: return linkat(fd, text, (int)due->other, other, AT_SYMLINK_FOLLOW);
    case INROOT_DUE_UNLINKAT: return unlinkat(fd, text, due->number ? AT_REMOVEDIR : 0);
    case INROOT_DUE_RENAMEAT2: return syscall(SYS_renameat2, fd, text, (int)due->other, other, (unsigned)due->number);
    case INROOT_DUE_FCHMODAT: return fchmodat(fd, text, due->mode, 0);
    case INROOT_DUE_FCHOWNAT: return fchownat(fd, "", due->other, due->mode, AT_EMPTY_PATH);
    default: return utimensat(fd, "", x->call->times, AT_EMPTY_PATH);
    }
}

/* The rest; what is no system call fails by its error. */
static long make_other(struct exchange *x, const char *text)
{
    const struct inroot_due *due = &x->due;
    const int fd = (int)due->fd;
    switch (due->what) {
    case INROOT_DUE_CLOSE: return close(fd);
    case INROOT_DUE_GETFD: return fcntl(fd, F_GETFD);
    case INROOT_DUE_DUPFD: return fcntl(fd, F_DUPFD_CLOEXEC, STDERR_FILENO + 1);
    case INROOT_DUE_GETDENTS: return syscall(SYS_getdents64, fd, x->read, sizeof x->read);
    case INROOT_DUE_READLINKAT: return readlinkat(fd, text, (char *)x->read, sizeof x->read);
    case INROOT_DUE_FSTAT: return fstat(fd, x->call->about);
    case INROOT_DUE_XATTR_AT: return act_at(x->call, due, text);
    case INROOT_DUE_XATTR: return act_by_path(x->call, due, text);
    case INROOT_DUE_FSOPEN: return syscall(FSOPEN, "proc", FSOPEN_CLOSES);
    case INROOT_DUE_FSCONFIG: return configure(due);
    case INROOT_DUE_FSMOUNT: return syscall(FSMOUNT, fd, FSMOUNT_CLOSES, ATTRIBUTES);
    case INROOT_DUE_OPEN_TREE: return syscall(OPEN_TREE, AT_FDCWD, "/proc", TREE_CLONES | O_CLOEXEC | AT_SYMLINK_NOFOLLOW);
    case INROOT_DUE_NANOSLEEP: return nanosleep(&(struct timespec){.tv_nsec = due->fd}, NULL);
    default: return inroot_program_does(due);
    }
}

static long make(struct exchange *x, struct inroot_gave *gave)
{
    const char *text = (const char *)x->room, *other = (const char *)x->room + INROOT_SECOND;
    const struct inroot_due *due = &x->due;
    switch (due->what) {
    case INROOT_DUE_STATX: return ask_object(due, text, gave);
    case INROOT_DUE_FSTATFS: return ask_file_system(due, gave);
    case INROOT_DUE_OPENAT2: case INROOT_DUE_OPENAT: case INROOT_DUE_MKDIRAT: case INROOT_DUE_MKNODAT:
    case INROOT_DUE_SYMLINKAT: case INROOT_DUE_LINKAT: case INROOT_DUE_UNLINKAT: case INROOT_DUE_RENAMEAT2:
    case INROOT_DUE_FCHMODAT: case INROOT_DUE_FCHOWNAT: case INROOT_DUE_UTIMENSAT: return make_entry(x, text, other);
    default: return make_other(x, text);
    }
}

/* Makes the system call that is due; again, if it says so of a signal. */
static void answer(struct exchange *x, struct inroot_gave *gave)
{
    long given;
    do
        given = make(x, gave);
    while (given < 0 && errno == EINTR && x->due.again);
    gave->error = given < 0 ? (uint32_t)errno : 0;
    gave->value = given < 0 ? 0 : (uint32_t)given;
}

/* ---- a call */

/* Reads a text once, since a program may change it meanwhile. A slash stands before it. One that is too long stays too long. */
static size_t copy(unsigned char room[PATH_MAX + 2], const char *from)
{
    room[0] = '/';
    room[PATH_MAX + 1] = 0;
    const unsigned char *end = memccpy(room + 1, from == NULL ? "" : from, 0, PATH_MAX);
    return end == NULL ? PATH_MAX : (size_t)(end - room) - 2;
}

/* Each answer is one, also if it wasn't given yet: so many are READY. */
static void turn(struct exchange *x, size_t second)
{
    for (; x->ready < x->due.at + AHEAD && x->ready < ANSWERS; x->ready++)
        x->answers[x->ready] = (struct inroot_gave){0};
    inroot_turn(&x->call->demand, &x->state, x->first, sizeof x->first, x->second, second + 1, x->read, sizeof x->read, x->answers,
                x->ready, &x->due, x->room, sizeof x->room);
}

/* What a call gives. */
static int64_t end(const struct exchange *x)
{
    const struct inroot_call *call = x->call;
    const int64_t given = (int64_t)x->due.number;
    if (x->due.closes > 0)
        close((int)x->due.first_closed);
    if (x->due.closes > 1)
        close((int)x->due.second_closed);
    if (x->due.what == INROOT_DUE_FAILS) {
        inroot_error_keep((int)given, x->due.step, (const char *)x->room);
        return -given;
    }
    if (call->text != NULL)
        memcpy(call->text, x->read, (size_t)given < call->size ? (size_t)given : call->size);
    if (call->name != NULL)
        memcpy(call->name, x->room, strlen((const char *)x->room) + 1);
    return given;
}

static int64_t run(struct inroot_call *call)
{
    struct exchange x;
    x.call = call;
    x.due = (struct inroot_due){0};
    x.state = (struct inroot_state){0};
    x.ready = 0;
    call->demand.known.machine = machine;
    inroot_program_known(&call->demand.known);
    call->demand.length = copy(x.first, call->first);
    const size_t second = copy(x.second, call->second);
    for (turn(&x, second); x.due.what < INROOT_DUE_VALUE; turn(&x, second)) {
        struct inroot_gave *gave = &x.answers[x.due.at];
        *gave = (struct inroot_gave){0};
        answer(&x, gave);
    }
    return end(&x);
}

int64_t inroot_exchange(struct inroot_call *call)
{
    int state;
    pthread_setcancelstate(PTHREAD_CANCEL_DISABLE, &state);
    const int64_t result = run(call);
    pthread_setcancelstate(state, NULL);
    return result;
}
