/*
 * automount: a directory below the root on which autofs mounts, by a daemon of the test's own: it mounts an empty file
 * system with the file `f` and the directory `d`. A call that goes through the directory, wants a directory at its end
 * or opens it for use has it mounted, as open(2) does, and finds or makes what is in there; a call that only finds it
 * mounts nothing, as open(2) with O_PATH. With INROOT_EXACT each call has it mounted, since a step opens each name as a
 * directory first. Also in a chroot.
 *
 * usage: automount DIR. Exits 0 where that holds. 77: no openat2(2) here. 78: no right to mount here, or no autofs.
 */
#define _GNU_SOURCE
#include "support.h"

#include <linux/auto_fs.h>
#include <linux/magic.h>
#include <signal.h>
#include <sys/ioctl.h>
#include <sys/prctl.h>
#include <sys/vfs.h>

enum { TRAP = 0x187, SECONDS = 60 };

static int base, root, case_at;
static char where[PATH_MAX], trap[PATH_MAX + 16], place[PATH_MAX + 16];

/* ---- the daemon */

static void make_at_place(void)
{
    sure(mount("made", place, "tmpfs", 0, NULL), place);
    int dir = sure(open(place, O_PATH | O_DIRECTORY | O_CLOEXEC), place);
    sure(mknodat(dir, "f", S_IFREG | 0600, 0), "f");
    sure(mkdirat(dir, "d", 0755), "d");
    close(dir);
}

static void answer_each(int questions)
{
    union autofs_v5_packet_union question;
    int above = sure(open(trap, O_RDONLY | O_DIRECTORY | O_CLOEXEC), trap);
    while (read(questions, &question, sizeof question) > 0) {
        make_at_place();
        sure(ioctl(above, AUTOFS_IOC_READY, question.v5_packet.wait_queue_token), "ready");
    }
}

/* What the daemon's own process group does is asked of nobody. It writes a byte once it serves, or ends before. */
static void serve(int ready)
{
    int questions[2];
    char options[128];
    prctl(PR_SET_PDEATHSIG, SIGKILL);
    sure(setpgid(0, 0), "setpgid");
    sure(pipe2(questions, O_CLOEXEC), "pipe");
    snprintf(options, sizeof options, "fd=%d,pgrp=%d,minproto=5,maxproto=5,indirect", questions[1], (int)getpgrp());
    if (mount("automount", trap, "autofs", 0, options) != 0)
        _exit(NO_RIGHT);
    sure(mkdir(place, 0755), place);
    sure((int)write(ready, "", 1), "ready");
    answer_each(questions[0]);
    _exit(0);
}

static void begin_daemon(void)
{
    int ready[2];
    char byte;
    own_mounts_or_end();
    /* By the mounts of this namespace. */
    snprintf(place, sizeof place, "%s/box", where);
    root = sure(open(place, O_PATH | O_DIRECTORY | O_CLOEXEC), place);
    snprintf(trap, sizeof trap, "%s/box/net", where);
    snprintf(place, sizeof place, "%s/box/net/k", where);
    sure(pipe2(ready, O_CLOEXEC), "pipe");
    fflush(stdout);
    if (sure(fork(), "fork") == 0)
        serve(ready[1]);
    close(ready[1]);
    if (read(ready[0], &byte, 1) != 1)
        exit(NO_RIGHT);
    close(ready[0]);
}

/* ---- the calls */

static int open_it(const char *path)
{
    return inroot_open(root, path, way);
}

static int read_it(const char *path)
{
    return inroot_openat(root, path, O_RDONLY, 0, way);
}

static int read_directory(const char *path)
{
    return inroot_openat(root, path, O_RDONLY | O_DIRECTORY, 0, way);
}

static int create(const char *path)
{
    return inroot_openat(root, path, O_RDWR | O_CREAT | O_EXCL, 0600, way);
}

static int make_all(const char *path)
{
    return inroot_mkdir_all(root, path, 0755, way);
}

static int open_parent(const char *path)
{
    char last[256];
    return inroot_open_parent(root, path, way, last);
}

/* Of which file system is what each call gives, by the kernel's walk and with INROOT_EXACT. */
static const struct {
    const char *path;
    int (*call)(const char *path);
    long wanted, exact;
} cases[] = {
    {"net/k", open_it, TRAP, TMPFS_MAGIC},
    {"net/k", read_it, TMPFS_MAGIC, TMPFS_MAGIC},
    {"net/k/", open_it, TMPFS_MAGIC, TMPFS_MAGIC},
    {"net/k", read_directory, TMPFS_MAGIC, TMPFS_MAGIC},
    {"net/k/f", open_it, TMPFS_MAGIC, TMPFS_MAGIC},
    {"net/k/f", read_it, TMPFS_MAGIC, TMPFS_MAGIC},
    {"net/k/d/../f", open_it, TMPFS_MAGIC, TMPFS_MAGIC},
    {"net/k/../k/f", open_it, TMPFS_MAGIC, TMPFS_MAGIC},
    {"l/f", open_it, TMPFS_MAGIC, TMPFS_MAGIC},
    {"net/k/new", create, TMPFS_MAGIC, TMPFS_MAGIC},
    {"net/k/n/e/w", make_all, TMPFS_MAGIC, TMPFS_MAGIC},
    {"net/k/new", open_parent, TMPFS_MAGIC, TMPFS_MAGIC},
    {"net/k/..", open_it, TRAP, TRAP},
};
enum { CASES = sizeof cases / sizeof *cases };

static void one(void)
{
    struct statfs about = {0};
    alarm(SECONDS);
    int fd = cases[case_at].call(cases[case_at].path);
    const long got = fd < 0 ? fd : fstatfs(fd, &about) == 0 ? (long)about.f_type : -errno;
    gives(got, way ? cases[case_at].exact : cases[case_at].wanted, "case %d, %s, flags %d", case_at, cases[case_at].path, way);
}

/* Each case begins without the mount. */
static int each(void)
{
    int skipped = 0;
    for (case_at = 0; case_at < CASES; case_at++)
        for (way = 0; way <= INROOT_EXACT; way += INROOT_EXACT) {
            apart(one);
            umount2(place, MNT_DETACH);
            skipped |= apart_in(root, one);
            umount2(place, MNT_DETACH);
        }
    return skipped;
}

int main(int count, char **words)
{
    begin_in_box(count, words, &base, &root);
    sure(mkdirat(root, "net", 0755), "net");
    sure(symlinkat("net/k", root, "l"), "l");
    if (realpath(words[1], where) == NULL)
        return 1;
    begin_daemon();
    open_proc();
    const int skipped = each();
    printf("automount: %d not as they are to be\n", wrong);
    return wrong != 0 ? 1 : skipped;
}
