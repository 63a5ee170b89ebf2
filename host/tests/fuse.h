/* fuse.h: a file system of a test's own (FUSE, by /dev/fuse alone), whose server is a process of its own. */
#ifndef FUSE_H
#define FUSE_H

#include "support.h"

#include <linux/fuse.h>
#include <signal.h>
#include <sys/prctl.h>

/* By it the kernel asks, and is answered: open in the server, and where the server began. */
static int device = -1;

static void answer(uint64_t unique, int error, const void *bytes, size_t length)
{
    char room[65536 + sizeof(struct fuse_out_header)];
    struct fuse_out_header head = {.len = (uint32_t)(sizeof head + length), .error = -error, .unique = unique};
    memcpy(room, &head, sizeof head);
    if (length > 0)
        memcpy(room + sizeof head, bytes, length);
    /* A question that was called off takes no answer. */
    if (write(device, room, head.len) < 0 && errno != ENOENT)
        _exit(2);
}

/* Has each question answered by this function, with what comes behind the question's head. */
static inline void serve_by(void (*answer_one)(const struct fuse_in_header *head, const char *more))
{
    static _Alignas(8) char room[1 << 17];
    const struct fuse_in_header *head = (const void *)room;
    for (;;) {
        ssize_t got = read(device, room, sizeof room);
        if (got < 0 && (errno == EINTR || errno == ENOENT || errno == EAGAIN))
            continue;
        if (got < (ssize_t)sizeof *head)
            _exit(0);
        answer_one(head, room + sizeof *head);
    }
}

/*
 * Mounts it at a directory, in a mount namespace of this process's own: or ends as a check does that has no right to. The
 * server ends with this process.
 */
static inline void begin_serving(const char *where, unsigned long flags,
                                 void (*answer_one)(const struct fuse_in_header *head, const char *more))
{
    char options[128];
    device = open("/dev/fuse", O_RDWR | O_CLOEXEC);
    if (device < 0 || unshare(CLONE_NEWNS) != 0 || mount(NULL, "/", NULL, MS_REC | MS_PRIVATE, NULL) != 0)
        _exit(NO_RIGHT);
    snprintf(options, sizeof options, "fd=%d,rootmode=40755,user_id=%u,group_id=%u,default_permissions", device, geteuid(),
             getegid());
    if (mount("served", where, "fuse", MS_NOSUID | MS_NODEV | flags, options) != 0)
        _exit(NO_RIGHT);
    fflush(stdout);
    pid_t parent = getpid();
    if (sure(fork(), "fork") == 0) {
        prctl(PR_SET_PDEATHSIG, SIGKILL);
        if (getppid() == parent)
            serve_by(answer_one);
        _exit(0);
    }
}

#endif
