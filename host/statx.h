/* statx.h: statx(2) with the number of a mount, also beside headers of the C library or of the kernel that lack it (Linux 5.8). */
#ifndef INROOT_STATX_H
#define INROOT_STATX_H

#include <fcntl.h>
#include <stddef.h>
#include <stdint.h>
#include <sys/stat.h>
#include <sys/syscall.h>
#include <unistd.h>

#ifndef AT_STATX_DONT_SYNC
#define AT_STATX_DONT_SYNC 0x4000
#endif

/* A number that no other mount ever gets (Linux 6.8), in the place of the other one. */
#ifndef STATX_MNT_ID_UNIQUE
#define STATX_MNT_ID_UNIQUE 0x4000U
#endif

#ifndef STATX_MNT_ID
#undef STATX_TYPE
#undef STATX_NLINK
#undef STATX_INO
#define STATX_TYPE 1U
#define STATX_NLINK 4U
#define STATX_INO 0x100U
#define STATX_MNT_ID 0x1000U

struct inroot_statx {
    uint32_t stx_mask, unused[3], stx_nlink, owners[2];
    uint16_t stx_mode, spare;
    uint64_t stx_ino, sizes[5];
    struct {
        int64_t tv_sec;
        uint32_t tv_nsec, reserved;
    } stx_btime, times[2];
    uint32_t stx_rdev_major, stx_rdev_minor, stx_dev_major, stx_dev_minor;
    uint64_t stx_mnt_id, more[13];
};

_Static_assert(sizeof(struct inroot_statx) == 256 && offsetof(struct inroot_statx, stx_ino) == 32 &&
               offsetof(struct inroot_statx, stx_btime) == 80 && offsetof(struct inroot_statx, stx_mnt_id) == 144,
               "statx(2) tells so");

static inline int inroot_statx(int dir, const char *name, int flags, unsigned int mask, struct inroot_statx *about)
{
    return (int)syscall(SYS_statx, dir, name, flags, mask, about);
}

/* Both the structure and the system call. */
#define statx inroot_statx
#endif

#endif
