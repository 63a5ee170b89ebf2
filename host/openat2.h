/* openat2.h: what openat2(2) takes, also beside headers of the kernel before Linux 5.6 or of a C library that doesn't know it. */
#ifndef INROOT_OPENAT2_H
#define INROOT_OPENAT2_H

#include <stdint.h>
#include <sys/syscall.h>

#if __has_include(<linux/openat2.h>)
#include <linux/openat2.h>
#else
struct open_how {
    uint64_t flags, mode, resolve;
};
#define RESOLVE_NO_XDEV 0x01
#define RESOLVE_NO_MAGICLINKS 0x02
#define RESOLVE_NO_SYMLINKS 0x04
#define RESOLVE_BENEATH 0x08
#define RESOLVE_IN_ROOT 0x10
#endif

/* The number is the same on each machine. */
#ifndef SYS_openat2
#define SYS_openat2 437
#endif

#endif
