/*
 * calls.h: the proved library's one function, and what passes between it and the driver. The numbers are those of
 * crates/linux_call. A program that makes calls includes inroot.h, and not this.
 *
 * No pointer is NULL, not even one to no bytes. Each is aligned, and leads to a value of its type: a bool is 0 or 1, a number may be
 * any. What the function writes overlaps nothing that another argument points to. While it runs, no other thread uses that, or
 * changes the rest. tests/owed.c looks for this as the driver is tested.
 */
#ifndef INROOT_CALLS_H
#define INROOT_CALLS_H

#include <stdbool.h>
#include <stddef.h>
#include <stdint.h>
#include <sys/types.h>

/* The library's sizes have 64 bits, and so have files: it is there for no other machine. */
_Static_assert(sizeof(size_t) == 8 && sizeof(off_t) == 8, "64 bits only");

/* The flags of open(2) whose numbers differ between machines: O_DIRECTORY, O_NOFOLLOW, O_DIRECT, O_LARGEFILE. */
struct inroot_machine_flags {
    uint32_t directory, nofollow, direct, largefile;
};

/* A file of a proc(5), and its mount (statx(2)). */
struct inroot_proc_file {
    uint64_t device, inode, mount;
};

/* The program's /proc, if it is THERE; whether it was HANDED_IN, or is about to be; whether the place is taken (CLAIMED). */
struct inroot_proc_kept {
    struct inroot_proc_file file;
    uint32_t fd;
    bool there, handed_in, claimed;
};

/* What is known before a call. HAS_FLOOR: this thread has seen that the kernel has what the library needs. */
struct inroot_known {
    struct inroot_proc_kept kept;
    struct inroot_machine_flags machine;
    bool has_floor;
};

/* The calls of inroot.h. */
enum inroot_do {
    INROOT_DO_RESOLVE = 1, INROOT_DO_MKDIR = 5, INROOT_DO_SYMLINK, INROOT_DO_UNLINK, INROOT_DO_RMDIR, INROOT_DO_RENAME,
    INROOT_DO_REMOVE_ALL = 11, INROOT_DO_OPEN_AT = 16, INROOT_DO_STATUS, INROOT_DO_READ_LINK, INROOT_DO_MAKE_NODE,
    INROOT_DO_MAKE_DIRECTORIES, INROOT_DO_MAKE_FILE, INROOT_DO_LINK, INROOT_DO_LINK_OBJECT, INROOT_DO_OPEN_PARENT, INROOT_DO_PLACE,
    INROOT_DO_REOPEN, INROOT_DO_CHANGE_MODE, INROOT_DO_CHANGE_OWNER, INROOT_DO_CHANGE_TIMES, INROOT_DO_SET_ATTRIBUTE,
    INROOT_DO_GET_ATTRIBUTE, INROOT_DO_LIST_ATTRIBUTES, INROOT_DO_REMOVE_ATTRIBUTE, INROOT_DO_USE_PROC, INROOT_DO_USE_PRIVATE_PROC,
    INROOT_DO_PROC_OPEN, INROOT_DO_PROC_READ_LINK,
};

/* A call, by one of these. LENGTH: that of its first text. The last five are the library's own. crates/linux_call says what each is. */
struct inroot_demand {
    struct inroot_known known;
    uint64_t length, device, size, accessed, changed;
    uint32_t root, fd, flags, how, mode, above, user, group;
    uint8_t what;
    bool opens, linked, gives, directory, asks_kind;
};

/* What is kept of a call: zero before its first turn, left alone between two, and never copied. */
struct inroot_state {
    uint64_t kept[38];
};

/* What a system call gave: 0 or an error, a descriptor or a length; of statx(2) and fstatfs(2) what these say, and else 0. */
struct inroot_gave {
    uint64_t file_system, flags, device, inode, mount, node;
    uint32_t value, error, links;
    uint16_t mode;
    bool has_mount;
};

/*
 * A system call, by FD and the text in the room: openat2(2) by NUMBER, MODE and RESOLVE; openat(2) by NUMBER and MODE; statx(2) and
 * fstatfs(2); getdents64(2) and readlinkat(2), to where it is READ; close(2); fcntl(2), F_GETFD and F_DUPFD_CLOEXEC; what makes
 * by MODE, and a device's NUMBER; symlinkat(2) of the second text; linkat(2) to OTHER and the second text, through the link;
 * unlinkat(2), of a directory if NUMBER isn't 0; renameat2(2) to OTHER and the second text by NUMBER; fchmodat(2); fchownat(2) by
 * OTHER and MODE; utimensat(2); what is asked for of attributes, of NUMBER bytes, by a name in FD or a path; fsopen(2) of `proc`;
 * fsconfig(2), of `subset` if NUMBER isn't 0; fsmount(2); open_tree(2) of /proc; nanosleep(2). No system call: the program's place
 * for a /proc is claimed, to hand one in if FD isn't 0; filled by FD, which is the file of NUMBER, RESOLVE and MOUNT, handed in if
 * MODE isn't 0; free again; the thread knows of the kernel whether it has what is needed, FD. Then fstat(2), for the caller. The
 * end: a NUMBER, and a text; an error's NUMBER, its STEP and the name.
 */
enum inroot_due_what {
    INROOT_DUE_OPENAT2 = 1, INROOT_DUE_OPENAT, INROOT_DUE_STATX, INROOT_DUE_FSTATFS, INROOT_DUE_GETDENTS, INROOT_DUE_READLINKAT,
    INROOT_DUE_CLOSE, INROOT_DUE_GETFD, INROOT_DUE_DUPFD, INROOT_DUE_MKDIRAT, INROOT_DUE_MKNODAT, INROOT_DUE_SYMLINKAT,
    INROOT_DUE_LINKAT, INROOT_DUE_UNLINKAT, INROOT_DUE_RENAMEAT2, INROOT_DUE_FCHMODAT, INROOT_DUE_FCHOWNAT, INROOT_DUE_UTIMENSAT,
    INROOT_DUE_XATTR_AT, INROOT_DUE_XATTR, INROOT_DUE_FSOPEN, INROOT_DUE_FSCONFIG, INROOT_DUE_FSMOUNT, INROOT_DUE_OPEN_TREE,
    INROOT_DUE_NANOSLEEP, INROOT_DUE_CLAIM, INROOT_DUE_KEEP, INROOT_DUE_RELEASE, INROOT_DUE_KNOW, INROOT_DUE_FSTAT,
    INROOT_DUE_VALUE = 32, INROOT_DUE_FAILS,
};

/*
 * AGAIN: a signal has the system call made again. The answer is to lie at AT among the answers. The first text lies at the room's
 * beginning, the second at INROOT_SECOND. At the end so many descriptors are closed, in their order: CLOSES.
 */
struct inroot_due {
    uint64_t number, resolve, mount;
    uint32_t fd, other, mode, at, closes, first_closed, second_closed;
    uint8_t what, step;
    bool again;
};

enum { INROOT_SECOND = 4352, INROOT_ROOM = 8960 };

/*
 * What is due by the answers so far. A slash stands before FIRST and SECOND, the demand's texts. FIRST has room for 4,096 bytes behind
 * the slash, where other paths may be laid. What the last system call read lies at the beginning of READ, which has 4,097 bytes at
 * least; there lies the text that a call gives. Single steps take memory, by malloc(3).
 */
void inroot_turn(struct inroot_demand *demand, struct inroot_state *state, unsigned char *first, size_t first_size,
                 const unsigned char *second, size_t second_length, unsigned char *read, size_t read_size,
                 struct inroot_gave *answers, size_t count, struct inroot_due *due, unsigned char *room, size_t size);

#endif
