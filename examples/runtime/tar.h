/* tar.h: reads a tar archive (pax and ustar of POSIX.1) entry by entry. */
#ifndef TAR_H
#define TAR_H

#include <limits.h>
#include <stdint.h>
#include <stdio.h>
#include <sys/types.h>
#include <time.h>

/* What is set of an entry that was made. */
struct tar_status {
    mode_t mode;
    uid_t user;
    gid_t group;
    struct timespec changed; /* when the contents were */
};

/*
 * Types are '0' a file, '1' a hard link, '2' a symbolic link, '3' and '4' a device of characters and of blocks, '5' a
 * directory, '6' a FIFO, and those of GNU tar. What has any other one is a file, as POSIX.1 and GNU tar take it.
 */
struct tar_entry {
    char name[PATH_MAX], link[PATH_MAX]; /* as the archive has them; they are to be trusted in nothing */
    char type, given;                    /* as it is taken, and as the archive has it */
    struct tar_status status;
    uint64_t size;                       /* of a file's contents */
    unsigned major, minor;               /* of a device */
};

struct tar_reader {
    FILE *file;
    uint64_t left, padding; /* of the contents of this entry, and behind them */
    const char *wrong;      /* what is wrong with the archive */
};

/* Gives 1 and the next entry; 0 at the archive's end; -1 where the archive is wrong. */
int tar_next(struct tar_reader *reader, struct tar_entry *entry);

/* Reads of this entry's contents. Gives how many bytes, 0 at their end, -1 where the archive is wrong. */
ssize_t tar_read(struct tar_reader *reader, char *bytes, size_t size);

#endif
