/* inroot-fs.h: what the files of the tool inroot-fs share. */
#ifndef INROOT_FS_H
#define INROOT_FS_H

#include <stdbool.h>
#include <stddef.h>
#include <sys/types.h>
#include <time.h>

/*
 * The tool's statuses: what was asked for is done; a call was answered by an error; the command line is wrong; any
 * other fault, as output that can't be written.
 */
enum fs_status { FS_DONE = 0, FS_REFUSED = 1, FS_WRONG_CALL = 2, FS_FAULT = 4 };

/* A command with its options and arguments, as they were read. */
struct fs_call {
    const char *command;
    int root;              /* a descriptor of ROOT */
    int flags;             /* of the library's calls */
    bool parents, recursive, symbolic, append, exclusive, zero, in_full;
    int mode_of_rename;
    mode_t mode;           /* of what is made, where has_mode */
    bool has_mode;
    char **words;          /* the arguments, NULL behind the last */
};

/* inroot-fs.c */
/* Tells on standard error that the call on this path was answered by this error, and gives FS_REFUSED. */
enum fs_status fs_refused(const struct fs_call *call, const char *path, int error);
/* Tells EINVAL in these words, as that it is not a regular file, and gives FS_REFUSED. */
enum fs_status fs_invalid(const struct fs_call *call, const char *path, const char *why);
/* Tells what is wrong with the command line, about this word where there is one, and gives FS_WRONG_CALL. */
enum fs_status fs_wrong_call(const char *what, const char *word);
/* Reads a mode: octal digits, at most 07777. */
bool fs_read_mode(const char *text, mode_t *mode);
/* Tells that something other than a call of the library failed, by this errno, and gives FS_FAULT. */
enum fs_status fs_fault(const struct fs_call *call, const char *what, int error);
/* Prints the bytes so that a line holds them: one outside of 0x21 to 0x7e, and the backslash, is \x and two digits. */
void fs_print(const char *bytes, size_t length);
/* Prints a line of these bytes; with --zero the bytes as they are and a NUL. */
void fs_print_line(const struct fs_call *call, const char *bytes, size_t length);

/* inroot-fs-read.c */
/* Writes the second of a time in UTC, as 2026-11-27T13:02:55Z. */
void fs_write_date(time_t time, char date[32]);
enum fs_status fs_resolve(const struct fs_call *call);
enum fs_status fs_realpath(const struct fs_call *call);
enum fs_status fs_cat(const struct fs_call *call);
enum fs_status fs_readlink(const struct fs_call *call);
enum fs_status fs_stat(const struct fs_call *call);

/* inroot-fs-list.c */
enum fs_status fs_ls(const struct fs_call *call);

/* inroot-fs-attributes.c */
enum fs_status fs_chmod(const struct fs_call *call);
enum fs_status fs_chown(const struct fs_call *call);
enum fs_status fs_mknod(const struct fs_call *call);

/* inroot-fs-change.c */
enum fs_status fs_write(const struct fs_call *call);
enum fs_status fs_mkdir(const struct fs_call *call);
enum fs_status fs_rm(const struct fs_call *call);
enum fs_status fs_rmdir(const struct fs_call *call);
enum fs_status fs_mv(const struct fs_call *call);
enum fs_status fs_ln(const struct fs_call *call);

#endif
