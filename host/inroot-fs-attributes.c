/* inroot-fs-attributes.c: the commands of inroot-fs that change modes and owners, and make non-directories. */
#define _GNU_SOURCE
#include "inroot-fs.h"
#include "inroot.h"

#include <errno.h>
#include <fcntl.h>
#include <limits.h>
#include <stdio.h>
#include <stdlib.h>
#include <string.h>
#include <sys/stat.h>
#include <sys/sysmacros.h>
#include <unistd.h>

enum fs_status fs_chmod(const struct fs_call *call)
{
    const char *path = call->words[1];
    mode_t mode;
    if (!fs_read_mode(call->words[0], &mode))
        return fs_wrong_call("a mode is octal digits, at most 7777, and not", call->words[0]);
    int found = inroot_open(call->root, path, call->flags);
    if (found < 0)
        return fs_refused(call, path, -found);
    int failed = inroot_fchmod(found, mode);
    close(found);
    return failed < 0 ? fs_refused(call, path, -failed) : FS_DONE;
}

/* Reads a number below 2^32 - 1 in decimal digits, up to a byte that is none. Gives that byte's place, or NULL. */
static const char *read_number(const char *text, unsigned long *number)
{
    char *end;
    if (*text < '0' || *text > '9')
        return NULL;
    *number = strtoul(text, &end, 10);
    return *number < UINT_MAX ? end : NULL;
}

/* Reads UID, UID:GID or :GID. What isn't there is all ones, which changes nothing (chown(2)). */
static bool read_owner(const char *text, uid_t *user, gid_t *group)
{
    unsigned long number = 0;
    const char *rest = text;
    *user = (uid_t)-1;
    *group = (gid_t)-1;
    if (*text != ':') {
        rest = read_number(text, &number);
        *user = (uid_t)number;
    }
    if (rest == NULL || *rest == '\0')
        return rest != NULL && rest != text;
    if (*rest != ':' || (rest = read_number(rest + 1, &number)) == NULL)
        return false;
    *group = (gid_t)number;
    return *rest == '\0';
}

enum fs_status fs_chown(const struct fs_call *call)
{
    const char *path = call->words[1];
    uid_t user;
    gid_t group;
    if (!read_owner(call->words[0], &user, &group))
        return fs_wrong_call("an owner is UID, UID:GID or :GID, in numbers, and not", call->words[0]);
    int found = inroot_open(call->root, path, call->flags);
    if (found < 0)
        return fs_refused(call, path, -found);
    int failed = inroot_fchown(found, user, group);
    close(found);
    return failed < 0 ? fs_refused(call, path, -failed) : FS_DONE;
}

/* The kind that a letter stands for, as by mknod(1); 0 where it is none. */
static mode_t kind_by(const char *letter)
{
    static const char letters[] = "fpscb";
    static const mode_t kinds[] = {S_IFREG, S_IFIFO, S_IFSOCK, S_IFCHR, S_IFBLK};
    const char *at = letter[0] == '\0' || letter[1] != '\0' ? NULL : strchr(letters, letter[0]);
    return at == NULL ? 0 : kinds[at - letters];
}

enum fs_status fs_mknod(const struct fs_call *call)
{
    const char *path = call->words[0];
    mode_t kind = kind_by(call->words[1]);
    unsigned long numbers[2] = {0, 0};
    char **word = call->words + 2;
    bool is_device = kind == S_IFCHR || kind == S_IFBLK;
    if (kind == 0)
        return fs_wrong_call("a kind is f, p, s, c or b, and not", call->words[1]);
    if (is_device != (word[0] != NULL) || (is_device && word[1] == NULL))
        return fs_wrong_call("MAJOR and MINOR are given for a device, and for nothing else", NULL);
    for (int at = 0; is_device && at < 2; at++) {
        const char *end = read_number(word[at], &numbers[at]);
        if (end == NULL || *end != '\0')
            return fs_wrong_call("a device has two numbers, and not", word[at]);
    }
    mode_t mode = kind | (call->has_mode ? call->mode : 0666);
    int result = inroot_mknod(call->root, path, mode, makedev((unsigned)numbers[0], (unsigned)numbers[1]), call->flags);
    return result < 0 ? fs_refused(call, path, -result) : FS_DONE;
}
