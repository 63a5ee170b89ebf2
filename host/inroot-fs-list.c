/* inroot-fs-list.c: the command ls of inroot-fs. */
#define _GNU_SOURCE
#include "inroot-fs.h"
#include "inroot.h"

#include <dirent.h>
#include <errno.h>
#include <fcntl.h>
#include <limits.h>
#include <stdio.h>
#include <stdlib.h>
#include <string.h>
#include <sys/stat.h>
#include <unistd.h>

struct names {
    char **at;
    size_t count, room;
};

static bool add_name(struct names *names, const char *name)
{
    if (names->count == names->room) {
        size_t room = names->room == 0 ? 64 : names->room * 2;
        char **more = realloc(names->at, room * sizeof *more);
        if (more == NULL)
            return false;
        names->at = more;
        names->room = room;
    }
    char *kept = strdup(name);
    if (kept == NULL)
        return false;
    names->at[names->count++] = kept;
    return true;
}

/* Reads all names of a directory but `.` and `..`. Gives 0 or an error. */
static int read_names(DIR *directory, struct names *names)
{
    struct dirent *entry;
    while (errno = 0, (entry = readdir(directory)) != NULL) {
        bool is_dots = strcmp(entry->d_name, ".") == 0 || strcmp(entry->d_name, "..") == 0;
        if (!is_dots && !add_name(names, entry->d_name))
            return ENOMEM;
    }
    return errno;
}

static int by_bytes(const void *one, const void *other)
{
    return strcmp(*(char *const *)one, *(char *const *)other);
}

/* Writes the letter of a kind, and nine of the permissions, as ls(1). */
static void write_mode(mode_t mode, char letters[11])
{
    static const char kinds[] = "?pc?d?b?-?l?s???";
    letters[0] = kinds[(mode & S_IFMT) >> 12];
    for (int bit = 0; bit < 9; bit++)
        letters[1 + bit] = (char)((mode & (0400u >> bit)) != 0 ? "rwx"[bit % 3] : '-');
    if (mode & S_ISUID)
        letters[3] = (mode & S_IXUSR) != 0 ? 's' : 'S';
    if (mode & S_ISGID)
        letters[6] = (mode & S_IXGRP) != 0 ? 's' : 'S';
    if (mode & S_ISVTX)
        letters[9] = (mode & S_IXOTH) != 0 ? 't' : 'T';
    letters[10] = '\0';
}

static void print_bytes(const struct fs_call *call, const char *bytes, size_t length)
{
    if (call->zero)
        fwrite(bytes, 1, length, stdout);
    else
        fs_print(bytes, length);
}

/* Prints what is known of an entry, by its name in the directory that is held; nothing of one that is gone by now. */
static int print_in_full(const struct fs_call *call, int directory, const char *name)
{
    struct stat about;
    char letters[11], date[32], text[PATH_MAX];
    if (fstatat(directory, name, &about, AT_SYMLINK_NOFOLLOW | AT_NO_AUTOMOUNT) != 0)
        return errno == ENOENT ? 0 : errno;
    write_mode(about.st_mode, letters);
    fs_write_date(about.st_mtim.tv_sec, date);
    printf("%s %lu %lu %lu %lld %s ", letters, (unsigned long)about.st_nlink, (unsigned long)about.st_uid,
           (unsigned long)about.st_gid, (long long)about.st_size, date);
    print_bytes(call, name, strlen(name));
    ssize_t length = S_ISLNK(about.st_mode) ? readlinkat(directory, name, text, sizeof text) : -1;
    if (length >= 0) {
        fputs(" -> ", stdout);
        print_bytes(call, text, (size_t)length);
    }
    putchar(call->zero ? '\0' : '\n');
    return 0;
}

static int print_names(const struct fs_call *call, int directory, struct names *names)
{
    int error = 0;
    if (names->count != 0)
        qsort(names->at, names->count, sizeof *names->at, by_bytes);
    for (size_t at = 0; at < names->count && error == 0; at++) {
        if (call->in_full)
            error = print_in_full(call, directory, names->at[at]);
        else
            fs_print_line(call, names->at[at], strlen(names->at[at]));
    }
    return error;
}

enum fs_status fs_ls(const struct fs_call *call)
{
    struct names names = {0};
    const char *path = call->words[0] == NULL ? "." : call->words[0];
    int opened = inroot_openat(call->root, path, O_RDONLY | O_DIRECTORY, 0, call->flags);
    if (opened < 0)
        return fs_refused(call, path, -opened);
    DIR *directory = fdopendir(opened);
    if (directory == NULL) {
        int error = errno;
        close(opened);
        return fs_fault(call, path, error);
    }
    int error = read_names(directory, &names);
    if (error == 0)
        error = print_names(call, opened, &names);
    closedir(directory);
    for (size_t at = 0; at < names.count; at++)
        free(names.at[at]);
    free(names.at);
    return error == 0 ? FS_DONE : fs_fault(call, path, error);
}
