/* inroot-fs-read.c: the commands of inroot-fs that change nothing. */
#define _GNU_SOURCE
#include "inroot-fs.h"
#include "error_name.h"
#include "inroot.h"

#include <errno.h>
#include <fcntl.h>
#include <limits.h>
#include <stdio.h>
#include <string.h>
#include <sys/stat.h>
#include <unistd.h>

static const char *kind_of(mode_t mode)
{
    switch (mode & S_IFMT) {
    case S_IFDIR: return "dir";
    case S_IFLNK: return "link";
    case S_IFIFO: return "fifo";
    case S_IFSOCK: return "socket";
    case S_IFCHR: return "char";
    case S_IFBLK: return "block";
    default: return "file";
    }
}

/* Writes the root's path, as the kernel gives it, and behind it the object's below the root: how long both are, or -errno. */
static ssize_t find_place(const struct fs_call *call, int object, char place[2 * PATH_MAX])
{
    char link[32], below[PATH_MAX];
    snprintf(link, sizeof link, "/proc/self/fd/%d", call->root);
    ssize_t above = readlink(link, place, PATH_MAX);
    if (above < 0)
        return -errno;
    ssize_t length = inroot_place(call->root, object, below, sizeof below);
    if (length < 0)
        return length;
    /* Of a slash alone the other one has the slash. */
    if (above == 1)
        above = 0;
    if (length == 1 && above > 0)
        length = 0;
    memcpy(place + above, below, (size_t)length);
    return above + length;
}

/* Prints the object's place, and its kind before. */
static enum fs_status find_and_tell(const struct fs_call *call, bool with_kind)
{
    char place[2 * PATH_MAX];
    struct stat about = {0};
    int object = inroot_open(call->root, call->words[0], call->flags);
    ssize_t length = object < 0 ? object : fstat(object, &about) != 0 ? -errno : find_place(call, object, place);
    if (object >= 0)
        close(object);
    if (length < 0) {
        if (with_kind)
            printf("fault %s\n", error_name((int)-length));
        return fs_refused(call, call->words[0], (int)-length);
    }
    if (with_kind)
        printf("opened %s ", kind_of(about.st_mode));
    fs_print_line(call, place, (size_t)length);
    return FS_DONE;
}

enum fs_status fs_resolve(const struct fs_call *call)
{
    return find_and_tell(call, true);
}

enum fs_status fs_realpath(const struct fs_call *call)
{
    return find_and_tell(call, false);
}

/* Copies a file to standard output. */
static enum fs_status copy_out(const struct fs_call *call, const char *path, int file)
{
    static char bytes[65536];
    ssize_t length;
    while ((length = read(file, bytes, sizeof bytes)) != 0) {
        if (length < 0 && errno == EINTR)
            continue;
        if (length < 0)
            return fs_fault(call, path, errno);
        if (fwrite(bytes, 1, (size_t)length, stdout) != (size_t)length)
            return FS_FAULT;
    }
    return FS_DONE;
}

/*
 * Prints one file. It is found first, and opened for use by what was found: to open a FIFO or a device that somebody
 * placed there may wait for ever or change something.
 */
static enum fs_status cat_one(const struct fs_call *call, const char *path)
{
    struct stat about;
    int found = inroot_open(call->root, path, call->flags);
    if (found < 0)
        return fs_refused(call, path, -found);
    bool is_known = fstat(found, &about) == 0;
    bool is_other = is_known && !S_ISREG(about.st_mode) && !S_ISDIR(about.st_mode);
    int file = !is_known ? -errno : S_ISDIR(about.st_mode) ? -EISDIR : is_other ? -EINVAL
        : inroot_reopen(found, O_RDONLY);
    close(found);
    if (is_other)
        return fs_invalid(call, path, "it is not a regular file");
    if (file < 0)
        return fs_refused(call, path, -file);
    enum fs_status status = copy_out(call, path, file);
    close(file);
    return status;
}

enum fs_status fs_cat(const struct fs_call *call)
{
    enum fs_status worst = FS_DONE;
    for (char **path = call->words; *path != NULL; path++) {
        enum fs_status status = cat_one(call, *path);
        worst = status > worst ? status : worst;
    }
    return worst;
}

enum fs_status fs_readlink(const struct fs_call *call)
{
    char text[PATH_MAX];
    ssize_t length = inroot_readlink(call->root, call->words[0], call->flags, text, sizeof text);
    struct stat about;
    int flags = call->flags | INROOT_NOFOLLOW;
    if (length == -EINVAL && inroot_stat(call->root, call->words[0], &about, flags) == 0 && !S_ISLNK(about.st_mode))
        return fs_invalid(call, call->words[0], "it is not a link");
    if (length < 0)
        return fs_refused(call, call->words[0], (int)-length);
    fs_print_line(call, text, (size_t)length < sizeof text ? (size_t)length : sizeof text);
    return FS_DONE;
}

void fs_write_date(time_t time, char date[32])
{
    struct tm parts;
    if (gmtime_r(&time, &parts) == NULL || strftime(date, 32, "%Y-%m-%dT%H:%M:%SZ", &parts) == 0)
        strcpy(date, "-");
}

enum fs_status fs_stat(const struct fs_call *call)
{
    struct stat about;
    char date[32];
    int error = inroot_stat(call->root, call->words[0], &about, call->flags);
    if (error < 0)
        return fs_refused(call, call->words[0], -error);
    printf("kind %s\nmode %04o\nuid %lu\ngid %lu\n", kind_of(about.st_mode), about.st_mode & 07777u,
           (unsigned long)about.st_uid, (unsigned long)about.st_gid);
    printf("links %lu\nsize %lld\ninode %llu\n", (unsigned long)about.st_nlink, (long long)about.st_size,
           (unsigned long long)about.st_ino);
    fs_write_date(about.st_mtim.tv_sec, date);
    printf("modified %lld.%09ld\ndate %s\n", (long long)about.st_mtim.tv_sec, about.st_mtim.tv_nsec, date);
    return FS_DONE;
}
