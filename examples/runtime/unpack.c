/*
 * unpack: unpacks a tar archive below a directory, whatever its names and links lead to, as an image builder does.
 *
 * usage: unpack [-o] [-s] [-t] ROOT <ARCHIVE
 *
 *   -o   sets the owners of the entries, by their numbers
 *   -s   walks to each entry by its whole path, so that none is made in a directory that was moved out before
 *   -t   sets the times at which they were changed
 *
 * Each name of the archive is a path below ROOT. An entry that is there already is replaced, a link too: nothing is
 * written through it. Modes are set. An entry that can't be made is told, and the others are made. Statuses: 0, 1 where
 * an entry could not be made, 2 a wrong command line, 4 any other fault.
 */
#define _GNU_SOURCE
#include "tar.h"

#include <errno.h>
#include <fcntl.h>
#include <inroot.h>
#include <search.h>
#include <stdbool.h>
#include <stdlib.h>
#include <string.h>
#include <sys/stat.h>
#include <sys/sysmacros.h>
#include <unistd.h>

/* What of a directory is set at the end: one that may not be written to could not be filled otherwise. */
struct directory {
    struct directory *next;
    struct tar_status status;
    struct stat about;          /* which one it is, where that is asked for */
    char name[];
};

struct unpacking {
    int root;
    int above;                  /* the directory of the last entry, or -1; and its path */
    char above_name[PATH_MAX];
    int at;                     /* where the paths of calls begin: that directory, or the root */
    bool owners, strict, times, failed;
    bool again;                 /* a directory was there already, so it may have come before */
    struct tar_reader reader;
    struct directory *directories;
    void *set;                  /* those of them that are set, by device and inode (tsearch(3)) */
};

/* Tells on standard error, without letting the archive's bytes at a terminal. */
static void tell(const char *name, const char *what)
{
    fputs("unpack: ", stderr);
    for (; *name != '\0'; name++)
        fputc(*name < ' ' || *name > '~' ? '?' : *name, stderr);
    fprintf(stderr, ": %s\n", what);
}

/* Tells what an entry could not be made for. */
static void fail(struct unpacking *u, const char *name, int error)
{
    tell(name, strerror(error));
    u->failed = true;
}

/* ---- the directory of an entry, which stays open while the next ones are made in it */

static bool is_same(int one, int other)
{
    struct stat a, b;
    return fstat(one, &a) == 0 && fstat(other, &b) == 0 && a.st_dev == b.st_dev && a.st_ino == b.st_ino;
}

/*
 * Others may have moved the directory meanwhile, out of the root as well: then what was made in it since it was opened
 * may stand there. This tells so.
 */
static void look_again(struct unpacking *u)
{
    int now = inroot_openat(u->root, u->above_name, O_PATH | O_DIRECTORY, 0, 0);
    if (now < 0 || !is_same(now, u->above)) {
        tell(u->above_name, "somebody moved or removed it while entries were made in it");
        u->failed = true;
    }
    if (now >= 0)
        close(now);
}

static void close_above(struct unpacking *u)
{
    if (u->above < 0)
        return;
    if (!u->strict)
        look_again(u);
    close(u->above);
    u->above = -1;
}

/* Has the entry's directory open, which is made where it is missing. Gives 0 or -errno, and the last name. */
static int open_above(struct unpacking *u, const char *name, const char **last)
{
    char above[PATH_MAX];
    const char *slash = strrchr(name, '/');
    *last = slash == NULL ? name : slash + 1;
    /* Of a name in the top directory that one is meant, with or without a slash before it. */
    snprintf(above, sizeof above, "%.*s", slash == NULL || slash == name ? 1 : (int)(slash - name),
             slash == NULL || slash == name ? "." : name);
    if (u->above >= 0 && strcmp(above, u->above_name) == 0)
        return 0;
    close_above(u);
    memcpy(u->above_name, above, sizeof above);
    int made = inroot_mkdir_all(u->root, above, 0755, 0);
    u->above = made < 0 ? -1 : made;
    u->at = u->strict ? u->root : u->above;
    return made < 0 ? made : 0;
}

/* Removes what is at the name, so that the entry is made anew; nothing of what is mounted there. Gives 0 or -errno. */
static int make_room(const struct unpacking *u, const char *last)
{
    int failed = inroot_unlink(u->at, last, 0);
    if (failed == -EISDIR)
        failed = inroot_remove_all(u->at, last, INROOT_NO_XDEV) < 0 ? -EBUSY : 0;
    return failed == -ENOENT ? 0 : failed;
}

/* ---- what is set of an entry */

static void times_of(const struct tar_status *status, struct timespec times[2])
{
    times[0] = (struct timespec){.tv_nsec = UTIME_OMIT};
    times[1] = status->changed;
}

/* Of what is open by O_PATH. The owner first: the kernel takes bits of the mode off with it. Gives 0 or -errno. */
static int set_found(const struct unpacking *u, int found, const struct tar_status *status, bool is_link)
{
    struct timespec times[2];
    int failed = u->owners ? inroot_fchown(found, status->user, status->group) : 0;
    if (failed == 0 && !is_link)
        failed = inroot_fchmod(found, status->mode);
    times_of(status, times);
    return failed == 0 && u->times ? inroot_futimens(found, times) : failed;
}

/* Of a file that is open to be written. */
static int set_file(const struct unpacking *u, int file, const struct tar_status *status)
{
    struct timespec times[2];
    times_of(status, times);
    if (u->owners && fchown(file, status->user, status->group) != 0)
        return -errno;
    return fchmod(file, status->mode) != 0 || (u->times && futimens(file, times) != 0) ? -errno : 0;
}

/* Of an entry that was made and given, or wasn't made. Gives 0 or -errno. */
static int set_given(const struct unpacking *u, int given, const struct tar_entry *entry, bool is_link)
{
    int failed = given < 0 ? given : set_found(u, given, &entry->status, is_link);
    if (given >= 0)
        close(given);
    return failed;
}

/* ---- entries, in the directory that is open. Each gives 0 or -errno, and -EEXIST where there is one already */

/* Copies the entry's contents. */
static int copy_contents(struct tar_reader *reader, int file)
{
    static char bytes[65536];
    ssize_t length;
    while ((length = tar_read(reader, bytes, sizeof bytes)) > 0)
        for (ssize_t at = 0; at < length;) {
            ssize_t written = write(file, bytes + at, (size_t)(length - at));
            if (written < 0 && errno != EINTR)
                return -errno;
            at += written > 0 ? written : 0;
        }
    return length < 0 ? -EIO : 0;
}

static int make_file(struct unpacking *u, const struct tar_entry *entry, const char *last)
{
    /* O_EXCL: it is this call that makes it, so that nobody's file is written to. */
    int file = inroot_openat(u->at, last, O_WRONLY | O_CREAT | O_EXCL, 0600, 0);
    if (file < 0)
        return file;
    int failed = copy_contents(&u->reader, file);
    if (failed == 0)
        failed = set_file(u, file, &entry->status);
    if (close(file) != 0 && failed == 0)
        failed = -errno;
    return failed;
}

static int make_node(const struct unpacking *u, const struct tar_entry *entry, const char *last, mode_t kind)
{
    dev_t device = kind == S_IFIFO ? 0 : makedev(entry->major, entry->minor);
    return set_given(u, inroot_mknod(u->at, last, kind | 0600, device, INROOT_GIVE), entry, false);
}

static int make_link(const struct unpacking *u, const struct tar_entry *entry, const char *last)
{
    if (!u->owners && !u->times)
        return inroot_symlink(u->at, entry->link, last, 0);
    return set_given(u, inroot_symlink(u->at, entry->link, last, INROOT_GIVE), entry, true);
}

static bool is_there(const struct unpacking *u, const char *last, int object)
{
    int found = inroot_open(u->at, last, INROOT_NOFOLLOW);
    bool is = found >= 0 && is_same(found, object);
    if (found >= 0)
        close(found);
    return is;
}

/* What has the name already stays: a file that comes twice is a link to itself the second time. */
static int make_second_name(const struct unpacking *u, const struct tar_entry *entry, const char *last)
{
    int existing = inroot_open(u->root, entry->link, INROOT_NOFOLLOW);
    int failed = existing < 0 ? existing : inroot_link_fd(u->at, existing, last, 0);
    if (failed == -EEXIST && is_there(u, last, existing))
        failed = 0;
    if (existing >= 0)
        close(existing);
    return failed;
}

static int make_new(struct unpacking *u, const struct tar_entry *entry, const char *last)
{
    switch (entry->type) {
    case '0': return make_file(u, entry, last);
    case '1': return make_second_name(u, entry, last);
    case '2': return make_link(u, entry, last);
    case '3': return make_node(u, entry, last, S_IFCHR);
    case '4': return make_node(u, entry, last, S_IFBLK);
    case '5': return inroot_mkdir(u->at, last, 0700, 0);
    case '6': return make_node(u, entry, last, S_IFIFO);
    default: return -EOPNOTSUPP;
    }
}

/* Replaces what is there already, but for a directory where one is wanted. Gives 0 or -errno. */
static int make_in_place(struct unpacking *u, const struct tar_entry *entry, const char *last)
{
    struct stat about;
    int failed = make_new(u, entry, last);
    if (failed != -EEXIST)
        return failed;
    if (entry->type == '5' && inroot_stat(u->at, last, &about, INROOT_NOFOLLOW) == 0 && S_ISDIR(about.st_mode)) {
        u->again = true;
        return 0;
    }
    failed = make_room(u, last);
    return failed < 0 ? failed : make_new(u, entry, last);
}

/* Keeps what is to be set of a directory at the end. Gives 0 or -errno. */
static int keep(struct unpacking *u, const struct tar_entry *entry)
{
    size_t length = strlen(entry->name) + 1;
    struct directory *kept = malloc(sizeof *kept + length);
    if (kept == NULL)
        return -ENOMEM;
    memcpy(kept->name, entry->name, length);
    kept->status = entry->status;
    kept->next = u->directories;
    u->directories = kept;
    return 0;
}

/* What a path without a last name means, as `..`, is a directory or none. */
static int make_directories(struct unpacking *u, const struct tar_entry *entry)
{
    int opened = entry->type == '5' ? inroot_mkdir_all(u->root, entry->name, 0700, 0) : -EINVAL;
    u->again |= u->directories != NULL;
    if (opened >= 0)
        close(opened);
    return opened < 0 ? opened : 0;
}

/* Makes an entry. Gives 0 or -errno. */
static int make_entry(struct unpacking *u, struct tar_entry *entry)
{
    const char *last;
    size_t length = strlen(entry->name);
    while (length > 1 && entry->name[length - 1] == '/')
        entry->name[--length] = '\0';
    int failed = open_above(u, entry->name, &last);
    bool is_name = *last != '\0' && strcmp(last, ".") != 0 && strcmp(last, "..") != 0;
    if (failed == 0)
        failed = is_name ? make_in_place(u, entry, u->strict ? entry->name : last) : make_directories(u, entry);
    /* Where the directory is gone, the next entry has it made anew. */
    if (failed == -ENOENT)
        close_above(u);
    return failed == 0 && entry->type == '5' ? keep(u, entry) : failed;
}

static int by_object(const void *one, const void *other)
{
    const struct stat *a = &((const struct directory *)one)->about, *b = &((const struct directory *)other)->about;
    if (a->st_dev != b->st_dev)
        return a->st_dev < b->st_dev ? -1 : 1;
    return (a->st_ino > b->st_ino) - (a->st_ino < b->st_ino);
}

/* Whether this directory isn't set yet. Gives 0 or -errno. */
static int look_if_new(struct unpacking *u, struct directory *one, int found, bool *is_new)
{
    if (fstat(found, &one->about) != 0)
        return -errno;
    struct directory **set = tsearch(one, &u->set, by_object);
    *is_new = set != NULL && *set == one;
    return set == NULL ? -ENOMEM : 0;
}

/* Sets what is to be set of one; of one that came more than once, what came last. Gives 0 or -errno. */
static int set_directory(struct unpacking *u, struct directory *one)
{
    bool is_new = true;
    /* The archive may have put something else in its place: a link is not followed. */
    int found = inroot_openat(u->root, one->name, O_PATH | O_DIRECTORY | O_NOFOLLOW, 0, 0);
    int failed = found < 0 ? found : u->again ? look_if_new(u, one, found, &is_new) : 0;
    if (failed == 0 && is_new)
        failed = set_found(u, found, &one->status, false);
    if (found >= 0)
        close(found);
    return failed;
}

/* Of all of them, the last first, so that what is below is reached before it is closed. They stay until the program ends. */
static void set_directories(struct unpacking *u)
{
    for (struct directory *one = u->directories; one != NULL; one = one->next) {
        int failed = set_directory(u, one);
        if (failed < 0)
            fail(u, one->name, -failed);
    }
}

/* ---- the archive */

static int unpack(struct unpacking *u)
{
    static struct tar_entry entry;
    int found;
    while ((found = tar_next(&u->reader, &entry)) == 1) {
        if (entry.type == '0' && entry.given != '0' && entry.given != '7' && entry.given != '\0')
            tell(entry.name, "its type is unknown: it is made as a file");
        int failed = make_entry(u, &entry);
        if (failed < 0)
            fail(u, entry.name, -failed);
    }
    close_above(u);
    set_directories(u);
    if (found < 0)
        tell("the archive", u->reader.wrong);
    return found < 0 ? 4 : u->failed ? 1 : 0;
}

/* Reads the options. Gives whether they are some of these, and a ROOT stands behind them. */
static bool read_options(int count, char **words, struct unpacking *u)
{
    int option;
    while ((option = getopt(count, words, "ost")) != -1) {
        if (option == '?')
            return false;
        u->owners |= option == 'o';
        u->strict |= option == 's';
        u->times |= option == 't';
    }
    return optind == count - 1;
}

int main(int count, char **words)
{
    static struct unpacking u = {.above = -1};
    /* For headers and small files. What is larger is read where it is written from, without a copy. */
    static char ahead[1 << 13];
    if (!read_options(count, words, &u)) {
        fputs("usage: unpack [-o] [-s] [-t] ROOT <ARCHIVE\n", stderr);
        return 2;
    }
    setvbuf(stdin, ahead, _IOFBF, sizeof ahead);
    u.root = open(words[optind], O_PATH | O_DIRECTORY | O_CLOEXEC);
    if (u.root < 0) {
        tell(words[optind], strerror(errno));
        return 4;
    }
    u.reader.file = stdin;
    int status = unpack(&u);
    close(u.root);
    return status;
}
