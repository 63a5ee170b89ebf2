/* inroot-fs-change.c: the commands of inroot-fs that change entries and files. */
#define _GNU_SOURCE
#include "inroot-fs.h"
#include "inroot.h"

#include <errno.h>
#include <fcntl.h>
#include <limits.h>
#include <pthread.h>
#include <stdio.h>
#include <string.h>
#include <sys/stat.h>
#include <time.h>
#include <unistd.h>

static enum fs_status answer(const struct fs_call *call, const char *path, int result)
{
    return result < 0 ? fs_refused(call, path, -result) : FS_DONE;
}

/* Writes all bytes. Gives 0 or an error. */
static int write_all(int file, const char *bytes, size_t length)
{
    while (length > 0) {
        ssize_t written = write(file, bytes, length);
        if (written < 0 && errno != EINTR)
            return errno;
        if (written > 0) {
            bytes += written;
            length -= (size_t)written;
        }
    }
    return 0;
}

/* Copies standard input to the file. */
static enum fs_status copy_in(const struct fs_call *call, const char *path, int file)
{
    static char bytes[65536];
    ssize_t length;
    while ((length = read(STDIN_FILENO, bytes, sizeof bytes)) != 0) {
        if (length < 0 && errno == EINTR)
            continue;
        if (length < 0)
            return fs_fault(call, "standard input", errno);
        int error = write_all(file, bytes, (size_t)length);
        if (error != 0)
            return fs_fault(call, path, error);
    }
    return FS_DONE;
}

static bool is_other(const struct stat *about)
{
    return !S_ISREG(about->st_mode) && !S_ISDIR(about->st_mode);
}

/* How often what is there is looked for and made, by turns: once for each link at the end, and for others who come in between. */
enum { TURNS = 64 };

/* By what was found, and never by its path again: to open a FIFO or a device may wait for others, or change something. */
static enum fs_status open_found(const struct fs_call *call, const char *path, int found, int *file)
{
    struct stat about;
    bool is_known = fstat(found, &about) == 0;
    if (is_known && is_other(&about)) {
        close(found);
        return fs_invalid(call, path, "it is not a regular file");
    }
    *file = is_known ? inroot_reopen(found, O_WRONLY | (call->append ? O_APPEND : O_TRUNC)) : -errno;
    close(found);
    return *file < 0 ? fs_refused(call, path, -*file) : FS_DONE;
}

/*
 * Goes on to the path to which the link at the end of this one leads. Gives EAGAIN where the next turn is due, also if others took
 * the link away; or why there is none.
 */
static int follow(const struct fs_call *call, char path[PATH_MAX])
{
    char text[PATH_MAX];
    ssize_t length = inroot_readlink(call->root, path, call->flags, text, sizeof text);
    const char *slash = strrchr(path, '/');
    size_t kept = slash == NULL || (length > 0 && text[0] == '/') ? 0 : (size_t)(slash - path) + 1;
    if (length < 0)
        return length == -EINVAL || length == -ENOENT ? EAGAIN : (int)-length;
    if (kept + (size_t)length >= PATH_MAX)
        return ENAMETOOLONG;
    memcpy(path + kept, text, (size_t)length);
    path[kept + (size_t)length] = '\0';
    return EAGAIN;
}

/* Opens the file that is written to; where it is missing, at the end of a link too, it is made, and is nobody else's then. */
static enum fs_status open_to_write(const struct fs_call *call, const char *given, int *file)
{
    char path[PATH_MAX];
    int error = EAGAIN;
    const int how = O_WRONLY | O_CREAT | O_EXCL | (call->append ? O_APPEND : 0);
    if (strlen(given) >= sizeof path)
        return fs_refused(call, given, ENAMETOOLONG);
    strcpy(path, given);
    for (int turn = 0; turn < TURNS && error == EAGAIN; turn++) {
        int found = call->exclusive ? -ENOENT : inroot_open(call->root, path, call->flags);
        if (found >= 0)
            return open_found(call, given, found, file);
        *file = found == -ENOENT ? inroot_openat(call->root, path, how, call->has_mode ? call->mode : 0666, call->flags) : found;
        if (*file >= 0)
            return FS_DONE;
        if (*file != -EEXIST || call->exclusive)
            error = -*file;
        else if (!(call->flags & INROOT_NO_LINKS))
            error = follow(call, path);
    }
    return fs_refused(call, given, error);
}

enum fs_status fs_write(const struct fs_call *call)
{
    const char *path = call->words[0];
    int file = -1;
    enum fs_status status = open_to_write(call, path, &file);
    if (status != FS_DONE)
        return status;
    status = copy_in(call, path, file);
    /* Some file systems tell only here that bytes could not be kept. */
    if (close(file) != 0 && status == FS_DONE)
        return fs_fault(call, path, errno);
    return status;
}

enum fs_status fs_mkdir(const struct fs_call *call)
{
    const char *path = call->words[0];
    mode_t mode = call->has_mode ? call->mode : 0777;
    if (!call->parents)
        return answer(call, path, inroot_mkdir(call->root, path, mode, call->flags));
    int opened = inroot_mkdir_all(call->root, path, mode, call->flags);
    if (opened >= 0)
        close(opened);
    return answer(call, path, opened);
}

/* What a thread tells of a removal that takes long. */
struct progress {
    pthread_mutex_t lock;
    pthread_cond_t ended;
    bool has_ended, is_told;
};

/* Tells each second how long the removal has taken: the call itself tells how many entries went only at its end. */
static void *tell_progress(void *given)
{
    struct progress *progress = given;
    struct timespec next;
    clock_gettime(CLOCK_REALTIME, &next);
    pthread_mutex_lock(&progress->lock);
    for (int seconds = 1; !progress->has_ended; seconds++) {
        next.tv_sec++;
        while (!progress->has_ended && pthread_cond_timedwait(&progress->ended, &progress->lock, &next) != ETIMEDOUT)
            ;
        if (!progress->has_ended)
            progress->is_told = fprintf(stderr, "\rinroot-fs: rm: %d s", seconds) > 0;
    }
    pthread_mutex_unlock(&progress->lock);
    return NULL;
}

/* Removes a tree, and tells a terminal meanwhile that it goes on. */
static ssize_t remove_and_tell(const struct fs_call *call, const char *path)
{
    struct progress progress = {.lock = PTHREAD_MUTEX_INITIALIZER, .ended = PTHREAD_COND_INITIALIZER};
    pthread_t teller;
    if (!isatty(STDERR_FILENO) || pthread_create(&teller, NULL, tell_progress, &progress) != 0)
        return inroot_remove_all(call->root, path, call->flags);
    ssize_t removed = inroot_remove_all(call->root, path, call->flags);
    pthread_mutex_lock(&progress.lock);
    progress.has_ended = true;
    pthread_cond_signal(&progress.ended);
    pthread_mutex_unlock(&progress.lock);
    pthread_join(teller, NULL);
    if (progress.is_told)
        fputs("\r\033[K", stderr);
    return removed;
}

enum fs_status fs_rm(const struct fs_call *call)
{
    const char *path = call->words[0];
    if (!call->recursive)
        return answer(call, path, inroot_unlink(call->root, path, call->flags));
    ssize_t removed = remove_and_tell(call, path);
    if (removed < 0)
        return fs_refused(call, path, (int)-removed);
    printf("removed %zd\n", removed);
    return FS_DONE;
}

enum fs_status fs_rmdir(const struct fs_call *call)
{
    return answer(call, call->words[0], inroot_rmdir(call->root, call->words[0], call->flags));
}

enum fs_status fs_mv(const struct fs_call *call)
{
    int result = inroot_rename(call->root, call->words[0], call->words[1], call->mode_of_rename, call->flags);
    /* The entry that is in the way is the one at TO. */
    return answer(call, call->words[result == -EEXIST || result == -ENOTEMPTY], result);
}

enum fs_status fs_ln(const struct fs_call *call)
{
    const char *first = call->words[0], *path = call->words[1];
    int result = call->symbolic ? inroot_symlink(call->root, first, path, call->flags)
                                : inroot_link(call->root, first, path, call->flags);
    return answer(call, path, result);
}
