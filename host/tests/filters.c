/*
 * filters: a filter refuses openat2(2) or statx(2), by three errors: each call that needs the system call fails by
 * ENOSYS at the step `Kernel` before it has done anything. A filter that comes later has calls fail, and nothing made;
 * once openat2(2) has failed so, calls fail by ENOSYS, too. Calls that need neither work. A filter's error is returned
 * as it is where the library keeps a descriptor.
 *
 * usage: filters DIR. Exits 0 where that holds. 78: no right to be filtered here.
 */
#define _GNU_SOURCE
#include "filter.h"

#include <fcntl.h>
#include <string.h>
#include <sys/stat.h>

/* The number is that of every machine. */
enum { OPENAT2 = 437 };

static int root, error;
static long refused;

static void is_refused(int got, const char *what)
{
    struct inroot_error why = {0};
    char text[128] = "";
    gives(got, -ENOSYS, "system call %ld by %d, %s", refused, error, what);
    gives(inroot_last_error(&why), 0, "system call %ld by %d, %s: its last error", refused, error, what);
    gives_text(why.step, "Kernel", "system call %ld by %d, %s: its step", refused, error, what);
    inroot_last_error_text(text, sizeof text);
    gives_text(text, "the kernel lacks openat2(2) or the number of mounts, or a filter refuses them (ENOSYS)", "%s", what);
}

/* What the kernel's walk alone can't do. */
static void each_by_steps(void)
{
    char text[PATH_MAX];
    is_refused(inroot_open(root, "a/f", INROOT_EXACT), "INROOT_EXACT");
    is_refused(inroot_mkdir(root, "a/new", 0755, INROOT_EXACT), "a directory with INROOT_EXACT");
    is_refused(inroot_mkdir_all(root, "a/new/er", 0755, INROOT_EXACT), "directories with INROOT_EXACT");
    is_refused((int)inroot_place(root, root, text, sizeof text), "a place");
}

static void each(void)
{
    struct stat about;
    is_refused(inroot_open(root, "a/f", 0), "plain names");
    is_refused(inroot_open(root, "a/../l", 0), "a link");
    is_refused(inroot_open(root, "a/none", 0), "a missing name");
    is_refused(inroot_openat(root, "a/f", O_RDWR | O_TRUNC, 0, 0), "a file to be used");
    is_refused(inroot_openat(root, "a/new", O_RDWR | O_CREAT, 0600, 0), "a file to be made");
    is_refused(inroot_stat(root, "a/f", &about, 0), "a status");
    is_refused(inroot_mkdir(root, "a/new", 0755, 0), "a directory");
    is_refused(inroot_unlink(root, "a/f", 0), "a removal");
    is_refused(inroot_rename(root, "a/f", "a/g", INROOT_PLAIN, 0), "a rename");
    is_refused((int)inroot_remove_all(root, "a", 0), "a tree");
    is_refused(inroot_proc_open(INROOT_PROC_SELF, "comm", O_RDONLY), "a file of /proc");
}

static void under_filter(void)
{
    refuse(refused, error);
    if (refused == OPENAT2)
        each();
    each_by_steps();
    gives(faccessat(root, "a/f", F_OK, 0), 0, "system call %ld by %d: the file", refused, error);
    gives(faccessat(root, "a/new", F_OK, 0), -1, "system call %ld by %d: what was to be made", refused, error);
}

/*
 * From now on: the thread has made the system call before, which is known to be there. Whatever comes is an error, and nothing is
 * made. Once openat2(2) has failed so, each call says that it isn't there.
 */
static void late(void)
{
    close(sure(inroot_open(root, "a/f", 0), "a/f"));
    close(sure(inroot_open(root, "a/f", INROOT_EXACT), "a/f"));
    refuse(refused, error);
    int got = inroot_mkdir(root, "a/new", 0755, INROOT_EXACT);
    expect(got < 0, "system call %ld by %d, from now on: it gives %d", refused, error, got);
    if (refused == OPENAT2) {
        each();
        each_by_steps();
    }
    gives(faccessat(root, "a/new", F_OK, 0), -1, "system call %ld by %d: what was to be made", refused, error);
}

/* A descriptor of the library's own that got the number of a standard file can't be moved: the call gives the filter's error. */
static void of_a_standard_file(void)
{
    int proc = sure(fcntl(sure(open("/proc", O_PATH | O_DIRECTORY | O_CLOEXEC), "/proc"), F_DUPFD_CLOEXEC, 100), "proc");
    close(STDIN_FILENO);
    int before = open_descriptors();
    refuse_where(SYS_fcntl, 1, ~0U, F_DUPFD_CLOEXEC, EPERM);
    gives(inroot_use_proc(proc), -EPERM, "a /proc that can't be kept");
    gives(open_descriptors(), before, "open descriptors");
}

int main(int count, char **words)
{
    static const long calls[] = {SYS_statx, OPENAT2};
    static const int errors[] = {EPERM, ENOSYS, EACCES};
    int skipped = 0;
    if (count != 2)
        return 2;
    root = sure(open(words[1], O_PATH | O_DIRECTORY | O_CLOEXEC), words[1]);
    sure(fchdir(root), "fchdir");
    sure(mkdirat(root, "a", 0755), "a");
    sure(mknodat(root, "a/f", S_IFREG | 0600, 0), "a/f");
    sure(symlinkat("/a/f", root, "l"), "l");
    for (size_t at = 0; at < sizeof calls / sizeof *calls; at++)
        for (size_t by = 0; by < sizeof errors / sizeof *errors; by++) {
            refused = calls[at];
            error = errors[by];
            skipped |= apart(under_filter) == NO_RIGHT;
            skipped |= apart(late) == NO_RIGHT;
        }
    skipped |= apart(of_a_standard_file) == NO_RIGHT;
    printf("filters: %d not as they are to be\n", wrong);
    return wrong != 0 ? 1 : skipped ? NO_RIGHT : 0;
}
