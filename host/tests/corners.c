/*
 * corners: what seldom happens to a call. The kernel refuses or interrupts what hardly ever is, a text is too long in
 * the midst of a call, or there is no /proc, or no number, as the first call is made; by the kernel's walk and with
 * INROOT_EXACT.
 *
 * usage: corners DIR. Exits 0 where each call gives the error that inroot.h has for it, and leaves nothing open. 78: no right to
 * change a root, so that a part is left out.
 */
#define _GNU_SOURCE
#include "support.h"
#include "wraps.h"

#include <errno.h>
#include <fcntl.h>
#include <limits.h>
#include <string.h>
#include <sys/resource.h>
#include <sys/stat.h>
#include <sys/syscall.h>

static int root;

/*
 * The error by which each such call fails, or 0; and how often one is interrupted before that: the reading of a directory, and the
 * opening of /proc.
 */
static int no_text, no_names, interrupts, open_interrupts;

static int refused(int error)
{
    errno = error;
    return -1;
}

static int my_openat(int dir, const char *path, int flags, mode_t mode)
{
    return strcmp(path, "/proc") == 0 && open_interrupts > 0 ? open_interrupts--, refused(EINTR)
                                                             : __real_openat(dir, path, flags, mode);
}

INSTEAD_OF_OPENAT(my_openat)

ssize_t __wrap_readlinkat(int dir, const char *name, char *text, size_t size)
{
    return no_text && strncmp(name, "thread-self/", 12) != 0 ? refused(no_text) : __real_readlinkat(dir, name, text, size);
}

static long my_syscall(long number, const long *with)
{
    if (number == SYS_getdents64 && interrupts > 0) {
        interrupts--;
        return refused(EINTR);
    }
    if (number == SYS_getdents64 && no_names)
        return refused(no_names);
    return REAL_SYSCALL(number, with);
}

INSTEAD_OF_SYSCALL(my_syscall)

/* ---- signals */

/* As the library opens /proc, it is asked again. */
static void interrupted_at_first(void)
{
    open_interrupts = 8;
    gives_object(inroot_open(root, "a/f", INROOT_EXACT), root, "a/f", "a file, found while signals come");
    gives(open_interrupts, 0, "signals that are to come still at first");
}

/* ---- what can't be read */

static void unread(void)
{
    unlinkat(root, "a/second", 0);
    mkdirat(root, "a/t", 0755);
    sure(mknodat(root, "a/t/f", S_IFREG | 0600, 0), "a/t/f");
    open_proc();
    int before = open_descriptors(), link = sure(openat(root, "a/l", O_PATH | O_NOFOLLOW | O_CLOEXEC), "a/l");
    no_text = EIO;
    gives(inroot_link_fd(root, link, "a/second", way), -EIO, "a second name of a link that can't be read");
    gives(inroot_open(root, "a/./l", way | INROOT_EXACT), -EIO, "a link that can't be read");
    close(sure(inroot_open(root, "a/l", 0), "a link that the kernel reads"));
    no_text = 0;
    gives(inroot_link_fd(root, link, "a/second", way), 0, "a second name of a link");
    close(link);
    interrupts = 3;
    no_names = EIO;
    gives(inroot_remove_all(root, "a/t", way), -EIO, "a directory that can't be read");
    no_names = 0;
    interrupts = 3;
    gives(inroot_remove_all(root, "a/t", way), 2, "a directory whose reading is interrupted");
    gives(interrupts, 0, "interruptions that are to come still");
    gives(open_descriptors(), before, "open descriptors");
}

/* ---- texts that are too long */

static void long_texts(void)
{
    static char path[3 * PATH_MAX], text[PATH_MAX];
    memset(path, 'x', 5000);
    gives(inroot_open(root, path, way), -ENAMETOOLONG, "a path of 5,000 bytes");
    gives(inroot_openat(root, path, O_RDWR | O_CREAT, 0600, way), -ENAMETOOLONG, "a file by a path of 5,000 bytes");
    gives(inroot_symlink(root, path, "a/long", way), -ENAMETOOLONG, "a link with a text of 5,000 bytes");
    gives(inroot_rename(root, "a/f", path, 0, way), -ENAMETOOLONG, "a rename to a path of 5,000 bytes");
    memset(path + 4095, 0, 1);
    for (size_t at = 1; at < 4095; at += 2)
        path[at] = '/';
    gives(inroot_open(root, path, way), -ENOENT, "a path of 4,095 bytes");
    /* The link's text fits, and so does its path, but not the one behind the directory of the other. */
    memset(text, 'y', 4000);
    for (size_t at = 1; at < 4000; at += 2)
        text[at] = '/';
    text[4000] = 0;
    memset(path, 0, sizeof path);
    strcpy(path, "a/");
    for (int at = 0; at < 100; at++)
        strcat(path, "./");
    strcat(path, "long");
    unlinkat(root, "a/long", 0);
    sure(symlinkat(text, root, "a/long"), "a/long");
    gives(inroot_openat(root, path, O_RDWR | O_CREAT, 0600, way), -ENAMETOOLONG, "a file at the end of a long link");
}

/* ---- the first call of a program */

static void allow(rlim_t count)
{
    struct rlimit limit;
    sure(getrlimit(RLIMIT_NOFILE, &limit), "getrlimit");
    limit.rlim_cur = count;
    sure(setrlimit(RLIMIT_NOFILE, &limit), "setrlimit");
}

/* The object is found, and there is no number for /proc. */
static void without_numbers(void)
{
    allow((rlim_t)take_gaps(root) + 1);
    gives(inroot_open(root, "a/f", INROOT_EXACT), -EMFILE, "the first call with one number left");
    allow(256);
    gives_fd(inroot_open(root, "a/f", INROOT_EXACT), "the call afterwards");
}

/* The one that is left is that of a standard file, which /proc isn't to have. */
static void without_high_numbers(void)
{
    close(STDIN_FILENO);
    allow(STDERR_FILENO + 1);
    gives(inroot_use_proc(root), -EINVAL, "what is no /proc");
    gives(inroot_proc_open(INROOT_PROC_SELF, "comm", O_RDONLY), -EMFILE, "a file of /proc with the number of a standard file left");
    allow(256);
    expect(fcntl(STDIN_FILENO, F_GETFD) < 0, "the number of a standard file was taken");
}

static void without_proc(void)
{
    chroot_or_end(root);
    gives_object(inroot_open(root, "a/f", 0), root, "a/f", "the kernel's walk where there is no /proc");
    gives(inroot_open(root, "a/f", INROOT_EXACT), -ENOSYS, "a file where there is no /proc");
    gives(inroot_mkdir(root, "a/x", 0700, INROOT_EXACT), -ENOSYS, "a directory where there is no /proc");
    gives(inroot_reopen(root, O_RDONLY), -ENOSYS, "a directory once more where there is no /proc");
}

int main(int count, char **words)
{
    static void (*const parts[])(void) = {
        without_numbers, without_high_numbers, without_proc, interrupted_at_first,
    };
    int skipped = 0;
    if (count != 2)
        return 2;
    root = sure(open(words[1], O_PATH | O_DIRECTORY | O_CLOEXEC), words[1]);
    sure(mkdirat(root, "a", 0755), "a");
    sure(mknodat(root, "a/f", S_IFREG | 0600, 0), "a/f");
    sure(symlinkat("f", root, "a/l"), "a/l");
    for (size_t one = 0; one < sizeof parts / sizeof *parts; one++)
        skipped |= apart(parts[one]);
    for (way = 0; way <= INROOT_EXACT; way += INROOT_EXACT) {
        apart(unread);
        apart(long_texts);
    }
    printf("corners: %d not as they are to be\n", wrong);
    return wrong != 0 ? 1 : skipped;
}
