/*
 * proc_files: inroot_proc_open() and inroot_proc_readlink() lead to a file of /proc from each base, and to its text,
 * and to nothing else. What is mounted over the file, on the way or over a link at the end is EXDEV, also if it is
 * mounted once the call has begun. A link of the kernel's own is ELOOP on the way, and at the end leads to its object
 * where the caller says so. `..` doesn't lead out. By a private proc(5) the calls lead to what is covered. Nothing
 * stays open, also where a question about a file fails. A proc(5) as the root of inroot_openat() is as safe under
 * INROOT_NO_XDEV, whatever is mounted at /proc, and without links of the kernel's own.
 *
 * usage: proc_files DIR. Exits 0 where that holds. 78: no right to mount here. 77: no openat2(2).
 */
#define _GNU_SOURCE
#include "filter.h"
#include "wraps.h"

#include <sys/prctl.h>
#include <sys/vfs.h>

/* The number is that of every machine. */
enum { OPENAT2 = 437, FSOPEN = 430, FSCONFIG = 431 };

static char where[PATH_MAX];

/* What is done as the library has seen that a link at the end is one of the kernel's own, and opens its directory. */
static void (*act)(void);

static long my_syscall(long number, const long *with)
{
    void (*now)(void) = act;
    if (now != NULL && number == OPENAT2 && (int)with[0] >= 0 && strcmp((const char *)with[1], ".") == 0) {
        act = NULL;
        now();
    }
    return REAL_SYSCALL(number, with);
}

INSTEAD_OF_SYSCALL(my_syscall)

/* The call of statx(2) that fails: the first from here on, the second, or none by 0. */
static int unasked;

#ifdef STATX_INO

int __wrap_statx(int dir, const char *name, int flags, unsigned what, struct statx *about)
{
    if (unasked == 0 || --unasked > 0)
        return __real_statx(dir, name, flags, what, about);
    errno = EIO;
    return -1;
}
#endif

/* What is read of a file, without the end of its line. */
static void reads(int fd, const char *wanted, const char *what)
{
    char text[64] = "";
    gives_fd(fd, "%s", what);
    if (fd < 0)
        return;
    ssize_t got = read(fd, text, sizeof text - 1);
    text[got > 0 && text[got - 1] == '\n' ? got - 1 : got > 0 ? got : 0] = 0;
    gives_text(text, wanted, "%s", what);
    gives(fcntl(fd, F_GETFD), FD_CLOEXEC, "%s: its flags", what);
    close(fd);
}

static void opens_object(int fd, const char *path, const char *what)
{
    gives_object(fd, AT_FDCWD, path, "%s", what);
    if (fd >= 0)
        close(fd);
}

static void fails(int base, const char *path, int flags, int error)
{
    int fd = inroot_proc_open(base, path, flags);
    gives(fd, -error, "base %d, %s, flags %#o", base, path, flags);
    if (fd >= 0)
        close(fd);
}

static void reads_link(int base, const char *path, const char *wanted)
{
    char text[PATH_MAX] = "";
    gives(inroot_proc_readlink(base, path, text, sizeof text - 1), (long)strlen(wanted), "the link %s", path);
    gives_text(text, wanted, "the link %s", path);
}

/* ---- what is there */

static void each_base(void)
{
    char name[32], task[64];
    open_proc();
    int before = open_descriptors();
    prctl(PR_SET_NAME, "proc_files");
    reads(inroot_proc_open(INROOT_PROC_ROOT, "self/comm", O_RDONLY), "proc_files", "from the top");
    reads(inroot_proc_open(INROOT_PROC_ROOT, "sys/kernel/ostype", O_RDONLY), "Linux", "what is of no process");
    reads(inroot_proc_open(INROOT_PROC_SELF, "comm", O_RDONLY), "proc_files", "of this process");
    reads(inroot_proc_open(INROOT_PROC_THREAD_SELF, "comm", O_RDONLY), "proc_files", "of this thread");
    reads(inroot_proc_open(getpid(), "comm", O_RDONLY), "proc_files", "of a process by its number");
    reads(inroot_proc_open(INROOT_PROC_SELF, "task/../comm", O_RDONLY), "proc_files", "behind `..`");
    int fd = inroot_proc_open(INROOT_PROC_THREAD_SELF, "comm", O_WRONLY | O_TRUNC);
    gives(write(fd, "written", 7), 7, "what is written");
    close(fd);
    gives(prctl(PR_GET_NAME, name), 0, "the name");
    gives_text(name, "written", "the name that was written");
    snprintf(task, sizeof task, "/proc/self/task/%d", (int)gettid());
    opens_object(inroot_proc_open(INROOT_PROC_ROOT, ".", O_PATH), "/proc", "the top itself");
    opens_object(inroot_proc_open(INROOT_PROC_THREAD_SELF, ".", O_RDONLY | O_DIRECTORY), task, "the thread's directory");
    opens_object(inroot_proc_open(getpid(), "fd/", O_RDONLY), "/proc/self/fd", "the directory of descriptors");
    gives(open_descriptors(), before, "open descriptors");
}

/* Links that are none of the kernel's own: they lead along their text. */
static void ordinary_links(void)
{
    char wanted[64];
    opens_object(inroot_proc_open(INROOT_PROC_ROOT, "self", O_PATH), "/proc/self/.", "a link that is followed");
    opens_object(inroot_proc_open(INROOT_PROC_ROOT, "mounts", O_RDONLY), "/proc/self/mounts", "a file behind a link");
    opens_object(inroot_proc_open(INROOT_PROC_ROOT, "self", O_PATH | O_NOFOLLOW), "/proc/self", "the link itself");
    fails(INROOT_PROC_ROOT, "self", O_RDONLY | O_NOFOLLOW, ELOOP);
    snprintf(wanted, sizeof wanted, "%d", (int)getpid());
    reads_link(INROOT_PROC_ROOT, "self", wanted);
    snprintf(wanted, sizeof wanted, "%d/task/%d", (int)getpid(), (int)gettid());
    reads_link(INROOT_PROC_ROOT, "thread-self", wanted);
}

/* Those of the kernel's own: never on the way, at the end where they are followed. */
static void magic_links(void)
{
    char name[32], text[PATH_MAX] = "", file[PATH_MAX + 8];
    snprintf(file, sizeof file, "%s/file", where);
    open_proc();
    int fd = sure(open(file, O_PATH | O_CLOEXEC), file);
    int before = open_descriptors();
    snprintf(name, sizeof name, "fd/%d", fd);
    opens_object(inroot_proc_open(INROOT_PROC_SELF, name, O_RDONLY), file, "a descriptor's file");
    opens_object(inroot_proc_open(INROOT_PROC_THREAD_SELF, name, O_PATH), file, "the same by O_PATH");
    sure((int)readlink("/proc/self/exe", text, sizeof text - 1), "/proc/self/exe");
    opens_object(inroot_proc_open(INROOT_PROC_SELF, "exe", O_RDONLY), text, "the program");
    memset(text, 0, sizeof text);
    opens_object(inroot_proc_open(INROOT_PROC_SELF, "cwd/", O_PATH), ".", "the current directory");
    int link = inroot_proc_open(INROOT_PROC_SELF, "exe", O_PATH | O_NOFOLLOW);
    struct stat about = {0};
    gives(fstat(link, &about), 0, "the link of the program");
    gives_mode(about.st_mode & S_IFMT, S_IFLNK, "the link of the program");
    close(link);
    reads_link(INROOT_PROC_SELF, name, file);
    gives(inroot_proc_readlink(INROOT_PROC_SELF, name, text, 4), (long)strlen(file), "a link that doesn't fit");
    expect(memcmp(text, file, 4) == 0 && text[4] == 0, "a link that doesn't fit: %s", text);
    fails(INROOT_PROC_SELF, name, O_RDONLY | O_NOFOLLOW, ELOOP);
    fails(INROOT_PROC_SELF, name, O_RDONLY | O_DIRECTORY, ENOTDIR);
    fails(INROOT_PROC_SELF, "fd/none", O_RDONLY, ENOENT);
    fails(INROOT_PROC_SELF, "root/.", O_PATH, ELOOP);
    fails(INROOT_PROC_SELF, "root/etc", O_PATH, ELOOP);
    fails(INROOT_PROC_SELF, "cwd/..", O_PATH, ELOOP);
    fails(INROOT_PROC_SELF, "cwd/file", O_PATH | O_NOFOLLOW, ELOOP);
    strcat(name, "/");
    fails(INROOT_PROC_SELF, name, O_RDONLY, ENOTDIR);
    gives(open_descriptors(), before, "open descriptors");
    close(fd);
}

/* ---- errors */

/* The question by this number fails, of those about files. Gives whether the call came to it. */
static bool comes_to(int question, bool link)
{
    char text[PATH_MAX];
    const int before = open_descriptors();
    unasked = question;
    const int got = link ? (int)inroot_proc_readlink(INROOT_PROC_SELF, "exe", text, sizeof text)
                         : inroot_proc_open(INROOT_PROC_SELF, "exe", O_RDONLY);
    const bool came = unasked == 0;
    unasked = 0;
    if (came)
        gives(got, question == 1 ? -ENOSYS : -EIO, "question %d fails, of a link %d", question, link);
    else
        gives_least(got, 1, "a call of %d questions, of a link %d", question - 1, link);
    if (!link && got >= 0)
        close(got);
    gives(open_descriptors(), before, "question %d, of a link %d: open descriptors", question, link);
    return came;
}

/* The first question is whether there is a /proc. */
static void unasked_files(void)
{
    open_proc();
    for (int link = 0; link < 2; link++) {
        int question = 1;
        while (comes_to(question, link))
            question++;
        gives_least(question, 4, "questions about files, of a link %d", link);
    }
}

static void errors(void)
{
    static const int no_flags[] = {O_CREAT, O_EXCL, O_TMPFILE | O_RDWR, O_ACCMODE, O_PATH | O_RDWR, 1 << 30};
    static const int no_bases[] = {0, -1, AT_FDCWD, -4096};
    static char far[5000];
    char text[8];
    struct inroot_error error;
    memset(far, 'a', sizeof far - 1);
    for (size_t at = 0; at < sizeof no_flags / sizeof *no_flags; at++)
        fails(INROOT_PROC_SELF, "comm", no_flags[at], EINVAL);
    for (size_t at = 0; at < sizeof no_bases / sizeof *no_bases; at++) {
        fails(no_bases[at], "comm", O_RDONLY, EINVAL);
        gives(inroot_proc_readlink(no_bases[at], "exe", text, sizeof text), -EINVAL, "the link of base %d", no_bases[at]);
    }
    fails(INT_MAX, "comm", O_RDONLY, ENOENT);
    fails(INROOT_PROC_SELF, "", O_RDONLY, ENOENT);
    fails(INROOT_PROC_SELF, "none", O_RDONLY, ENOENT);
    gives(inroot_last_error(&error), 0, "the last error");
    gives(error.error, ENOENT, "the last error");
    gives_text(error.step, "Proc", "the last error's step");
    fails(INROOT_PROC_SELF, "none/none", O_RDONLY, ENOENT);
    fails(INROOT_PROC_SELF, "comm/none", O_RDONLY, ENOTDIR);
    fails(INROOT_PROC_SELF, "comm/", O_RDONLY, ENOTDIR);
    fails(INROOT_PROC_SELF, "comm", O_RDONLY | O_DIRECTORY, ENOTDIR);
    fails(INROOT_PROC_SELF, "attr", O_RDWR, EISDIR);
    fails(INROOT_PROC_SELF, far, O_RDONLY, ENAMETOOLONG);
    fails(INROOT_PROC_SELF, "/comm", O_RDONLY, EXDEV);
    fails(INROOT_PROC_ROOT, "..", O_PATH, EXDEV);
    fails(INROOT_PROC_SELF, "..", O_PATH, EXDEV);
    fails(INROOT_PROC_SELF, "task/../../self/comm", O_PATH, EXDEV);
    fails(getpid(), "../version", O_PATH, EXDEV);
    gives(inroot_proc_readlink(INROOT_PROC_SELF, "comm", text, sizeof text), -EINVAL, "the text of a file");
    gives(inroot_proc_readlink(INROOT_PROC_SELF, "none", text, sizeof text), -ENOENT, "the text of nothing");
    gives(inroot_proc_readlink(INROOT_PROC_SELF, "cwd/none", text, sizeof text), -ELOOP, "the text of what is behind a link");
}

/* A process that has no program: the link is there, and its text isn't. And one that this user may not look at. */
static void other_processes(void)
{
    char text[8];
    pid_t child = sure(fork(), "fork");
    if (child == 0)
        _exit(0);
    sure(waitid(P_PID, (id_t)child, NULL, WEXITED | WNOWAIT), "waitid");
    gives(inroot_proc_readlink(child, "exe", text, sizeof text), -ENOENT, "the program of a process that has ended");
    sure(waitpid(child, NULL, 0), "waitpid");
    fails(child, "comm", O_RDONLY, ENOENT);
    if (!may_be_nobody())
        _exit(NO_RIGHT);
    sure(seteuid(65534), "nobody");
    fails(getppid(), "exe", O_RDONLY, EACCES);
    fails(getppid(), "io", O_RDONLY, EACCES);
    gives(inroot_proc_readlink(getppid(), "exe", text, sizeof text), -EACCES, "the program of another's process");
}

static void no_descriptors(void)
{
    open_proc();
    struct rlimit_room {
        unsigned long now, most;
    } room = {(unsigned long)take_gaps(STDERR_FILENO), 4096};
    sure((int)syscall(SYS_setrlimit, 7, &room), "setrlimit");
    fails(INROOT_PROC_SELF, "comm", O_RDONLY, EMFILE);
    fails(INROOT_PROC_SELF, "exe", O_RDONLY, EMFILE);
}

static void no_openat2(void)
{
    refuse(OPENAT2, ENOSYS);
    fails(INROOT_PROC_SELF, "comm", O_RDONLY, ENOSYS);
}

/* ---- what is at /proc is none, or another */

static void no_proc(void)
{
    own_mounts_or_end();
    if (mount("none", "/proc", "tmpfs", 0, NULL) != 0)
        _exit(NO_RIGHT);
    sure(mkdir("/proc/self", 0755), "/proc/self");
    sure(mknod("/proc/self/comm", S_IFREG | 0644, 0), "/proc/self/comm");
    fails(INROOT_PROC_SELF, "comm", O_RDONLY, ENOSYS);
    fails(INROOT_PROC_ROOT, "self/comm", O_RDONLY, ENOSYS);
}

static void not_its_top(void)
{
    own_mounts_or_end();
    if (mount("/proc/1", "/proc", NULL, MS_BIND, NULL) != 0)
        _exit(NO_RIGHT);
    fails(INROOT_PROC_ROOT, "comm", O_RDONLY, ENOSYS);
}

static char proc[PATH_MAX + 8];

/* The first process of another pid namespace mounts it. */
static void mount_by_another(void)
{
    if (unshare(CLONE_NEWPID) != 0)
        _exit(NO_RIGHT);
    pid_t child = sure(fork(), "fork");
    if (child == 0)
        _exit(mount("proc", proc, "proc", 0, NULL) != 0);
    int status;
    sure(waitpid(child, &status, 0), "waitpid");
    if (status != 0)
        _exit(NO_RIGHT);
}

/* It shows the processes of that namespace, of which this one is none. */
static void of_others(void)
{
    snprintf(proc, sizeof proc, "%s/proc", where);
    own_mounts_or_end();
    if (apart(mount_by_another) != 0)
        _exit(NO_RIGHT);
    int fd = sure(open(proc, O_PATH | O_DIRECTORY | O_CLOEXEC), proc);
    gives(inroot_use_proc(fd), 0, "inroot_use_proc");
    fails(INROOT_PROC_SELF, "comm", O_RDONLY, ENOSYS);
    fails(INROOT_PROC_THREAD_SELF, "comm", O_RDONLY, ENOSYS);
    reads(inroot_proc_open(INROOT_PROC_ROOT, "sys/kernel/ostype", O_RDONLY), "Linux", "what is of no process");
}

/* ---- what is mounted over a file of it */

static void cover(const char *with, const char *place)
{
    if (mount(with, place, NULL, MS_BIND, NULL) != 0)
        _exit(NO_RIGHT);
}

static void cover_file(const char *place)
{
    char file[PATH_MAX + 8];
    snprintf(file, sizeof file, "%s/file", where);
    cover(file, place);
}

static void cover_file_and_directory(void)
{
    own_mounts_or_end();
    cover_file("/proc/self/comm");
    cover(where, "/proc/self/attr");
    cover_file("/proc/self/task/../oom_score_adj");
}

/* The link itself, which mount(2) would follow: what is open on it isn't. */
static void cover_link(const char *link)
{
    char name[64];
    int fd = sure(open(link, O_PATH | O_NOFOLLOW | O_CLOEXEC), link);
    snprintf(name, sizeof name, "/proc/self/fd/%d", fd);
    cover_file(name);
    close(fd);
}

static void covered(void)
{
    int before = open_descriptors();
    cover_file_and_directory();
    fails(INROOT_PROC_SELF, "comm", O_RDONLY, EXDEV);
    fails(getpid(), "comm", O_WRONLY | O_NOFOLLOW, EXDEV);
    fails(INROOT_PROC_SELF, "attr/file", O_WRONLY, EXDEV);
    fails(INROOT_PROC_SELF, "attr", O_PATH | O_DIRECTORY, EXDEV);
    fails(INROOT_PROC_SELF, "oom_score_adj", O_WRONLY, EXDEV);
    opens_object(inroot_proc_open(INROOT_PROC_SELF, "status", O_RDONLY), "/proc/self/status", "what isn't covered");
    gives(open_descriptors(), before + 1, "open descriptors");
}

static void covered_process(void)
{
    char process[64];
    snprintf(process, sizeof process, "/proc/%d", (int)getpid());
    own_mounts_or_end();
    cover(where, process);
    fails(INROOT_PROC_SELF, "file", O_RDONLY, EXDEV);
    fails(INROOT_PROC_THREAD_SELF, ".", O_PATH, EXDEV);
    fails(getpid(), "file", O_RDONLY, EXDEV);
}

static void covered_link(void)
{
    char text[8];
    own_mounts_or_end();
    cover_link("/proc/self/exe");
    fails(INROOT_PROC_SELF, "exe", O_RDONLY, EXDEV);
    fails(INROOT_PROC_SELF, "exe", O_PATH | O_NOFOLLOW, EXDEV);
    gives(inroot_proc_readlink(INROOT_PROC_SELF, "exe", text, sizeof text), -EXDEV, "a link that is covered");
}

static void cover_program(void)
{
    cover_link("/proc/self/exe");
}

static void covered_meanwhile(void)
{
    own_mounts_or_end();
    act = cover_program;
    fails(INROOT_PROC_SELF, "exe", O_RDONLY, EXDEV);
    expect(act == NULL, "nothing was covered meanwhile");
}

/* Nobody can cover anything of a private one. */
static void private(void)
{
    char exe[PATH_MAX] = "";
    sure((int)readlink("/proc/self/exe", exe, sizeof exe - 1), "/proc/self/exe");
    prctl(PR_SET_NAME, "private");
    cover_file_and_directory();
    cover_link("/proc/self/exe");
    if (inroot_use_private_proc() != 0)
        _exit(NO_RIGHT);
    reads(inroot_proc_open(INROOT_PROC_SELF, "comm", O_RDONLY), "private", "a file that is covered elsewhere");
    opens_object(inroot_proc_open(INROOT_PROC_SELF, "exe", O_RDONLY), exe, "a link that is covered elsewhere");
    reads_link(INROOT_PROC_SELF, "exe", exe);
    /* A new one has what is of processes, and nothing beside. */
    fails(INROOT_PROC_ROOT, "sys/kernel/ostype", O_RDONLY, ENOENT);
}

/* A copy of /proc has all of it. */
static void private_copy(void)
{
    own_mounts_or_end();
    cover_file("/proc/self/comm");
    refuse(FSOPEN, EPERM);
    prctl(PR_SET_NAME, "copy");
    if (inroot_use_private_proc() != 0)
        _exit(NO_RIGHT);
    reads(inroot_proc_open(INROOT_PROC_SELF, "comm", O_RDONLY), "copy", "a file that is covered elsewhere");
    reads(inroot_proc_open(INROOT_PROC_ROOT, "sys/kernel/ostype", O_RDONLY), "Linux", "what is of no process, in a copy");
}

/* ---- another one as the root of a call */

static int in_other(int top, const char *path, int flags)
{
    return inroot_openat(top, path, flags, 0, INROOT_NO_XDEV);
}

/* The oracle is what the kernel opens by the path of that mount. */
static void opens_of(int top, const char *path, const char *same)
{
    const int fd = in_other(top, path, O_RDONLY), wanted = sure(open(same, O_PATH | O_CLOEXEC), same);
    expect(fd >= 0 && is_same_object(fd, wanted), "%s of another one: %d", path, fd);
    close(fd);
    close(wanted);
}

static void another_as_root(void)
{
    static const char *const magic[] = {"self/exe", "self/cwd/file", "thread-self/root/etc", "self/fd/0"};
    char text[PATH_MAX] = "";
    own_mounts_or_end();
    if (mount("proc", "proc", "proc", 0, NULL) != 0)
        _exit(NO_RIGHT);
    cover_link("proc/self/root");
    cover_file("proc/self/oom_score_adj");
    cover(where, "proc/self/attr");
    cover(where, "/proc");
    const int top = sure(open("proc", O_PATH | O_DIRECTORY | O_CLOEXEC), "proc"), before = open_descriptors();
    opens_of(top, "self/status", "proc/self/status");
    opens_of(top, "/../thread-self/fd/../comm", "proc/thread-self/comm");
    opens_of(top, "mounts", "proc/self/mounts");
    opens_of(top, "sys/kernel/ostype", "proc/sys/kernel/ostype");
    for (size_t at = 0; at < sizeof magic / sizeof *magic; at++)
        gives(in_other(top, magic[at], O_RDONLY), -ELOOP, "%s of another one", magic[at]);
    opens_object(in_other(top, "self/exe", O_PATH | O_NOFOLLOW), "proc/self/exe", "a link of another one");
    gives(in_other(top, "self/root", O_PATH | O_NOFOLLOW), -EXDEV, "a covered link of another one");
    gives(in_other(top, "self/oom_score_adj", O_WRONLY), -EXDEV, "a covered file of another one");
    gives(in_other(top, "self/attr/file", O_RDONLY), -EXDEV, "what covers a directory of another one");
    gives(inroot_readlink(top, "self/cwd", INROOT_NO_XDEV, text, sizeof text), (long)strlen(where), "a link's text");
    gives_text(text, where, "a link's text");
    gives(open_descriptors(), before, "open descriptors");
}

int main(int count, char **words)
{
    static void (*const parts[])(void) = {
        each_base, ordinary_links, magic_links, unasked_files, errors, other_processes, no_descriptors, no_openat2, no_proc, not_its_top,
        of_others, covered, covered_process, covered_link, covered_meanwhile, private, private_copy, another_as_root,
    };
    int skipped = 0;
    if (count != 2 || realpath(words[1], where) == NULL)
        return 2;
    if (!has_openat2())
        return NO_OPENAT2;
    sure(chdir(where), where);
    sure(mknod("file", S_IFREG | 0644, 0), "file");
    sure(mkdir("proc", 0755), "proc");
    for (size_t at = 0; at < sizeof parts / sizeof *parts; at++)
        skipped |= apart(parts[at]) == NO_RIGHT;
    printf("proc_files: %d not as they are to be\n", wrong);
    return wrong != 0 ? 1 : skipped ? NO_RIGHT : 0;
}
