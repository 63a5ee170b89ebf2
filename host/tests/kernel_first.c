/*
 * kernel_first: each call begins with the kernel's walk, and makes the system calls that one makes by hand, and takes no memory. If a
 * look-up of the kernel's fails, the steps give the same; but if a signal ends one that opens an object for use, that is the call's
 * end. And each flag reaches the first look-up and the steps: a call that leads over a mount, through a link or a magic one, or out
 * of the root gives its error and changes nothing, by the kernel's walk, by the steps behind one that fails, and with INROOT_EXACT.
 *
 * usage: kernel_first DIR. Exits 0 where that holds. 78: no right to mount, so that mounts are left out.
 */
#define _GNU_SOURCE
#include "support.h"
#include "wraps.h"


/*
 * The names of the functions that the call made; of its openat2(2), the RESOLVE bits of the first, how many there were, how many
 * walked a path from the root, and how many fail, by an error.
 */
static char made[1024];
static uint64_t resolved;
static int looks, rooted, failing, error;
static bool counting;
/* So many calls of statx(2) fail. */
static int untold;

static void note(const char *name)
{
    if (counting && strlen(made) + strlen(name) + 2 < sizeof made)
        strcat(strcat(made, made[0] != 0 ? " " : ""), name);
}

#define NOTED(type, name, parameters, arguments) \
    type __real_##name parameters;               \
    type __wrap_##name parameters;               \
    type __wrap_##name parameters                \
    {                                            \
        note(#name);                             \
        return __real_##name arguments;          \
    }

NOTED(int, close, (int fd), (fd))
NOTED(int, mkdirat, (int dir, const char *name, mode_t mode), (dir, name, mode))
NOTED(int, mknodat, (int dir, const char *name, mode_t mode, dev_t dev), (dir, name, mode, dev))
NOTED(int, symlinkat, (const char *text, int dir, const char *name), (text, dir, name))
NOTED(int, unlinkat, (int dir, const char *name, int flags), (dir, name, flags))
NOTED(ssize_t, readlinkat, (int dir, const char *name, char *text, size_t size), (dir, name, text, size))
NOTED(void *, malloc, (size_t size), (size))

NOTED(int, fstat, (int fd, struct stat *about), (fd, about))

int __wrap_statx(int dir, const char *name, int flags, unsigned what, struct statx *about)
{
    if (!counting || untold == 0)
        return __real_statx(dir, name, flags, what, about);
    untold--;
    errno = EIO;
    return -1;
}

static int my_openat(int dir, const char *name, int flags, mode_t mode)
{
    note("openat");
    return __real_openat(dir, name, flags, mode);
}

INSTEAD_OF_OPENAT(my_openat)

static long my_syscall(long number, const long *with)
{
    note(number == SYS_openat2 ? "openat2" : number == SYS_renameat2 ? "renameat2" : "another");
    if (!counting || number != SYS_openat2)
        return REAL_SYSCALL(number, with);
    const uint64_t resolve = ((const struct open_how *)with[2])->resolve;
    if (looks++ == 0)
        resolved = resolve;
    rooted += (resolve & RESOLVE_IN_ROOT) != 0;
    if (looks > failing)
        return REAL_SYSCALL(number, with);
    errno = error;
    return -1;
}

INSTEAD_OF_SYSCALL(my_syscall)

/* ---- the calls, each on a name in a directory */

static int base, root;
static char path[512], text[512];

static const char *in(const char *dir, const char *name)
{
    snprintf(path, sizeof path, "%s%s%s", dir, dir[0] != 0 ? "/" : "", name);
    return path;
}

static struct stat about;
static int open_it(const char *dir, int flags) { return inroot_open(root, in(dir, "f"), flags); }
static int look(const char *dir, int flags) { return inroot_stat(root, in(dir, "f"), &about, flags); }
static int read_link(const char *dir, int flags) { return (int)inroot_readlink(root, in(dir, "s"), flags, text, sizeof text); }
static int open_to_read(const char *dir, int flags) { return inroot_openat(root, in(dir, "f"), O_RDONLY, 0, flags); }
static int cut_off(const char *dir, int flags) { return inroot_openat(root, in(dir, "f"), O_RDWR | O_TRUNC, 0, flags); }
static int make_nameless(const char *dir, int flags) { return inroot_openat(root, in(dir, "."), O_TMPFILE | O_RDWR, 0600, flags); }
static int open_parent(const char *dir, int flags) { return inroot_open_parent(root, in(dir, "new"), flags, text); }
static int create(const char *dir, int flags) { return inroot_openat(root, in(dir, "new"), O_CREAT | O_EXCL | O_RDWR, 0600, flags); }
static int open_or_make(const char *dir, int flags) { return inroot_openat(root, in(dir, "new"), O_CREAT | O_RDWR, 0600, flags); }
static int make_file(const char *dir, int flags) { return inroot_mknod(root, in(dir, "new"), S_IFREG | 0600, 0, flags); }
static int give_file(const char *dir, int flags) { return make_file(dir, flags | INROOT_GIVE); }
static int make_dir(const char *dir, int flags) { return inroot_mkdir(root, in(dir, "new"), 0700, flags); }
static int give_dir(const char *dir, int flags) { return make_dir(dir, flags | INROOT_GIVE); }
static int make_link(const char *dir, int flags) { return inroot_symlink(root, "f", in(dir, "new"), flags); }
static int remove_file(const char *dir, int flags) { return inroot_unlink(root, in(dir, "f"), flags); }
static int remove_dir(const char *dir, int flags) { return inroot_rmdir(root, in(dir, "e"), flags); }
static int move_out(const char *dir, int flags) { return inroot_rename(root, in(dir, "f"), "moved", 0, flags); }
static int move_in(const char *dir, int flags) { return inroot_rename(root, "g", in(dir, "new"), 0, flags); }
static int make_all(const char *dir, int flags) { return inroot_mkdir_all(root, in(dir, "new/er"), 0700, flags); }
static int find_all(const char *dir, int flags) { return inroot_mkdir_all(root, in(dir, "e"), 0700, flags); }
static int make_file_all(const char *dir, int flags) { return inroot_mkfile_all(root, in(dir, "new/er"), 0600, 0700, flags); }
static int remove_all(const char *dir, int flags) { return (int)inroot_remove_all(root, in(dir, "e"), flags); }

static int link_of(const char *dir, int flags)
{
    snprintf(text, sizeof text, "%s", in(dir, "f"));
    return inroot_link(root, text, in(dir, "new"), flags);
}

/* What a call makes: below a directory, and in the root itself, where it is the same every time; and whether its first path is DIR's. */
static const struct op {
    const char *name;
    int (*call)(const char *dir, int flags);
    const char *below, *at_root;
    bool second;
} ops[] = {
    {"open", open_it, "openat2", "openat2", false},
    {"stat", look, "openat2 fstat close", "openat2 fstat close", false},
    {"readlink", read_link, "openat2 readlinkat close", "openat2 readlinkat close", false},
    {"open to read", open_to_read, "openat2", "openat2", false},
    {"cut off", cut_off, "openat2", "openat2", false},
    {"make a nameless file", make_nameless, "openat2", "openat2", false},
    {"open the parent", open_parent, "openat2", "openat2", false},
    {"create", create, "openat2 openat close", "openat", false},
    {"open or make", open_or_make, "openat2 openat2 openat2 openat close", "openat2 openat2 openat", false},
    {"make a file", make_file, "openat2 mknodat close", "mknodat", false},
    {"make and give a file", give_file, NULL, NULL, false},
    {"make a directory", make_dir, "openat2 mkdirat close", "mkdirat", false},
    {"make and give a directory", give_dir, NULL, NULL, false},
    {"make a link", make_link, "openat2 symlinkat close", "symlinkat", false},
    {"link", link_of, NULL, NULL, false},
    {"unlink", remove_file, "openat2 unlinkat close", "unlinkat", false},
    {"rmdir", remove_dir, "openat2 unlinkat close", "unlinkat", false},
    {"move out", move_out, "openat2 renameat2 close", "renameat2", false},
    {"move in", move_in, "openat2 renameat2 close", "renameat2", true},
    {"make all", make_all, NULL, NULL, false},
    {"find all", find_all, "openat2", "openat2", false},
    {"make a file and all", make_file_all, NULL, NULL, false},
    {"remove all", remove_all, NULL, NULL, false},
};
enum { OPS = sizeof ops / sizeof *ops };

static void fill(int dir)
{
    static const char *const files[] = {"f", "g"};
    for (int one = 0; one < 2; one++)
        close(sure(openat(dir, files[one], O_CREAT | O_WRONLY, 0600), files[one]));
    sure(symlinkat("f", dir, "s"), "s");
    sure(mkdirat(dir, "e", 0700), "e");
}

/* A new root: the same below a directory, and links to that from within and by way of the root's own name. */
static void plant(const char *name)
{
    sure(mkdirat(base, name, 0700), name);
    root = sure(openat(base, name, O_PATH | O_DIRECTORY | O_CLOEXEC), name);
    fill(root);
    sure(mkdirat(root, "a", 0700), "a");
    sure(mkdirat(root, "a/b", 0700), "a/b");
    sure(mkdirat(root, "m", 0700), "m");
    sure(symlinkat("a/b", root, "l"), "l");
    sure(symlinkat("/a/b", root, "out"), "out");
    const int dir = sure(openat(root, "a/b", O_RDONLY | O_DIRECTORY), "a/b");
    fill(dir);
    close(dir);
}

static int count;

static void plant_anew(void)
{
    char name[16];
    if (count > 0)
        close(root);
    snprintf(name, sizeof name, "%d", count++);
    plant(name);
}

/* What stands in a directory, one bit for each name. */
static unsigned standing(int at, const char *dir)
{
    static const char *const names[] = {"f", "g", "s", "e", "new", "new/er", "moved"};
    unsigned there = 0;
    for (unsigned one = 0; one < sizeof names / sizeof *names; one++)
        there |= (faccessat(at, in(dir, names[one]), F_OK, AT_SYMLINK_NOFOLLOW) == 0) << one;
    return there;
}

/* Makes a call, by a first look-up that fails so, or by none: its result, or 0 for any descriptor. */
static int made_so(const struct op *op, const char *dir, int flags, int fails)
{
    made[0] = 0;
    looks = rooted = 0;
    failing = fails != 0;
    error = fails;
    counting = true;
    const int result = op->call(dir, flags);
    counting = false;
    const bool opens = op->call != look && op->call != read_link && op->call != remove_all && result > 2;
    if (opens)
        close(result);
    return opens ? 0 : result;
}

/* ---- what is shown */

static void counted(const struct op *op)
{
    /* The /proc that some need is opened once for the program. */
    plant_anew();
    gives(made_so(op, "a/b", 0, 0), op->call == read_link || op->call == remove_all ? 1 : 0, "%s", op->name);
    if (op->below != NULL)
        gives_text(made, op->below, "%s, below a directory", op->name);
    plant_anew();
    made_so(op, "", 0, 0);
    if (op->at_root != NULL)
        gives_text(made, op->at_root, "%s, in the root", op->name);
}

static void goes_by_steps(const struct op *op)
{
    static const int errors[] = {EAGAIN, EIO, E2BIG, EPERM, EACCES, ENOMEM, ENOENT, EXDEV};
    static const char *const dirs[] = {"a/b", "l", "a/../out", ""};
    for (unsigned one = 0; one < sizeof dirs / sizeof *dirs; one++) {
        plant_anew();
        const int wanted = made_so(op, dirs[one], 0, 0);
        const unsigned stands = standing(root, "a/b"), above = standing(root, "");
        for (unsigned by = 0; by < sizeof errors / sizeof *errors; by++) {
            plant_anew();
            gives(made_so(op, dirs[one], 0, errors[by]), wanted, "%s in '%s', behind error %d", op->name, dirs[one], errors[by]);
            gives(standing(root, "a/b"), stands, "%s in '%s', behind error %d: what stands", op->name, dirs[one], errors[by]);
            gives(standing(root, ""), above, "%s in '%s', behind error %d: what stands above", op->name, dirs[one], errors[by]);
        }
        plant_anew();
        gives(made_so(op, dirs[one], INROOT_EXACT, 0), wanted, "%s in '%s', exactly", op->name, dirs[one]);
        gives(rooted, 0, "%s in '%s', exactly: walks of the kernel's", op->name, dirs[one]);
        gives(standing(root, "a/b"), stands, "%s in '%s', exactly: what stands", op->name, dirs[one]);
    }
}

/* A signal ends a call where the kernel opens an object for use, and no step is made. */
static void signalled(const struct op *op)
{
    if (op->call != open_to_read && op->call != cut_off && op->call != make_nameless)
        return;
    plant_anew();
    gives(made_so(op, "a/b", 0, EINTR), -EINTR, "%s, and a signal", op->name);
    gives_text(made, "openat2", "%s, and a signal", op->name);
}

/* Of what kind an object is that the kernel has found, can't be asked: then the steps find it. */
static void unasked(void)
{
    plant_anew();
    untold = 1;
    counting = true;
    const int fd = inroot_mkfile_all(root, "a/b/f", 0600, 0700, 0);
    counting = false;
    gives(untold, 0, "a file that is there: what can't be asked");
    gives_object(fd, root, "a/b/f", "a file that is there, of which the kind can't be asked");
    close(fd);
}

/* Each flag, and what it has the kernel refuse. */
static void resolves(const struct op *op)
{
    static const struct {
        int flag;
        uint64_t bits;
    } rows[] = {
        {0, RESOLVE_IN_ROOT | RESOLVE_NO_MAGICLINKS},
        {INROOT_BENEATH, RESOLVE_BENEATH | RESOLVE_NO_MAGICLINKS},
        {INROOT_NO_LINKS, RESOLVE_IN_ROOT | RESOLVE_NO_MAGICLINKS | RESOLVE_NO_SYMLINKS},
        {INROOT_NO_XDEV, RESOLVE_IN_ROOT | RESOLVE_NO_MAGICLINKS | RESOLVE_NO_XDEV},
        {INROOT_BENEATH | INROOT_NO_LINKS | INROOT_NO_XDEV,
         RESOLVE_BENEATH | RESOLVE_NO_MAGICLINKS | RESOLVE_NO_SYMLINKS | RESOLVE_NO_XDEV},
    };
    for (unsigned one = 0; one < sizeof rows / sizeof *rows; one++) {
        plant_anew();
        made_so(op, "a/b", rows[one].flag, 0);
        gives((long)resolved, (long)rows[one].bits, "%s with the flags %d: the first look-up", op->name, rows[one].flag);
    }
}

/* A call that is refused, by each way, changes nothing where it would have; and without the flag it isn't refused so. */
static void refused(const struct op *op, const char *dir, int flag, int wanted, int at, const char *there)
{
    static const struct {
        const char *name;
        int flags, fails;
    } ways[] = {{"the kernel first", 0, 0}, {"by steps behind it", 0, EIO}, {"exactly", INROOT_EXACT, 0}};
    for (unsigned way = 0; way < sizeof ways / sizeof *ways; way++) {
        const unsigned stands = standing(at, there), above = standing(root, "");
        const int given = made_so(op, dir, flag | ways[way].flags, ways[way].fails);
        gives(given, -wanted, "%s in '%s' with %d, %s", op->name, dir, flag, ways[way].name);
        gives(standing(at, there), stands, "%s in '%s' with %d, %s: what stands", op->name, dir, flag, ways[way].name);
        gives(standing(root, ""), above, "%s in '%s' with %d, %s: what stands above", op->name, dir, flag, ways[way].name);
    }
}

static void refusals(const struct op *op, bool mounts)
{
    plant_anew();
    refused(op, "l", INROOT_NO_LINKS, ELOOP, root, "a/b");
    refused(op, "out", INROOT_BENEATH, EXDEV, root, "a/b");
    refused(op, "../a/b", INROOT_BENEATH, EXDEV, root, "a/b");
    refused(op, "/", INROOT_BENEATH, EXDEV, root, "a/b");
    if (mounts) {
        sure(fchdir(root), "fchdir");
        sure(mount("none", "m", "tmpfs", 0, NULL), "m");
        const int dir = sure(openat(root, "m", O_RDONLY | O_DIRECTORY), "m");
        fill(dir);
        refused(op, "m", INROOT_NO_XDEV, EXDEV, dir, "");
        gives(made_so(op, "m", 0, 0) == -EXDEV, op->call == move_in || op->call == move_out, "%s over a mount", op->name);
        close(dir);
        sure(umount2("m", MNT_DETACH), "umount2");
    }
    /* What a link of proc(5) leads to is the directory of the root that was planted. */
    const int planted = root;
    sure(fchdir(planted), "fchdir");
    root = sure(open("/proc/self", O_PATH | O_DIRECTORY | O_CLOEXEC), "/proc/self");
    if (!op->second)
        refused(op, "cwd", 0, ELOOP, planted, "");
    close(root);
    root = planted;
}

int main(int words_count, char **words)
{
    if (words_count != 2)
        return 2;
    if (!WRAPS_ALL)
        return NO_WRAP;
    const bool mounts = unshare(CLONE_NEWNS) == 0 && mount(NULL, "/", NULL, MS_REC | MS_PRIVATE, NULL) == 0;
    base = sure(open(words[1], O_RDONLY | O_DIRECTORY | O_CLOEXEC), words[1]);
    for (const struct op *op = ops; op < ops + OPS; op++) {
        counted(op);
        goes_by_steps(op);
        signalled(op);
        resolves(op);
        refusals(op, mounts);
    }
    unasked();
    printf("kernel_first: %d not as they are to be\n", wrong);
    return wrong != 0 ? 1 : mounts ? 0 : NO_RIGHT;
}
