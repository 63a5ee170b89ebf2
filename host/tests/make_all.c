/*
 * make_all: calls make all missing components of 54 paths with flags, also through links that lead to missing objects
 * (INROOT_FOLLOW), and nothing outside: by the kernel's walk and with INROOT_EXACT, also in a chroot. Chains of 39 to
 * 42 links; texts that make a path of 4,095 bytes, and of one more; six acts of others right before the making.
 *
 * usage: make_all DIR. Exits 0 where each is as inroot.h says. 78: no right to change a root, so that a part is left out.
 */
#define _GNU_SOURCE
#include "support.h"
#include "wraps.h"

#include <dirent.h>
#include <limits.h>
#include <string.h>
#include <sys/stat.h>

static int root, beside;
static char outside[PATH_MAX];

/* What somebody else does right before the file is made: by turns, so many times. */
static void (*meanwhile)(int turn);
static int turns, most_turns;

/* An entry is always there as a file is to be made, and gone right afterwards; and how often one was to be made. */
static bool is_taken;
static int creations;

static void let_others(void)
{
    if (meanwhile != NULL && turns < most_turns)
        meanwhile(turns++);
}

static int my_openat(int dir, const char *name, int flags, mode_t mode)
{
    if (flags & O_CREAT)
        let_others();
    creations += (flags & O_CREAT) != 0;
    if (is_taken && flags & O_CREAT) {
        errno = EEXIST;
        return -1;
    }
    return __real_openat(dir, name, flags, mode);
}

INSTEAD_OF_OPENAT(my_openat)

/* ---- a tree for each case */

static void make_tree(void)
{
    static const char *const dirs[] = {"etc", "var", "a", "a/b"};
    for (size_t one = 0; one < sizeof dirs / sizeof *dirs; one++)
        sure(mkdirat(root, dirs[one], 0755), dirs[one]);
    sure(mknodat(root, "a/f", S_IFREG | 0600, 0), "f");
    sure(symlinkat("../run/systemd/resolve/stub", root, "etc/resolv.conf"), "resolv.conf");
    sure(symlinkat("/run", root, "var/run"), "run");
    sure(symlinkat("../a/f", root, "etc/there"), "there");
    sure(symlinkat("/../../a", root, "dir"), "dir");
    sure(symlinkat(outside, root, "out"), "out");
    sure(symlinkat("../../../outside/x", root, "a/up"), "up");
    sure(symlinkat("loop", root, "loop"), "loop");
    sure(symlinkat("chain1/k", root, "chain"), "chain");
    sure(symlinkat("new/l/", root, "chain1"), "chain1");
    sure(symlinkat("none/../x", root, "dots"), "dots");
    sure(symlinkat("a/f/x", root, "below_file"), "below_file");
    sure(symlinkat("made/", root, "slash"), "slash");
}

/* A chain of so many links whose last leads to what is missing. */
static void make_chain(int count)
{
    char name[32], text[32];
    for (int one = count; one > 0; one--) {
        snprintf(name, sizeof name, "l%d", one);
        snprintf(text, sizeof text, one == count ? "end" : "l%d", one + 1);
        sure(symlinkat(text, root, name), name);
    }
}

static int count_outside(void)
{
    int count = 0;
    DIR *all = fdopendir(sure(openat(beside, ".", O_RDONLY | O_DIRECTORY | O_CLOEXEC), "outside"));
    while (readdir(all) != NULL)
        count++;
    closedir(all);
    return count - 2;
}

static void remove_tree(void)
{
    DIR *all = fdopendir(sure(openat(root, ".", O_RDONLY | O_DIRECTORY | O_CLOEXEC), "root"));
    for (struct dirent *entry; (entry = readdir(all)) != NULL;)
        if (strcmp(entry->d_name, ".") != 0 && strcmp(entry->d_name, "..") != 0)
            sure((int)inroot_remove_all(root, entry->d_name, 0), entry->d_name);
    closedir(all);
    expect(count_outside() == 0, "something was made outside");
}

static mode_t mode_of(const char *name)
{
    struct stat about;
    return fstatat(root, name, &about, AT_SYMLINK_NOFOLLOW) == 0 ? about.st_mode : 0;
}

static void finds(int fd, const char *name, mode_t mode, const char *what)
{
    struct stat about, there;
    expect(fd >= 0, "%s: %d", what, fd);
    if (fd < 0)
        return;
    sure(fstat(fd, &about), "fstat");
    expect(fstatat(root, name, &there, AT_SYMLINK_NOFOLLOW) == 0 && there.st_ino == about.st_ino, "%s: it isn't %s", what, name);
    expect(about.st_mode == mode, "%s: the mode is %o", what, about.st_mode);
    expect(fcntl(fd, F_GETFL) & O_PATH && fcntl(fd, F_GETFD) == FD_CLOEXEC, "%s: it is opened otherwise", what);
    close(fd);
}

/* ---- what is made, and what isn't */

struct made {
    const char *path;
    int flags, error;
    const char *finds;
    mode_t mode;
};

static void files(void)
{
    static const struct made cases[] = {
        {"a/x/y/z", 0, 0, "a/x/y/z", S_IFREG | 0640}, {"new", 0, 0, "new", S_IFREG | 0640},
        {"/a/b/new", 0, 0, "a/b/new", S_IFREG | 0640},
        {"a/f", 0, 0, "a/f", S_IFREG | 0600}, {"etc/there", 0, 0, "a/f", S_IFREG | 0600},
        {"dir/n/m", 0, 0, "a/n/m", S_IFREG | 0640},
        {"etc/resolv.conf", 0, ENOENT, NULL, 0},
        {"etc/resolv.conf", INROOT_FOLLOW, 0, "run/systemd/resolve/stub", S_IFREG | 0640},
        {"var/run/pid", 0, ENOENT, NULL, 0}, {"var/run/x/pid", INROOT_FOLLOW, 0, "run/x/pid", S_IFREG | 0640},
        {"chain", INROOT_FOLLOW, 0, "new/l/k", S_IFREG | 0640},
        {"chain/x", INROOT_FOLLOW, 0, "new/l/k/x", S_IFREG | 0640},
        {"a/b", 0, EISDIR, NULL, 0}, {"dir", 0, EISDIR, NULL, 0}, {"a/new/", 0, ENOTDIR, NULL, 0},
        {"a/f/", 0, ENOTDIR, NULL, 0},
        {"a/f/x", 0, ENOTDIR, NULL, 0}, {"a/n/..", 0, EINVAL, NULL, 0}, {"none/../x", 0, ENOENT, NULL, 0},
        {"none/../x", INROOT_FOLLOW, ENOENT, NULL, 0},
        {"dots", INROOT_FOLLOW, ENOENT, NULL, 0}, {"below_file", INROOT_FOLLOW, ENOTDIR, NULL, 0},
        {"slash", INROOT_FOLLOW, ENOTDIR, NULL, 0},
        {"loop", INROOT_FOLLOW, ELOOP, NULL, 0}, {"loop/x", INROOT_FOLLOW, ELOOP, NULL, 0},
        {"", INROOT_FOLLOW, ENOENT, NULL, 0},
        {"/", 0, EISDIR, NULL, 0}, {"/a/new", INROOT_BENEATH, EXDEV, NULL, 0},
        {"etc/resolv.conf", INROOT_FOLLOW | INROOT_NO_LINKS, ELOOP, NULL, 0},
        {"var/run/x", INROOT_FOLLOW | INROOT_BENEATH, EXDEV, NULL, 0}, {"a/up", 0, ENOENT, NULL, 0},
        {"a/up", INROOT_FOLLOW, 0, "outside/x", S_IFREG | 0640},
    };
    for (size_t one = 0; one < sizeof cases / sizeof *cases; one++) {
        const struct made *made = &cases[one];
        make_tree();
        int fd = inroot_mkfile_all(root, made->path, 0640, 0711, made->flags | way);
        if (made->error)
            gives(fd, -made->error, "%s with %d", made->path, made->flags);
        else
            finds(fd, made->finds, made->mode, made->path);
        remove_tree();
    }
}

static void directories(void)
{
    static const struct made cases[] = {
        /* More than the driver makes by look-ups from the root. */
        {"n/1/2/3/4/5/6/7/8/9/10/11/12/13/14/15/16/17/18", 0, 0, "n/1/2/3/4/5/6/7/8/9/10/11/12/13/14/15/16/17/18",
         S_IFDIR | 0711},
        {"a/x/y", INROOT_FOLLOW, 0, "a/x/y", S_IFDIR | 0711}, {"a/b/", INROOT_FOLLOW, 0, "a/b", S_IFDIR | 0755},
        {".", INROOT_FOLLOW, 0, ".", S_IFDIR | 0755},
        {"var/run", 0, ENOENT, NULL, 0}, {"var/run", INROOT_FOLLOW, 0, "run", S_IFDIR | 0711},
        {"var/run/lock/x/", INROOT_FOLLOW, 0, "run/lock/x", S_IFDIR | 0711},
        {"chain", INROOT_FOLLOW, 0, "new/l/k", S_IFDIR | 0711}, {"slash/x", INROOT_FOLLOW, 0, "made/x", S_IFDIR | 0711},
        {"var/run/../z", INROOT_FOLLOW, ENOENT, NULL, 0}, {"etc/there", INROOT_FOLLOW, ENOTDIR, NULL, 0},
        {"a/f", INROOT_FOLLOW, ENOTDIR, NULL, 0},
        {"dots", INROOT_FOLLOW, ENOENT, NULL, 0}, {"none/../x", INROOT_FOLLOW, ENOENT, NULL, 0},
        {"", INROOT_FOLLOW, ENOENT, NULL, 0},
        {"loop/x", INROOT_FOLLOW, ELOOP, NULL, 0}, {"a/up/y", INROOT_FOLLOW, 0, "outside/x/y", S_IFDIR | 0711},
        {"var/run", INROOT_FOLLOW | INROOT_NO_LINKS, ELOOP, NULL, 0},
        {"var/run", INROOT_FOLLOW | INROOT_BENEATH, EXDEV, NULL, 0},
        {"dir/f/x", INROOT_FOLLOW, ENOTDIR, NULL, 0},
    };
    for (size_t one = 0; one < sizeof cases / sizeof *cases; one++) {
        const struct made *made = &cases[one];
        make_tree();
        int fd = inroot_mkdir_all(root, made->path, 0711, made->flags | way);
        if (made->error)
            gives(fd, -made->error, "directories %s with %d", made->path, made->flags);
        else
            finds(fd, made->finds, made->mode, made->path);
        remove_tree();
    }
}

/* Directories above get a mode of their own, and what is there keeps its own. */
static void modes(void)
{
    make_tree();
    finds(inroot_mkfile_all(root, "a/x/y/z", 04751, 01750, way), "a/x/y/z", S_IFREG | 04751, "a file of another mode");
    gives(mode_of("a/x"), S_IFDIR | 01750, "a directory above");
    gives(mode_of("a/x/y"), S_IFDIR | 01750, "a directory above");
    gives(mode_of("a"), S_IFDIR | 0755, "a directory that is there");
    finds(inroot_mkfile_all(root, "a/x/y/z", 0600, 0700, way), "a/x/y/z", S_IFREG | 04751, "a file that is there");
    remove_tree();
}

/* As many links as one path may have, and one more. */
static void chains(void)
{
    for (int count = 39; count <= 42; count++) {
        make_tree();
        make_chain(count);
        int file = inroot_mkfile_all(root, "l1", 0640, 0755, INROOT_FOLLOW | way);
        if (count <= 40)
            finds(file, "end", S_IFREG | 0640, "the end of a chain");
        else
            gives(file, -ELOOP, "a chain of %d links", count);
        remove_tree();
    }
}

/* A link to `end`, whose text has so many bytes: slashes between a dot and the name. Gives 0 where no link may be so long. */
static int make_long_link(const char *name, size_t length)
{
    char text[PATH_MAX];
    memset(text, '/', length);
    text[0] = '.';
    memcpy(text + length - 3, "end", 4);
    int failed = symlinkat(text, root, name);
    expect(failed == 0 || errno == ENAMETOOLONG, "a link of %zu bytes", length);
    return failed == 0;
}

/* The last call failed so. */
static void told(int got, int error, const char *step, const char *what)
{
    struct inroot_error why;
    gives(got, -error, "%s", what);
    gives(inroot_last_error(&why), 0, "%s: its last error", what);
    gives(why.error, error, "%s: the error", what);
    gives_text(why.step, step, "%s: the step", what);
}

/* A link's text with what comes behind it has 4,095 bytes at most, the file's name with it. */
static void long_links(void)
{
    static const struct { const char *path; size_t length; bool fits; } cases[] = {
        {"long", 4095, true}, {"long/", 4095, true}, {"long/x", 4093, true}, {"long/x", 4094, false}, {"long//x", 4093, true},
    };
    for (size_t one = 0; one < sizeof cases / sizeof *cases; one++)
        for (int file = 0; file <= 1; file++) {
            const char *path = cases[one].path, *name = strchr(path, 'x') ? "end/x" : "end";
            make_tree();
            if ((!file || path[strlen(path) - 1] != '/') && make_long_link("long", cases[one].length)) {
                const int flags = INROOT_FOLLOW | way;
                int fd = file ? inroot_mkfile_all(root, path, 0640, 0711, flags) : inroot_mkdir_all(root, path, 0711, flags);
                if (cases[one].fits)
                    finds(fd, name, file ? S_IFREG | 0640 : S_IFDIR | 0711, path);
                else
                    told(fd, ENAMETOOLONG, "ReadLink", path);
            }
            remove_tree();
        }
}

/* ---- others in between */

static void make_it(int turn)
{
    (void)turn;
    sure(mknodat(root, "a/n/x", S_IFREG | 0644, 0), "x");
}

static void make_link(int turn)
{
    (void)turn;
    sure(symlinkat("../m", root, "a/n/x"), "x");
}

static void make_directory(int turn)
{
    (void)turn;
    sure(mkdirat(root, "a/n/x", 0755), "x");
}

/* The directory that was just made is replaced by a link that leads out: the file comes into the one that was made. */
static void replace_above(int turn)
{
    (void)turn;
    sure(renameat(root, "a/n", root, "a/was"), "n");
    sure(symlinkat(outside, root, "a/n"), "n");
}

static void come_and_go(int turn)
{
    unlinkat(root, "a/n/x", 0);
    if (turn % 2 == 0)
        sure(symlinkat("x", root, "a/n/x"), "x");
}

static int with_others(void (*what)(int turn), int times, int flags)
{
    meanwhile = what;
    turns = 0;
    most_turns = times;
    int fd = inroot_mkfile_all(root, "a/n/x", 0640, 0755, flags | way);
    meanwhile = NULL;
    expect(turns > 0, "nobody came in between");
    return fd;
}

/* What an error is about that is no single step's: a link that isn't followed, a directory, no name, and others at each try. */
static void errors(void)
{
    make_tree();
    told(inroot_mkfile_all(root, "etc/resolv.conf", 0640, 0711, way), ENOENT, "MakeFile", "a link");
    told(inroot_mkfile_all(root, "a/b", 0640, 0711, INROOT_FOLLOW | way), EISDIR, "", "a directory");
    told(inroot_mkfile_all(root, "a/new/", 0640, 0711, way), ENOTDIR, "", "a slash");
    told(inroot_mkfile_all(root, "a/new/..", 0640, 0711, way), EINVAL, "", "no name");
    gives(mode_of("a/new"), 0, "nothing was made");
    is_taken = true;
    for (int follow = 0; follow <= 1; follow++) {
        const int flags = way | (follow ? INROOT_FOLLOW : 0);
        creations = 0;
        told(inroot_mkfile_all(root, "a/n/x", 0640, 0711, flags | INROOT_NO_RETRY), EAGAIN, "MakeDir", "one try");
        gives(creations, 1, "files to be made by one try");
        creations = 0;
        told(inroot_mkfile_all(root, "a/n/x", 0640, 0711, flags), EAGAIN, "MakeDir", "all tries");
        gives(creations, INROOT_TRIES, "files to be made by all tries");
    }
    is_taken = false;
    remove_tree();
}

static void others(void)
{
    make_tree();
    finds(with_others(make_it, 1, 0), "a/n/x", S_IFREG | 0644, "another's file");
    remove_tree();
    make_tree();
    gives(with_others(make_link, 1, 0), -ENOENT, "another's link");
    remove_tree();
    make_tree();
    finds(with_others(make_link, 1, INROOT_FOLLOW), "a/m", S_IFREG | 0640, "another's link, followed");
    remove_tree();
    make_tree();
    gives(with_others(make_directory, 1, INROOT_FOLLOW), -EISDIR, "another's directory");
    remove_tree();
    make_tree();
    int fd = with_others(replace_above, 1, 0);
    finds(fd, "a/was/x", S_IFREG | 0640, "a file in what was moved");
    remove_tree();
    make_tree();
    gives(with_others(come_and_go, 1, INROOT_FOLLOW), -ELOOP, "a link to itself");
    remove_tree();
}

static void each(void)
{
    umask(0);
    int before = open_descriptors();
    files();
    directories();
    modes();
    chains();
    long_links();
    errors();
    others();
    expect(open_descriptors() == before, "%d descriptors are left", open_descriptors() - before);
}

int main(int count, char **words)
{
    if (count != 2 || chdir(words[1]) != 0)
        return 2;
    sure(mkdir("box", 0755), "box");
    sure(mkdir("outside", 0755), "outside");
    root = sure(open("box", O_PATH | O_DIRECTORY | O_CLOEXEC), "box");
    beside = sure(open("outside", O_PATH | O_DIRECTORY | O_CLOEXEC), "outside");
    sure(getcwd(outside, sizeof outside - 16) == NULL ? -1 : 0, "getcwd");
    strcat(outside, "/outside");
    open_proc();
    const int skipped = in_each_way(root, each);
    printf("make_all: %d not as they are to be\n", wrong);
    return wrong != 0 ? 1 : skipped;
}
