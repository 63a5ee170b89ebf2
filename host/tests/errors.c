/*
 * errors: the first errors of a call in their order, for a bad root before anything else; an opened object shares
 * nothing with the root; names that end in ` (deleted)`; directories that may not be searched; how often a call tries;
 * the sentence of an error, also cut off.
 *
 * usage: errors DIR. Exits 0 where each is as inroot.h says. 78: no right to become nobody, so that a part is left out.
 */
#define _GNU_SOURCE
#include "support.h"

#include <errno.h>
#include <fcntl.h>
#include <string.h>
#include <sys/stat.h>

static int base;

/* What a call gave, which is closed. */
static int closed(int result)
{
    if (result < 0)
        return result;
    close(result);
    return 0;
}

/* FORM may have the C library's own words. */
static void says(long got, int error, const char *form)
{
    char text[2048] = "", wanted[2048];
    snprintf(wanted, sizeof wanted, form, strerror(error));
    gives(got, -error, "the call that is to say '%s'", wanted);
    gives(inroot_last_error_text(text, sizeof text), (long)strlen(wanted), "the length of '%s'", wanted);
    gives_text(text, wanted, "error %d", error);
}

/* The root's own error comes before what the second path says of itself, though the first one leads to the root without a step. */
static void renames_below(int root, int wanted)
{
    static const char *const ends[] = {"", ".", "a/.."};
    char name[NAME_MAX + 2];
    memset(name, 'n', sizeof name - 1);
    name[sizeof name - 1] = 0;
    for (int one = 0; one < 3; one++)
        gives(inroot_rename(root, "x", ends[one], 0, 0), wanted, "a rename to '%s', below %d", ends[one], root);
    gives(inroot_rename(root, "x", name, 0, 0), wanted, "a rename to a long name, below %d", root);
    gives(inroot_rename(root, "x", "/y", 0, INROOT_BENEATH), wanted, "a rename to an absolute path, below %d", root);
    gives(inroot_rename(root, "x", "../y", 0, INROOT_BENEATH), wanted, "a rename out of the root, below %d", root);
    gives(inroot_rename(root, "./x", "/y", 0, INROOT_BENEATH), wanted, "the same from a path with a dot, below %d", root);
}

static void bad_roots(void)
{
    static const char *const paths[] = {"", "/", "a", "..", "a/..", "a/b/c"};
    struct stat about;
    char text[8], last[256];
    int file = sure(openat(base, "file", O_PATH | O_CLOEXEC), "file");
    for (size_t at = 0; at < sizeof paths / sizeof *paths; at++) {
        const char *path = paths[at];
        gives(closed(inroot_open(999, path, 0)), -EBADF, "a root that isn't open, %s", path);
        gives(closed(inroot_open(-2, path, 0)), -EBADF, "a number that is no descriptor, %s", path);
        gives(closed(inroot_open(999, path, INROOT_EXACT)), -EBADF, "a root that isn't open, exactly, %s", path);
        gives(closed(inroot_open(file, path, INROOT_EXACT)), -ENOTDIR, "a root that is a file, exactly, %s", path);
        gives(closed(inroot_open(file, path, 0)), -ENOTDIR, "a root that is a file, %s", path);
        gives(closed(inroot_open(file, path, INROOT_BENEATH)), -ENOTDIR, "a root that is a file, beneath, %s", path);
        gives(closed(inroot_open(999, path, 64)), -EINVAL, "a flag that is none, %s", path);
        gives(inroot_mknod(999, path, S_IFREG | 0644, 0, 0), -EBADF, "a file below what isn't open, %s", path);
        gives(inroot_rename(file, path, path, 0, 0), -ENOTDIR, "a rename below a file, %s", path);
        gives(inroot_remove_all(file, path, 0), -ENOTDIR, "a tree below a file, %s", path);
        gives(inroot_readlink(file, path, 0, text, sizeof text), -ENOTDIR, "a link below a file, %s", path);
        gives(closed(inroot_openat(file, path, O_RDONLY, 0, 0)), -ENOTDIR, "to be read below a file, %s", path);
        gives(closed(inroot_openat(file, path, O_RDWR | O_CREAT, 0600, 0)), -ENOTDIR, "created below a file, %s", path);
        gives(inroot_stat(file, path, &about, 0), -ENOTDIR, "told of below a file, %s", path);
        gives(inroot_mknod(file, path, S_IFIFO | 0600, 0, 0), -ENOTDIR, "a node below a file, %s", path);
        gives(inroot_link(file, path, path, 0), -ENOTDIR, "a second name below a file, %s", path);
        gives(inroot_link_fd(file, base, path, 0), -ENOTDIR, "a second name of what is open below a file, %s", path);
        gives(inroot_open_parent(file, path, 0, last), -ENOTDIR, "a parent below a file, %s", path);
        gives_text(last, "", "the name in a parent below a file, %s", path);
        gives(inroot_open_parent(999, path, 0, last), -EBADF, "a parent below what isn't open, %s", path);
        for (int follow = 0; follow <= INROOT_FOLLOW; follow += INROOT_FOLLOW) {
            gives(inroot_mkfile_all(file, path, 0600, 0700, follow), -ENOTDIR, "a file and all below a file, %s", path);
            gives(inroot_mkfile_all(999, path, 0600, 0700, follow), -EBADF, "a file and all below none, %s", path);
            gives(inroot_mkdir_all(file, path, 0700, follow), -ENOTDIR, "all directories below a file, %s", path);
            gives(inroot_mkfile_all(999, path, 0600, 010000, follow), -EINVAL, "a mode that is none, %s", path);
            gives(inroot_mkfile_all(999, path, 010000, 0700, follow), -EINVAL, "a mode that is none, %s", path);
        }
    }
    renames_below(file, -ENOTDIR);
    renames_below(999, -EBADF);
    close(file);
    int root = sure(openat(base, ".", O_PATH | O_DIRECTORY | O_CLOEXEC), ".");
    gives(closed(inroot_open(root, "", 0)), -ENOENT, "no path");
    gives(inroot_rename(root, "a", "b", 3, 0), -EINVAL, "a mode that is none");
    close(root);
}

/* A flag that no call has is refused before anything is asked of the root. */
static void unknown_flags(void)
{
    const unsigned known = INROOT_BENEATH | INROOT_NO_LINKS | INROOT_NOFOLLOW | INROOT_NO_RETRY | INROOT_FOLLOW | INROOT_NO_XDEV |
                           INROOT_GIVE | INROOT_EXACT;
    for (unsigned bit = 0; bit < 31; bit++) {
        int flag = (int)(1u << bit);
        int got = closed(inroot_open(999, "a", flag));
        bool is_opens = (known & ~(unsigned)(INROOT_FOLLOW | INROOT_GIVE)) >> bit & 1;
        gives(got, (is_opens ? -EBADF : -EINVAL), "inroot_open() with the flag 2^%u", bit);
        got = inroot_mkdir(999, "a", 0755, flag);
        bool is_makes = (known & ~(unsigned)(INROOT_FOLLOW | INROOT_NOFOLLOW)) >> bit & 1;
        gives(got, (is_makes ? -EBADF : -EINVAL), "inroot_mkdir() with the flag 2^%u", bit);
        char text[256];
        got = inroot_open_parent(999, "a", flag, text);
        bool is_parent = ((known & ~(unsigned)(INROOT_FOLLOW | INROOT_NOFOLLOW | INROOT_GIVE)) | INROOT_DIRECTORY) >> bit & 1;
        gives(got, (is_parent ? -EBADF : -EINVAL), "inroot_open_parent() with the flag 2^%u", bit);
        got = inroot_mkfile_all(999, "a", 0600, 0700, flag);
        bool is_all = (known & ~(unsigned)(INROOT_NOFOLLOW | INROOT_GIVE)) >> bit & 1;
        gives(got, (is_all ? -EBADF : -EINVAL), "inroot_mkfile_all() with the flag 2^%u", bit);
        got = inroot_mkdir_all(999, "a", 0700, flag);
        gives(got, (is_all ? -EBADF : -EINVAL), "inroot_mkdir_all() with the flag 2^%u", bit);
    }
}

/* What is opened is a descriptor of its own, by which nothing can be read; also by a path without names. */
static void opened_alone(void)
{
    static const char *const paths[] = {"/", ".", "..", "link", "file"};
    int root = sure(openat(base, ".", O_RDONLY | O_DIRECTORY | O_CLOEXEC), ".");
    for (size_t at = 0; at < 2 * sizeof paths / sizeof *paths; at++) {
        const char *path = paths[at / 2];
        int fd = inroot_open(root, path, at % 2 ? INROOT_EXACT : 0);
        gives_fd(fd, "%s", path);
        gives(fcntl(fd, F_GETFL) & O_PATH, O_PATH, "%s: its flag O_PATH", path);
        gives(fcntl(fd, F_GETFD), FD_CLOEXEC, "%s: its flag FD_CLOEXEC", path);
        gives(lseek(fd, 0, SEEK_CUR), -1, "%s: a place to read from", path);
        gives(errno, EBADF, "%s: errno of a place to read from", path);
        close(fd);
    }
    close(root);
}

/*
 * The kernel's text of a file of such a name may be that of a removed one: nobody can say where it stands. By the kernel's walk it is
 * opened, made, renamed and removed as any other.
 */
static void files_called_so(int root)
{
    struct stat about;
    char place[64];
    int file = sure(openat(root, "g (deleted)", O_PATH | O_CLOEXEC), "openat");
    gives(inroot_place(root, file, place, sizeof place), -EXDEV, "the place of a file that is called so");
    close(file);
    says(inroot_open(root, "g (deleted)", INROOT_EXACT | INROOT_NO_RETRY), EAGAIN,
         "can't find the object's place: others moved or removed it at each try, or its name ends in ` (deleted)` (EAGAIN)");
    gives(closed(inroot_open(root, "d/../g (deleted)", INROOT_EXACT | INROOT_NO_RETRY)), -EAGAIN, "the same behind `..`, exactly");
    gives(closed(inroot_open(root, "g (deleted)", INROOT_NO_RETRY)), 0, "the same by the kernel's walk");
    gives(closed(inroot_openat(root, "g (deleted)", O_RDONLY, 0, INROOT_EXACT | INROOT_NO_RETRY)), -EAGAIN, "the same to be read, exactly");
    gives(closed(inroot_openat(root, "g (deleted)", O_RDONLY, 0, INROOT_NO_RETRY)), 0, "the same to be read, by the kernel's walk");
    gives(inroot_stat(root, "g (deleted)", &about, INROOT_EXACT | INROOT_NO_RETRY), -EAGAIN, "the same, looked at exactly");
    gives(inroot_link(root, "g (deleted)", "h", INROOT_EXACT | INROOT_NO_RETRY), -EAGAIN, "a name for the same, exactly");
    gives(inroot_mknod(root, "i (deleted)", S_IFREG | 0600, 0, INROOT_EXACT), 0, "a new file that is called so");
    gives(inroot_rename(root, "i (deleted)", "j (deleted)", 0, INROOT_EXACT), 0, "a name that ends so for another");
    gives(inroot_unlink(root, "j (deleted)", INROOT_EXACT), 0, "a file that is called so, removed");
}

/* Names that end as the kernel writes of what is removed. */
static void deleted_names(void)
{
    sure(mkdirat(base, "r (deleted)", 0755), "mkdirat");
    int root = sure(openat(base, "r (deleted)", O_PATH | O_DIRECTORY | O_CLOEXEC), "openat");
    sure(mkdirat(root, "d", 0755), "mkdirat");
    sure(mkdirat(root, "e (deleted)", 0755), "mkdirat");
    sure(mkdirat(root, "d/f", 0755), "mkdirat");
    sure(mknodat(root, "g (deleted)", S_IFREG | 0600, 0), "mknodat");
    gives(closed(inroot_open(root, "d/f", 0)), 0, "below a root that is called so");
    gives(closed(inroot_open(root, "d/..", 0)), 0, "up to a root that is called so");
    gives(closed(inroot_open(root, "e (deleted)", 0)), 0, "a directory that is called so");
    gives(inroot_mkdir(root, "e (deleted)/x", 0755, 0), 0, "in a directory that is called so");
    files_called_so(root);
    gives(closed(inroot_open(root, "d/../e (deleted)", INROOT_NO_RETRY)), 0, "a directory that is called so, by steps");
    gives(inroot_remove_all(root, "e (deleted)", 0), 2, "a tree that is called so");
    /* A root that is gone is below itself still, and has no names below it. */
    int gone = sure(openat(root, "d/f", O_PATH | O_DIRECTORY | O_CLOEXEC), "openat");
    sure(unlinkat(root, "d/f", AT_REMOVEDIR), "unlinkat");
    gives(closed(inroot_open(gone, "/", 0)), 0, "a root that is gone, itself");
    gives(inroot_place(gone, gone, (char[]){0, 0}, 2), 1, "the place of a root that is gone");
    gives(closed(inroot_open(gone, "x", 0)), -ENOENT, "a name in a root that is gone");
    gives(inroot_mkdir(gone, "x", 0755, 0), -ENOENT, "a directory in a root that is gone");
    close(gone);
    close(root);
}

/* ---- the sentence of an error */

static void sentences(void)
{
    static const char mount[] = "the path leads out of the root or to another mount (EXDEV)";
    int root = sure(openat(base, ".", O_PATH | O_DIRECTORY | O_CLOEXEC), ".");
    int above = sure(open("/", O_PATH | O_DIRECTORY | O_CLOEXEC), "/");
    int link = sure(openat(base, "link", O_PATH | O_NOFOLLOW | O_CLOEXEC), "link");
    char place[8];
    says(inroot_open(root, "x", 64), EINVAL, "an argument isn't valid: a flag, a mode, or a path that ends in no name (EINVAL)");
    says(inroot_open(-1, "x", 0), EBADF, "a descriptor isn't open (EBADF)");
    says(inroot_open(root, "", 0), ENOENT, "the path is empty (ENOENT)");
    says(inroot_open(root, "..", INROOT_BENEATH), EXDEV, mount);
    says(inroot_open(root, "none/x", 0), ENOENT, "can't look up the path: %s (ENOENT)");
    says(inroot_open(root, "none/x", INROOT_EXACT), ENOENT, "can't look up \"none\": %s (ENOENT)");
    says(inroot_open(root, "link", INROOT_NO_LINKS), ELOOP,
         "can't look up \"link\": too many links, or one that the call doesn't follow (ELOOP)");
    says(inroot_open(root, "link", INROOT_BENEATH), EXDEV,
         "can't read the link: it leads out of the root or to another mount (EXDEV)");
    says(inroot_mkdir(root, "open", 0755, 0), EEXIST, "can't make the directory \"open\": it is there already (EEXIST)");
    says(inroot_rename(root, "file", "open", INROOT_NOREPLACE, 0), EEXIST,
         "can't rename \"file\": the other name is there already (EEXIST)");
    says(inroot_unlink(root, "a\nb\"\\ \x7f\xe9", 0), ENOENT, "can't remove \"a\\012b\\042\\134 \\177\\351\": %s (ENOENT)");
    says(inroot_openat(root, "open", O_WRONLY, 0, 0), EISDIR, "can't open the object: %s (EISDIR)");
    says(inroot_fchmod(link, 0600), EOPNOTSUPP, "can't use the object's attributes: %s (EOPNOTSUPP)");
    says(inroot_place(root, above, place, sizeof place), EXDEV,
         "can't find the object's place: it isn't below the root, or is on another mount (EXDEV)");
    says(inroot_place(root, root, place, 1), ERANGE, "the text doesn't fit (ERANGE)");
    close(link);
    close(above);
    close(root);
}

/* A sentence is cut off where it doesn't fit, and the longest name is in it. */
static void cut_sentences(void)
{
    static const char whole[] = "the path is empty (ENOENT)";
    char text[sizeof whole + 2], name[NAME_MAX + 1];
    gives(inroot_open(base, "", 0), -ENOENT, "no path");
    gives(inroot_last_error_text(NULL, 0), sizeof whole - 1, "the length alone");
    for (size_t size = 0; size <= sizeof whole + 1; size++) {
        const size_t fits = size == 0 ? 0 : size < sizeof whole ? size - 1 : sizeof whole - 1;
        memset(text, '#', sizeof text);
        gives(inroot_last_error_text(text, size), sizeof whole - 1, "the length, cut to %zu", size);
        expect(memcmp(text, whole, fits) == 0, "what fits into %zu", size);
        gives(text[fits], size == 0 ? '#' : 0, "the end, cut to %zu", size);
        gives(text[fits + 1], '#', "what is behind the end, cut to %zu", size);
    }
    memset(name, '\n', sizeof name - 1);
    name[sizeof name - 1] = 0;
    gives(inroot_rmdir(base, name, 0), -ENOENT, "a long name");
    gives(inroot_last_error_text(NULL, 0), (long)(40 + 4 * NAME_MAX + strlen(strerror(ENOENT))), "the length by a long name");
}

/* As nobody: a directory that may not be searched is opened where the path ends, and leads nowhere. */
static void shut_directories(int flags)
{
    int root = sure(openat(base, "open", O_PATH | O_DIRECTORY | O_CLOEXEC), "open");
    gives(closed(inroot_open(root, "shut", flags)), 0, "a directory that may not be searched");
    gives(closed(inroot_open(root, "sub/shut", flags)), 0, "the same, deeper");
    gives(closed(inroot_open(root, "shut/x", flags)), -EACCES, "what is in it");
    gives(closed(inroot_open(root, "shut/..", flags)), -EACCES, "what is above it");
    gives(closed(inroot_open(root, "sub/../sub", flags)), 0, "what may be searched");
    gives(closed(inroot_open(root, "sub/file", flags)), 0, "a file in it");
    close(root);
}

static void shut_to_nobody(void)
{
    if (setresuid(65534, 65534, 65534) != 0)
        exit(1);
    shut_directories(0);
    shut_directories(INROOT_EXACT);
}

int main(int count, char **words)
{
    if (count != 2)
        return 2;
    base = sure(open(words[1], O_PATH | O_DIRECTORY | O_CLOEXEC), words[1]);
    sure(fchmodat(base, ".", 0755, 0), "chmod");
    sure(mknodat(base, "file", S_IFREG | 0600, 0), "file");
    sure(symlinkat("/", base, "link"), "link");
    sure(mkdirat(base, "open", 0755), "open");
    sure(mkdirat(base, "open/sub", 0755), "sub");
    sure(mkdirat(base, "open/shut", 0), "shut");
    sure(mkdirat(base, "open/sub/shut", 0), "shut");
    sure(mknodat(base, "open/sub/file", S_IFREG | 0600, 0), "file");
    open_proc();
    int before = open_descriptors();
    gives(inroot_last_error_text(NULL, 0), -ENODATA, "the sentence before an error");
    sentences();
    cut_sentences();
    unknown_flags();
    bad_roots();
    opened_alone();
    deleted_names();
    int skipped = may_be_nobody() ? apart(shut_to_nobody) : NO_RIGHT;
    int left = open_descriptors() - before;
    printf("errors: %d not as they are to be, %d descriptors left open\n", wrong, left);
    return wrong != 0 || left != 0 ? 1 : skipped;
}
