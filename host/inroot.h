/*
 * inroot.h: paths below a directory, of which nothing leads out. docs/HOST.md is the manual; more in libinroot(7).
 *
 * ROOT is a descriptor of the directory (O_PATH is enough), which stays open until the call ends. PATH is a text of at
 * most 4,095 bytes, and not NULL. A call reads its texts once, as it begins, and walks PATH as openat2(2) does with
 * RESOLVE_IN_ROOT: `..` at the root and an absolute link stay inside. The kernel walks first, by one openat2(2); if the
 * look-up fails, proved code walks by single steps. FLAGS are 0 or any of the flags below together. MODE is bits of
 * 07777, less the umask; the kernel may drop further ones.
 *
 * What a call promises, whoever renames, mounts and removes meanwhile:
 *   - The components of PATH led to the object, each at a moment of the call, one moment after another.
 *   - The object was below ROOT by the kernel's own check, as the look-up ended. (To the kernel a removed entry is
 *     below the directory that had the entry.)
 *   - A change acts in the directory that was found, and is made once. An error was true at a moment of the call.
 *   - A call leaves no descriptor open except the returned one, and none after an error.
 *   - Under INROOT_EXACT two witnesses say at which names the object stands, and all of these led there at one moment.
 *     Such a call walks by single steps, needs a proc(5), and takes some ten times as long: libinroot(7).
 *
 * If the steps find that others moved or removed what the walk had reached, the call retries: INROOT_TRIES tries, some
 * 20 milliseconds in all. Every call that fails returns -errno. In this order:
 *
 *   EINVAL        a flag that is unknown, or that the call doesn't take; a MODE with bits that the call doesn't take
 *   EBADF         ROOT is negative; then ENOSYS, where the kernel lacks what the library needs, or a filter refuses:
 *                 Linux 5.10 or later, with openat2(2) and with mount ids from statx(2)
 *   EBADF         ROOT isn't a descriptor
 *   ENOTDIR       ROOT isn't a directory
 *   ENOMEM        no memory for the call, here or at any step. The kernel's walk takes none
 *   ENOENT        PATH is empty
 *   ENAMETOOLONG  PATH is longer than 4,095 bytes
 *   EINVAL        the last component of PATH isn't a name where an entry is changed: `.`, `..` or none
 *   ENOTDIR       a slash at the end of PATH, where a non-directory is made or removed, except by inroot_remove_all()
 *   ENAMETOOLONG  the last name is longer than 255 bytes, where an entry is changed
 *   EXDEV         the path leads out of the root, under INROOT_BENEATH; or to another mount, under INROOT_NO_XDEV
 *   ENAMETOOLONG  a name on the way is longer than 255 bytes, or a link's text or an object's own path than 4,095
 *   ENOTDIR       the object before a component of PATH isn't a directory
 *   ENOENT        a name on the way is missing
 *   ELOOP         more than 40 links, or any link under INROOT_NO_LINKS; or a link on a mount with nosymfollow
 *                 (mount(8)), or a magic link, as in /proc/self/fd (RESOLVE_NO_MAGICLINKS): no call follows these
 *   ENOSYS        a path is to be asked for by /proc, and there is no proc(5) with thread-self
 *   EAGAIN        something was moved or removed meanwhile, at each try; or a name ends in ` (deleted)`: libinroot(7)
 *   EMFILE        no descriptor is left
 *   any other     error of a step's system call, as EACCES, EIO, ENFILE or ESTALE
 *
 * and then those of the one step on the last name, which each call lists. EINTR comes only from a step that changes an
 * entry, opens for use, or is fstat(2): libinroot(7) says what has changed then.
 *
 * The calls leave alone: open descriptors, signal masks and handlers, umask, root and current directory. errno may
 * change. Any number of threads may make calls, on one root or several. A thread that is cancelled (pthread_cancel(3))
 * in a call ends after the call. A call takes up to 64 kilobytes of the thread's stack. docs/HOST.md explains signals,
 * fork(2), vfork(2) and CLONE_FILES. fs.protected_symlinks (proc_sys_fs(5)) doesn't apply.
 */
#ifndef INROOT_H
#define INROOT_H

#include <stddef.h>
#include <sys/stat.h>
#include <sys/types.h>
#include <time.h>

#ifdef __cplusplus
extern "C" {
#endif

/* The version of this header, also as a growing number; and the version of the linked library. */
#define INROOT_VERSION "0.2.0"
#define INROOT_VERSION_MAJOR 0
#define INROOT_VERSION_MINOR 2
#define INROOT_VERSION_PATCH 0
#define INROOT_VERSION_NUMBER (INROOT_VERSION_MAJOR * 1000000 + INROOT_VERSION_MINOR * 1000 + INROOT_VERSION_PATCH)
const char *inroot_version(void);

enum {
    INROOT_BENEATH = 1,         /* refuses what would lead out of the root (RESOLVE_BENEATH) */
    INROOT_NO_LINKS = 2,        /* refuses every symbolic link on the way (RESOLVE_NO_SYMLINKS) */
    INROOT_NOFOLLOW = 4,        /* of inroot_open() and inroot_stat() alone: PATH means the link at its end */
    INROOT_NO_RETRY = 8,        /* makes one try */
    INROOT_FOLLOW = 16,         /* of inroot_link(), inroot_mkdir_all() and inroot_mkfile_all() alone: see there */
    INROOT_NO_XDEV = 128,       /* refuses to leave the mount that ROOT is on, by a bind mount too (RESOLVE_NO_XDEV) */
    INROOT_GIVE = 256,          /* of the calls that make an entry: they return a descriptor of the new entry */
    INROOT_DIRECTORY = 1024,    /* of inroot_open_parent() alone: PATH may end in a slash */
    INROOT_EXACT = 16384,       /* walks by single steps, as above */
};

/* The tries of a call, where others are in its way. */
enum { INROOT_TRIES = 32 };

/* How inroot_rename() treats an existing entry TO (renameat2(2)). A whiteout may come with INROOT_NOREPLACE. */
enum { INROOT_PLAIN = 0, INROOT_NOREPLACE = 1, INROOT_EXCHANGE = 2, INROOT_WHITEOUT = 4 };

/*
 * PROC is a descriptor of the topmost directory of a proc(5), which all later calls use in place of /proc. Call once,
 * and before the first other call, which opens /proc otherwise. PROC may be closed afterwards. Returns 0. EBADF; EINVAL
 * of another file system or with nosymfollow; ENOTDIR; EACCES; EMFILE; EBUSY where the library has a proc(5) already.
 */
int inroot_use_proc(int proc);

/*
 * The same by a proc(5) of the library's own, which is mounted nowhere, so nobody can mount over anything below. For a
 * program whose /proc somebody may cover, as in a container's mount namespace. It shows the processes of the thread's
 * pid namespace. Returns 0. EBUSY where the library has a proc(5) already; EPERM without CAP_SYS_ADMIN, or where the
 * kernel makes none; ENOSYS; EMFILE; ENOMEM; and errors of fsopen(2) and fsmount(2). A failed call may be made again.
 */
int inroot_use_private_proc(void);

/* Where a path of inroot_proc_open() and inroot_proc_readlink() begins; or at a process, which has a number above 0. */
enum { INROOT_PROC_ROOT = -201, INROOT_PROC_SELF = -202, INROOT_PROC_THREAD_SELF = -203 };

/*
 * Opens a file of the proc(5) of the library, by OPEN_FLAGS of inroot_reopen() and O_NOFOLLOW. PATH begins at BASE, and
 * doesn't lead out of BASE. If something is mounted over a component of PATH or over the file, the call fails. Without
 * O_NOFOLLOW the call follows a link at the end. A magic link, as `exe` or `fd/3`, leads to its object, wherever that
 * is, or to what somebody mounts over the link just before the opening. Returns a descriptor. inroot_proc_readlink()
 * reads the text of a link, as inroot_readlink() does.
 *
 * EINVAL of another BASE or flag; ENOSYS where there is no proc(5), or the proc(5) doesn't show this process; EMFILE;
 * ENOENT of a missing process or file, or an empty PATH; ENAMETOOLONG; EXDEV where something is mounted there, or PATH
 * begins with a slash or leads out of BASE; ELOOP of a magic link on the way, or of a link at the end under O_NOFOLLOW
 * without O_PATH; EAGAIN of a PATH with `..` while others rename or mount without end; EINVAL of the text of a
 * non-link; and errors of open(2) and the file.
 */
int inroot_proc_open(int base, const char *path, int open_flags);
ssize_t inroot_proc_readlink(int base, const char *path, char *text, size_t size);

/*
 * Why the thread's last call failed. STEP is the last step of the call, by its name in docs/HOST.md, or empty if the
 * call failed before the first. NAME is the name of the step, cut off where it doesn't fit, or empty.
 */
struct inroot_error {
    int error;          /* the number, as ENOENT */
    const char *step;   /* stays as long as the program */
    char name[256];
    unsigned long long reserved[15];    /* zero; a later version of the same soname may use them */
};

/*
 * Returns 0 and the error; or the length of one sentence for a log, a line of ASCII, which is cut as by snprintf(3).
 * Both return -ENODATA where no call of this thread has failed. After a call that succeeded both are unspecified.
 */
int inroot_last_error(struct inroot_error *error);
int inroot_last_error_text(char *text, size_t size);

/*
 * Opens the object of PATH, as openat2(2) does with O_PATH. Returns a descriptor (O_PATH and O_CLOEXEC), which shares
 * nothing with ROOT. The object was there at a moment of the call, and may be gone by now.
 */
int inroot_open(int root, const char *path, int flags);

/*
 * Opens the directory of the entry of PATH, which may be missing, as the calls that change an entry find the directory.
 * Writes the entry's name to LAST, at most 255 bytes and a NUL; after an error LAST is empty. Use both for other system
 * calls, which must follow no link there. Returns a descriptor as inroot_open() does. A slash at the end of PATH is
 * ENOTDIR; under INROOT_DIRECTORY the call takes the slash away.
 */
int inroot_open_parent(int root, const char *path, int flags, char last[256]);

/*
 * Writes the path below ROOT of the object that FD is open on, by both witnesses of INROOT_EXACT: the names, with a
 * slash before each and a NUL at the end, or a slash for the root itself. Returns the text's length in bytes. The
 * object was there at a moment of the call. Of an object with several names the text has the name by which FD was
 * opened. EBADF if FD isn't a descriptor comes behind the errors of every call that are about ROOT; ENOENT if the
 * object was removed; EXDEV if the object isn't below ROOT at any of eight questions, or if nobody can say that it
 * wasn't removed; ERANGE if the text and its NUL don't fit into SIZE bytes. After an error nothing is written.
 */
ssize_t inroot_place(int root, int fd, char *path, size_t size);

/*
 * Opens the object of PATH for use, by OPEN_FLAGS as open(2) has them: O_RDONLY, O_WRONLY or O_RDWR, and O_CREAT,
 * O_EXCL, O_TRUNC, O_APPEND, O_DIRECTORY, O_NOFOLLOW, O_TMPFILE, O_NONBLOCK, O_SYNC, O_DSYNC, O_DIRECT, O_NOATIME,
 * O_LARGEFILE, O_NOCTTY, O_CLOEXEC. The last two are always set. Or O_PATH, with O_DIRECTORY, O_NOFOLLOW, O_CREAT and
 * O_EXCL alone: with O_CREAT the call makes a missing file, and returns a descriptor as by INROOT_GIVE. MODE counts
 * with O_CREAT and O_TMPFILE, and is 0 without. Returns a descriptor.
 *
 * The call makes and opens a missing file (O_CREAT) by one open(2) with O_EXCL, in the directory that was found.
 * Without O_EXCL the call follows a link at the end of PATH whose target is missing, and makes the target, below the
 * root. With O_TMPFILE the file has no name, in the file system of the directory of PATH; inroot_link_fd() makes a
 * name. The call opens a FIFO and a device as open(2) does, without protections like fs.protected_regular and
 * fs.protected_fifos: inroot_open(3) says what to do where somebody else may have placed a file there.
 *
 * EINVAL of other flags, of flags that don't go together, of a MODE without O_CREAT and O_TMPFILE; and then, behind the
 * errors of every call: EEXIST under O_CREAT with O_EXCL where such an entry exists, a link too; EISDIR of a directory
 * that is opened for writing or by O_CREAT; ELOOP of a link under O_NOFOLLOW without O_PATH; ENOTDIR of a non-directory
 * under O_DIRECTORY; ENXIO of a socket; ENOSYS where the steps found the object and there is no proc(5) to open by;
 * EAGAIN under O_CREAT where others make and remove the entry at each try; and errors of open(2).
 */
int inroot_openat(int root, const char *path, int open_flags, mode_t mode, int flags);

/*
 * Opens the object that FD is open on once more, for another use: a file that inroot_open() found, for reading or
 * writing. OPEN_FLAGS as above, except O_CREAT, O_EXCL, O_TMPFILE and O_NOFOLLOW. Returns a descriptor, with an offset
 * and flags of its own. EINVAL of other flags; EBADF of FD; ENOSYS where there is no proc(5) to open by; EMFILE; ELOOP
 * of a link; EISDIR of a directory, for writing; ENOTDIR under O_DIRECTORY; ENXIO of a socket; and errors of open(2).
 */
int inroot_reopen(int fd, int open_flags);

/* Gets the status of the object of PATH (fstat(2)), or under INROOT_NOFOLLOW of a link at its end. Returns 0. */
int inroot_stat(int root, const char *path, struct stat *about, int flags);

/*
 * Reads the text of the link at the end of PATH (readlinkat(2)). Returns its length in bytes, and writes as much as
 * fits into SIZE bytes, without a NUL. EINVAL of a non-link.
 */
ssize_t inroot_readlink(int root, const char *path, int flags, char *text, size_t size);

/*
 * Change the mode, the owner and the times of the object that FD is open on, wherever the object is: any object that
 * inroot_open() found, also a device, a FIFO or a socket, and under INROOT_NOFOLLOW a link. The calls open no object
 * and walk no path. MODE is bits of 07777 as chmod(2) has them. A USER or a GROUP of all ones stays (chown(2)). TIMES
 * are those of the last access and of the last change of the contents (utimensat(2)); NULL is the present time for
 * both. Set the owner first: the kernel then takes off the bits for set-user-ID and set-group-ID.
 *
 * Each returns 0. EINVAL of a MODE or of nanoseconds that aren't valid; EBADF of FD; EOPNOTSUPP of a link's mode;
 * ENOSYS where there is no proc(5), for the mode; EMFILE; and errors of chmod(2), chown(2) and utimensat(2).
 */
struct timespec;        /* missing in <time.h> of strict C99 */
int inroot_fchmod(int fd, mode_t mode);
int inroot_fchown(int fd, uid_t user, gid_t group);
int inroot_futimens(int fd, const struct timespec *times);

/*
 * The extended attributes of the object that FD is open on (xattr(7)), in the same way; for a link, those of the link
 * itself. inroot_fsetxattr() sets one, by FLAGS of setxattr(2): 0, XATTR_CREATE or XATTR_REPLACE. inroot_fgetxattr()
 * returns the length of a value, and inroot_flistxattr() the length of all names together, a NUL behind each; each
 * writes the bytes if they fit into SIZE, and with a SIZE of 0 returns only the length. The other two return 0.
 *
 * EINVAL of other FLAGS; E2BIG of a value of more than 65,536 bytes; EBADF of FD; ENOSYS where there is no proc(5), and
 * before Linux 6.13 where the proc(5) isn't the one at /proc; EMFILE; ENODATA of a missing attribute; ERANGE where SIZE
 * is too small, or of a NAME that is longer than 255 bytes or empty; EEXIST under XATTR_CREATE; EOPNOTSUPP where the
 * file system has none; EPERM of `user.` attributes except of a regular file or a directory; and errors of setxattr(2).
 */
int inroot_fsetxattr(int fd, const char *name, const void *value, size_t size, int flags);
ssize_t inroot_fgetxattr(int fd, const char *name, void *value, size_t size);
ssize_t inroot_flistxattr(int fd, char *names, size_t size);
int inroot_fremovexattr(int fd, const char *name);

/*
 * The calls that make an entry, from here to inroot_link_fd(), return 0. Under INROOT_GIVE they return a descriptor of
 * the new entry (O_PATH and O_CLOEXEC), for its owner, mode, times and attributes. They open the entry by its name,
 * through no link. A file is the very file that the call made, and a second name's object is the very object. A
 * directory, FIFO, socket, link or device may be another one of just that kind, text or number, which somebody has put
 * there (inroot_mkdir(3)). An error at the step `Give`, as EAGAIN where the entry is gone, comes after the making.
 */

/*
 * Makes an entry of the kind that MODE has beside its permissions (mknodat(2)): S_IFREG, an empty file, S_IFIFO,
 * S_IFSOCK, S_IFCHR or S_IFBLK. The last two make a node of the device DEV, which is 0 otherwise. EINVAL of another
 * kind or DEV; EEXIST where such an entry exists, a link too; EPERM of a device; and errors of mknodat(2).
 */
int inroot_mknod(int root, const char *path, mode_t mode, dev_t dev, int flags);

/* Makes an empty directory (mkdirat(2)). EEXIST where such an entry exists, and errors of mkdirat(2). */
int inroot_mkdir(int root, const char *path, mode_t mode, int flags);

/* Makes a link with TEXT (symlinkat(2)). EEXIST where such an entry exists, and errors of symlinkat(2). */
int inroot_symlink(int root, const char *text, const char *path, int flags);

/*
 * Makes a second name, PATH, for the object of EXISTING (linkat(2)). If EXISTING ends in a link, the link itself gets
 * the name, or under INROOT_FOLLOW the object that the link leads to. The errors of EXISTING come before those of PATH;
 * then EEXIST where such an entry exists, EXDEV where the object is on another mount, EPERM of a directory, ENOENT
 * where the object is gone meanwhile, ENOSYS where there is no proc(5), and errors of linkat(2).
 */
int inroot_link(int root, const char *existing, const char *path, int flags);

/*
 * The same for the object that FD is open on, wherever the object is, as a file that inroot_openat() has made with
 * O_TMPFILE. EBADF of FD comes behind the first two of every call; then the errors of inroot_link() from ROOT's on.
 */
int inroot_link_fd(int root, int fd, const char *path, int flags);

/* Removes a non-directory (unlinkat(2)). Returns 0. ENOENT of a missing entry, EISDIR of a directory. */
int inroot_unlink(int root, const char *path, int flags);

/* Removes an empty directory (unlinkat(2), AT_REMOVEDIR). Returns 0. ENOENT, ENOTDIR; ENOTEMPTY with entries. */
int inroot_rmdir(int root, const char *path, int flags);

/*
 * Renames the entry FROM to TO by MODE (renameat2(2)). A slash at the end of either demands a directory. Under
 * INROOT_WHITEOUT the kernel puts a node of the character device 0 in FROM's place in the same moment. Returns 0, or
 * the errors of renameat2(2); EINVAL of another MODE, and of a whiteout where the file system has none.
 */
int inroot_rename(int root, const char *from, const char *to, int mode, int flags);

/*
 * Makes all missing directories of PATH (mkdirat(2)), each of MODE, none of them through a link, and opens the last. An
 * existing directory keeps its mode. Returns a descriptor (O_PATH and O_CLOEXEC). ENOTDIR where something else is
 * there, ENOENT for `..` after a missing name and for a link whose target is missing, and errors of mkdirat(2). Under
 * INROOT_FOLLOW the call follows such a link, and makes the target below the root: for at most 40 such links (ELOOP),
 * each with at most 4,095 bytes of its text and of the path behind the link (ENAMETOOLONG); EAGAIN where others are in
 * the way at each try. Directories made before an error stay.
 */
int inroot_mkdir_all(int root, const char *path, mode_t mode, int flags);

/*
 * Opens the object at PATH, unless the object is a directory, or makes an empty file of MODE, and all missing
 * directories above, each of mode ABOVE. INROOT_FOLLOW is as for inroot_mkdir_all(). Returns a descriptor (O_PATH and
 * O_CLOEXEC). EISDIR of a directory; then the errors of inroot_mkdir_all() for the directories above, and of
 * inroot_mknod() with INROOT_GIVE; EAGAIN where others make and remove the file at each try.
 */
int inroot_mkfile_all(int root, const char *path, mode_t mode, mode_t above, int flags);

/*
 * Removes the entry of PATH with everything below (unlinkat(2)), to any depth; of a link the link alone. A slash at the
 * end of PATH has no meaning here. Returns how many entries it removed, 0 where there was none. Entries removed before
 * an error stay removed. The call holds some 40 descriptors at most, and less than 64 megabytes. The call continues as
 * long as it removes something: whoever makes entries without end can keep it from ending.
 *
 * If something is mounted on a directory of the tree, the call empties the mount as well, and then the directory itself
 * is EBUSY. Under INROOT_NO_XDEV the call touches no mount: EXDEV at the first such directory. EBUSY where an entry is
 * in use, or after 600,000 steps without a removal; ENAMETOOLONG where a directory has a name of more than 255 bytes;
 * and errors of unlinkat(2).
 */
ssize_t inroot_remove_all(int root, const char *path, int flags);

#ifdef __cplusplus
}
#endif

#endif
