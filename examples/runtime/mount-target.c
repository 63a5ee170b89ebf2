/*
 * mount-target: makes a mount's target below a directory, as a container runtime does before it mounts there.
 *
 * usage: mount-target ROOT PATH dir|file [SOURCE]
 *
 * It makes the directory, or the file with the directories above it, below ROOT, and has it open from then on: its
 * path is never walked again. Without SOURCE it prints where the target stands and `/proc/self/fd/N`, by which mount(2)
 * takes it as its target in this process. With SOURCE it mounts that directory or file there (open_tree(2),
 * move_mount(2)), which takes the right to mount, and prints what can be read there then. Statuses: 0, 1 where the
 * target can't be made, 2 a wrong command line, 4 any other fault.
 */
#define _GNU_SOURCE
#include <errno.h>
#include <fcntl.h>
#include <inroot.h>
#include <limits.h>
#include <stdbool.h>
#include <stdio.h>
#include <string.h>
#include <sys/stat.h>
#include <sys/syscall.h>
#include <unistd.h>

/* Those of linux/mount.h, which older C libraries don't have. */
enum { TREE_CLONE = 1, TREE_CLOEXEC = O_CLOEXEC, TREE_RECURSIVE = 0x8000, FROM_EMPTY_PATH = 0x4, TO_EMPTY_PATH = 0x40 };

/* Makes the file, empty, with the directories above it, and opens what stands there then. Gives a descriptor or -errno. */
static int make_file(int root, const char *path)
{
    struct stat about;
    int target = inroot_mkfile_all(root, path, 0644, 0755, 0);
    if (target >= 0 && (fstat(target, &about) != 0 || !S_ISREG(about.st_mode))) {
        close(target);
        return -EINVAL;
    }
    return target;
}

/* Prints where the target stands, without letting others' bytes at a terminal, and by which path this process has it. */
static int tell_target(int target)
{
    char link[32], place[PATH_MAX];
    snprintf(link, sizeof link, "fd/%d", target);
    ssize_t length = inroot_proc_readlink(INROOT_PROC_SELF, link, place, sizeof place);
    if (length < 0) {
        fprintf(stderr, "mount-target: /proc: %s\n", strerror((int)-length));
        return 4;
    }
    for (ssize_t at = 0; at < length; at++)
        putchar(place[at] < ' ' || place[at] > '~' ? '?' : place[at]);
    printf(" /proc/self/%s\n", link);
    return fflush(stdout) == 0 ? 0 : 4;
}

/* Mounts the source on the target, by two descriptors and no path. */
static int mount_there(const char *source, int target)
{
    int tree = (int)syscall(SYS_open_tree, AT_FDCWD, source, TREE_CLONE | TREE_CLOEXEC | TREE_RECURSIVE);
    if (tree < 0 || syscall(SYS_move_mount, tree, "", target, "", FROM_EMPTY_PATH | TO_EMPTY_PATH) != 0) {
        fprintf(stderr, "mount-target: %s: %s\n", source, strerror(errno));
        return 4;
    }
    close(tree);
    return 0;
}

int main(int count, char **words)
{
    bool is_file = count >= 4 && strcmp(words[3], "file") == 0;
    if (count < 4 || count > 5 || (!is_file && strcmp(words[3], "dir") != 0)) {
        fputs("usage: mount-target ROOT PATH dir|file [SOURCE]\n", stderr);
        return 2;
    }
    int root = open(words[1], O_PATH | O_DIRECTORY | O_CLOEXEC);
    if (root < 0) {
        fprintf(stderr, "mount-target: %s: %s\n", words[1], strerror(errno));
        return 4;
    }
    int target = is_file ? make_file(root, words[2]) : inroot_mkdir_all(root, words[2], 0755, 0);
    close(root);
    if (target < 0) {
        fprintf(stderr, "mount-target: %s: %s\n", words[2], strerror(-target));
        return 1;
    }
    int status = count == 5 ? mount_there(words[4], target) : 0;
    if (status == 0)
        status = tell_target(target);
    close(target);
    return status;
}
