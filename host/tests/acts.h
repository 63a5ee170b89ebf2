/*
 * acts.h: what somebody does between two system calls of a call, and what is outside. Each try begins with the same tree: the root
 * is `box`, `out` has all that is outside by the same names, and `gone` takes what is moved.
 */
#ifndef ACTS_H
#define ACTS_H

#include "asked.h"

#include <limits.h>
#include <sys/socket.h>

static int base, root, out, gone, spare_root;
static char where_root[PATH_MAX], where_out[PATH_MAX];
static const char *what_is_done = "";
static bool breaks_promise, quiet;
static int led_out;

/* ---- the tree */

static bool is_there(int dir, const char *name)
{
    struct stat about;
    return fstatat(dir, name, &about, AT_SYMLINK_NOFOLLOW) == 0;
}

static void make_file_of(int dir, const char *name)
{
    sure(__real_mknodat(dir, name, S_IFREG | 0644, 0), name);
}

static const char *const dirs[] = {"a", "a/b", "a/b/d", "a/b/d/e", "t"};
static const char *const files[] = {"a/b/f", "a/g", "t/f", "secret"};
enum { DIRS = sizeof dirs / sizeof *dirs, FILES = sizeof files / sizeof *files };

static void make_tree(int top)
{
    for (size_t one = 0; one < DIRS; one++)
        sure(__real_mkdirat(top, dirs[one], 0755), dirs[one]);
    for (size_t one = 0; one < FILES; one++)
        make_file_of(top, files[one]);
    sure(__real_symlinkat("../../t/f", top, "a/b/l"), "l");
    sure(__real_symlinkat("../../t/none", top, "a/b/n"), "n");
    sure(__real_symlinkat("/a/b", top, "t/u"), "u");
}

static int open_at(const char *path)
{
    return sure(__real_openat(AT_FDCWD, path, O_PATH | O_DIRECTORY | O_CLOEXEC), path);
}

/* What a/b has. */
static void make_part(int top)
{
    sure(__real_mkdirat(top, "d", 0755), "d");
    sure(__real_mkdirat(top, "d/e", 0755), "d/e");
    make_file_of(top, "f");
    sure(__real_symlinkat("../../t/f", top, "l"), "l");
    sure(__real_symlinkat("../../t/none", top, "n"), "n");
}

/* What most tries leave. A link that stands for a directory goes first, so that nothing is removed through it. */
static void clear_tree(int top)
{
    static const char *const links[] = {"a", "t", "a/b", "a/b/l", "a/b/n", "t/u"};
    for (size_t one = 0; one < sizeof links / sizeof *links; one++)
        __real_unlinkat(top, links[one], 0);
    for (size_t one = 0; one < FILES; one++)
        __real_unlinkat(top, files[one], 0);
    for (size_t one = DIRS; one > 0; one--)
        __real_unlinkat(top, dirs[one - 1], AT_REMOVEDIR);
}

/* Removes what a directory has, whatever that is. */
static void clear(int dir)
{
    char records[8192];
    int fd = sure(__real_openat(dir, ".", O_RDONLY | O_DIRECTORY | O_CLOEXEC), ".");
    for (long got; (got = __real_syscall(SYS_getdents64, fd, records, sizeof records)) > 0;)
        for (long at_record = 0; at_record < got; at_record += *(unsigned short *)(void *)(records + at_record + 16)) {
            const char *name = records + at_record + 19;
            if (strcmp(name, ".") == 0 || strcmp(name, "..") == 0 || __real_unlinkat(fd, name, 0) == 0)
                continue;
            int inner = sure(__real_openat(fd, name, O_PATH | O_DIRECTORY | O_NOFOLLOW | O_CLOEXEC), name);
            clear(inner);
            __real_close(inner);
            sure(__real_unlinkat(fd, name, AT_REMOVEDIR), name);
        }
    __real_close(fd);
}

/* ---- what is outside, and never stands inside */

static const char *const outside_names[] = {
    "", "a", "a/b", "a/b/d", "a/b/d/e", "a/b/f", "a/b/l", "a/b/n", "a/g", "t", "t/f", "t/u", "secret",
};
enum { OUTSIDE = sizeof outside_names / sizeof *outside_names };
static struct stat outside[OUTSIDE];

static void look_outside(struct stat now[OUTSIDE])
{
    for (int one = 0; one < OUTSIDE; one++)
        if (fstatat(out, outside_names[one], &now[one], AT_SYMLINK_NOFOLLOW | AT_EMPTY_PATH) != 0)
            now[one] = (struct stat){.st_ino = 0};
}

/* The directory itself is renamed with the root, and a file outside may be given a name. */
static bool is_changed(const struct stat *before, const struct stat *now, int one)
{
    bool by_others = outside_names[one][0] == 0 || strcmp(outside_names[one], "secret") == 0;
    return before->st_ino != now->st_ino || before->st_mode != now->st_mode || before->st_size != now->st_size ||
           before->st_uid != now->st_uid || before->st_mtim.tv_sec != now->st_mtim.tv_sec ||
           before->st_mtim.tv_nsec != now->st_mtim.tv_nsec ||
           (!by_others && (before->st_ctim.tv_sec != now->st_ctim.tv_sec || before->st_ctim.tv_nsec != now->st_ctim.tv_nsec));
}

static void is_unchanged_outside(void)
{
    struct stat now[OUTSIDE];
    look_outside(now);
    for (int one = 0; one < OUTSIDE; one++)
        expect(!is_changed(&outside[one], &now[one], one), "%s: out/%s is as it was", what_is_done, outside_names[one]);
    memcpy(outside, now, sizeof outside);
}

static void is_inside(const struct stat *about, const char *what)
{
    for (int one = 0; one < OUTSIDE; one++)
        if (about->st_ino == outside[one].st_ino && about->st_dev == outside[one].st_dev) {
            led_out++;
            if (!quiet)
                expect(breaks_promise, "%s: %s is out/%s", what_is_done, what, outside_names[one]);
        }
}

static void is_inside_fd(int fd, const char *what)
{
    struct stat about;
    if (fd >= 0 && __real_fstat(fd, &about) == 0)
        is_inside(&about, what);
}

/* ---- what others do */

static void move(int from, const char *old, int to, const char *new)
{
    if (is_there(from, old))
        __real_syscall(SYS_renameat2, from, old, to, new, RENAME_NOREPLACE);
}

static void replace_by_link(const char *name, const char *kept, const char *text)
{
    move(root, name, gone, kept);
    if (!is_there(root, name))
        __real_symlinkat(text, root, name);
}

static void move_back(const char *kept, const char *name)
{
    if (!is_there(gone, kept))
        return;
    __real_unlinkat(root, name, 0);
    move(gone, kept, root, name);
}

static void exchange_root(void)
{
    sure((int)__real_syscall(SYS_renameat2, base, "box", base, "out", RENAME_EXCHANGE), "box");
}

static void move_out_a(void) { move(root, "a", gone, "a"); }
static void move_out_b(void) { move(root, "a/b", gone, "b"); }
static void move_out_d(void) { move(root, "a/b/d", gone, "d"); }
static void move_back_a(void) { move_back("a", "a"); }
static void move_back_b(void) { move_back("b", "a/b"); }
static void move_back_d(void) { move_back("d", "a/b/d"); }
static void link_a(void) { replace_by_link("a", "a", "../out/a"); }
static void link_b(void) { replace_by_link("a/b", "b", "../../out/a/b"); }
static void link_far_b(void) { replace_by_link("a/b", "b", where_out); }
static void link_t(void) { replace_by_link("t", "t", "../out/t"); }
static void link_f(void) { replace_by_link("a/b/f", "f", "../../../out/a/b/f"); }
static void link_new(void) { if (is_there(root, "a/b/new")) replace_by_link("a/b/new", "new", "../../../out/secret"); }
static void link_l(void) { replace_by_link("a/b/l", "l", "../../../out/secret"); }

static void replace_new(void)
{
    if (!is_there(root, "a/b/new"))
        return;
    move(root, "a/b/new", gone, "new");
    __real_linkat(out, "secret", root, "a/b/new", 0);
}

static void replace_b(void)
{
    move(root, "a/b", root, "a/c");
    if (!is_there(root, "a") || is_there(root, "a/b"))
        return;
    sure(__real_mkdirat(root, "a/b", 0755), "a/b");
    make_file_of(root, "a/b/f");
}

static void move_x(void)
{
    move(root, "a/b/d", root, "d");
}

/* A directory from outside comes into one that was moved out, and another one stands inside by its names. */
static void bring_outside(void)
{
    if (!is_there(root, "a/b") || is_there(gone, "a"))
        return;
    move(root, "a", gone, "a");
    sure((int)__real_syscall(SYS_renameat2, gone, "a/b", out, "a/b", RENAME_EXCHANGE), "a/b");
    sure(__real_mkdirat(root, "a", 0755), "a");
    sure(__real_mkdirat(root, "a/b", 0755), "a/b");
}

static void take_outside_back(void)
{
    struct stat now;
    if (fstatat(out, "a/b", &now, 0) == 0 && now.st_ino != outside[2].st_ino)
        sure((int)__real_syscall(SYS_renameat2, gone, "a/b", out, "a/b", RENAME_EXCHANGE), "a/b");
    look_outside(outside);
}

static void do_nothing(void)
{
}

static void remove_d(void)
{
    __real_unlinkat(root, "a/b/d/e", AT_REMOVEDIR);
    __real_unlinkat(root, "a/b/d", AT_REMOVEDIR);
}

static void exchange_f_and_d(void) { __real_syscall(SYS_renameat2, root, "a/b/f", root, "a/b/d", RENAME_EXCHANGE); }
static void put_another(void) { sure(dup3(out, root, O_CLOEXEC), "dup3"); }

static void mount_at(const char *from, const char *to)
{
    char source[PATH_MAX + 8], target[PATH_MAX + 8];
    snprintf(source, sizeof source, "%s/%s", where_out, from);
    snprintf(target, sizeof target, "%s/%s", where_root, to);
    mount(source, target, NULL, MS_BIND, NULL);
}

static void unmount_at(const char *name)
{
    char target[PATH_MAX + 8];
    snprintf(target, sizeof target, "%s/%s", where_root, name);
    umount2(target, MNT_DETACH);
}

static void mount_a(void) { mount_at("a", "a"); }
static void mount_b(void) { mount_at("a/b", "a/b"); }
static void mount_f(void) { mount_at("a/b/f", "a/b/f"); }
static void mount_t(void) { mount_at("t", "t"); }
static void mount_new(void) { mount_at(is_there(root, "a/b/new/.") ? "a" : "secret", "a/b/new"); }
static void unmount_a(void) { unmount_at("a"); }
static void unmount_b(void) { unmount_at("a/b"); }
static void unmount_f(void) { unmount_at("a/b/f"); }
static void unmount_t(void) { unmount_at("t"); }
static void unmount_new(void) { unmount_at("a/b/new"); }

/* ---- a/b is a mount, which is moved and taken off */

/* By a process of its own, since a thread in a chroot comes to none of these paths. */
static int hand = -1, store;
static bool is_root_moved;     /* the mount is the root's own, and not a/b */
static char where_store[PATH_MAX], where_moved[PATH_MAX + 8];
enum { LAY = 'l', MOVE_OUT = 'o', MOVE_BACK = 'b', TAKE_OFF = 't', CLEAN = 'c' };

static void lend_hand(int fd)
{
    char what, target[PATH_MAX + 8];
    snprintf(target, sizeof target, "%s%s", where_root, is_root_moved ? "" : "/a/b");
    while (read(fd, &what, 1) == 1) {
        if (what == LAY)
            sure(mount(where_store, target, NULL, MS_BIND, NULL), target);
        else if (what == MOVE_OUT)
            mount(target, where_moved, NULL, MS_MOVE, NULL);
        else if (what == MOVE_BACK)
            mount(where_moved, target, NULL, MS_MOVE, NULL);
        else if (what == TAKE_OFF)
            umount2(target, MNT_DETACH);
        while (what == CLEAN && (umount2(target, MNT_DETACH) == 0 || umount2(where_moved, MNT_DETACH) == 0))
            continue;
        sure((int)write(fd, &what, 1), "write");
    }
    _exit(0);
}

static void ask_hand(char what)
{
    if (hand < 0)
        return;
    sure((int)write(hand, &what, 1), "write");
    sure((int)read(hand, &what, 1), "read");
}

static void move_mount_out(void) { ask_hand(MOVE_OUT); }
static void move_mount_back(void) { ask_hand(MOVE_BACK); }
static void take_mount_off(void) { ask_hand(TAKE_OFF); }

static const struct act all_acts[] = {
    {"the root is exchanged", exchange_root, NULL, 0, 0},
    {"the root is exchanged, and back", exchange_root, exchange_root, 1, 0},
    {"a is moved out", move_out_a, NULL, 0, 0},
    {"a is moved out, and back", move_out_a, move_back_a, 1, 0},
    {"a is moved out, and back later", move_out_a, move_back_a, 3, 0},
    {"b is moved out", move_out_b, NULL, 0, 0},
    {"b is moved out, and back", move_out_b, move_back_b, 1, 0},
    {"b is moved out, and back later", move_out_b, move_back_b, 3, 0},
    {"d is moved out", move_out_d, NULL, 0, 0},
    {"d is moved out, and back", move_out_d, move_back_d, 1, 0},
    {"a link for a", link_a, NULL, 0, 0},
    {"a link for a, and a again", link_a, move_back_a, 1, 0},
    {"a link for b", link_b, NULL, 0, 0},
    {"a link for b, and b again", link_b, move_back_b, 2, 0},
    {"a link by the whole path for b", link_far_b, NULL, 0, 0},
    {"a link for t", link_t, NULL, 0, 0},
    {"a link for f", link_f, NULL, 0, 0},
    {"a link for what is made", link_new, NULL, 0, 0},
    {"another link for l", link_l, NULL, 0, 0},
    {"another b", replace_b, NULL, 0, 0},
    {"d is moved up", move_x, NULL, 0, 0},
    {"d is removed", remove_d, NULL, 0, 0},
    {"f and d are exchanged", exchange_f_and_d, NULL, 0, 0},
    {"d is moved up, and b out", move_x, move_out_b, 1, 0},
    {"d is moved up, and a out", move_x, move_out_a, 2, 0},
    {"b is moved out, and another one comes", move_out_b, link_b, 1, 0},
    {"a file outside for what is made", replace_new, NULL, 0, 0},
};
static const struct act mount_acts[] = {
    {"a mount over a", mount_a, NULL, 0, 0},
    {"a mount over a for a while", mount_a, unmount_a, 1, 0},
    {"a mount over b", mount_b, NULL, 0, 0},
    {"a mount over b for a while", mount_b, unmount_b, 1, 0},
    {"a mount over b for a while longer", mount_b, unmount_b, 3, 0},
    {"a mount over f", mount_f, NULL, 0, 0},
    {"a mount over f for a while", mount_f, unmount_f, 2, 0},
    {"a mount over t", mount_t, NULL, 0, 0},
    {"a mount over what is made", mount_new, NULL, 0, 0},
};
/* The last two take the mount off. */
static const struct act moved_acts[] = {
    {"the mount is moved out", move_mount_out, NULL, 0, 0},
    {"the mount is moved out, and back", move_mount_out, move_mount_back, 1, 0},
    {"the mount is moved out, and back later", move_mount_out, move_mount_back, 3, 0},
    {"the mount is moved out, and a link comes", move_mount_out, link_b, 1, 0},
    {"the mount is taken off", take_mount_off, NULL, 0, 0},
    {"the mount is taken off, and a link comes", take_mount_off, link_b, 1, 0},
};
static const struct act brought = {"a directory from outside is brought to one that was moved out", bring_outside, NULL, 0, 0};
static const struct act lost_root = {"another file gets the number", put_another, NULL, 0, 0};
enum { ALL_ACTS = sizeof all_acts / sizeof *all_acts, MOUNT_ACTS = sizeof mount_acts / sizeof *mount_acts,
       MOVED_ACTS = sizeof moved_acts / sizeof *moved_acts, MOVES = MOVED_ACTS - 2 };

#endif
