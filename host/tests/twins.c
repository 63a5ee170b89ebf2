/*
 * twins: a directory outside of the root has the same path from the top as one inside has from the root, so that in a
 * thread whose own root directory is that root /proc writes the same of both. Somebody moves directories from one to
 * the other between any two system calls of a call, or within one: at each two moments of a call, or at each four that
 * are near; and to a directory that takes the root's name then. Or /proc tells of what is outside that it is inside,
 * and numbers of inodes tell nothing. What a call opens is told by its inode.
 *
 * usage: twins DIR. Exits 0 where nothing is opened that never stood below the root, and a walk without checks is led out. 77: no
 * openat2(2) here. 78: no right to change a root.
 */
#define _GNU_SOURCE
#include "slow_kernel.h"


/* The inner q is below the root, and the outer ones are outside: at the same path from the top, and in a directory like the root. */
static int base, root, inner, outer, other;
static char below[PATH_MAX + 64];

/* ---- what others do */

static void move_out(void) { sure(renameat(inner, "b", outer, "b"), "b"); }
static void move_in(void) { sure(renameat(outer, "b", inner, "b"), "b"); }

/* What is made outside never stands below the root, and is gone before its directory comes back there. */
static void make_outside(void)
{
    move_out();
    sure(linkat(outer, "secret", outer, "b/f", 0), "b/f");
    sure(mkdirat(outer, "b/c", 0755), "b/c");
}

static void remove_outside(void)
{
    sure(unlinkat(outer, "b/f", 0), "b/f");
    sure(unlinkat(outer, "b/c", AT_REMOVEDIR), "b/c");
    move_in();
}

/* The same in a directory of that one. */
static void make_deeper(void)
{
    move_out();
    sure(linkat(outer, "secret", outer, "b/y/f", 0), "b/y/f");
}

static void remove_deeper(void)
{
    sure(unlinkat(outer, "b/y/f", 0), "b/y/f");
    move_in();
}

/*
 * A directory of a lower layer of overlayfs, outside as long as it is there. It keeps its links once it is removed; then the next
 * one is taken. Its name may end in ` (deleted)`, as the kernel writes of what was removed; it loses that ending before.
 */
enum { LOWER = 5000 };
static int lower, removed;
static char lower_name[16] = "0";
static const char *brought = "b/c";

static void bring_lower(void)
{
    move_out();
    sure(renameat(lower, lower_name, outer, brought), lower_name);
}

static void take_lower(void)
{
    sure(renameat(outer, brought, lower, lower_name), lower_name);
    move_in();
}

static void remove_lower(void)
{
    sure(renameat(outer, brought, outer, "b/c"), brought);
    sure(unlinkat(outer, "b/c", AT_REMOVEDIR), "b/c");
    snprintf(lower_name, sizeof lower_name, "%d", ++removed);
    move_in();
}

/* To a directory like the root, with which the root's own directory changes its name for a while. */
static void move_aside(void) { sure(renameat(inner, "b", other, "b"), "b"); }
static void move_back(void) { sure(renameat(other, "b", inner, "b"), "b"); }
static void rename_root(void)
{
    sure((int)__real_syscall(SYS_renameat2, base, "box", base, "other", INROOT_EXCHANGE), "box");
}

/* Another file takes the place of the one inside, while that is outside. */
static void exchange_outside(void)
{
    move_out();
    sure((int)__real_syscall(SYS_renameat2, outer, "b/g", outer, "secret", INROOT_EXCHANGE), "b/g");
}

static void exchange_back(void)
{
    sure((int)__real_syscall(SYS_renameat2, outer, "b/g", outer, "secret", INROOT_EXCHANGE), "b/g");
    move_in();
}

/* ---- the callers */

struct attack {
    const char *name, *path;
    struct moves moves;
    /* What is opened where nobody acts, and stands inside; none where nothing inside is called so. */
    const struct stat *stands;
};

typedef int opener(const char *path);

static struct stat of_g, of_inner;

/* One call, and whether it opened what never stands below the root. */
static bool is_fooled(const struct attack *a, opener *open_it)
{
    struct stat about = {0};
    moves = &a->moves;
    moment = next_move = 0;
    int fd = open_it(a->path);
    count_of_moments = 0;
    if (fd >= 0)
        sure(fstat(fd, &about), a->path);
    bool fooled = fd >= 0 && (a->stands == NULL || about.st_ino != a->stands->st_ino);
    if (fd >= 0)
        close(fd);
    for (; next_move % a->moves.count != 0; next_move++)
        a->moves.each[next_move % a->moves.count]();
    return fooled;
}

/* By two moves, at each two moments one after another. How often it was fooled. */
static int attack(const struct attack *a, opener *open_it)
{
    int fooled = is_fooled(a, open_it), last = moment;
    gives(fooled, 0, "%s: what is opened where nobody acts", a->name);
    /* A call that is disturbed may ask for more. */
    for (int first = 1; first <= last + 4; first++)
        for (int second = first; second <= last + 8; second++) {
            moments[0] = first;
            moments[1] = second;
            count_of_moments = 2;
            fooled += is_fooled(a, open_it);
        }
    return fooled;
}

/* By four moves, each near to the one before. */
static int attack_twice(const struct attack *a, opener *open_it)
{
    const int near = a->moves.count > 2 ? 4 : 8;
    int fooled = is_fooled(a, open_it), last = moment;
    for (int first = 1; first <= last + 1; first++)
        for (int rest = 0; rest < near * near * near; rest++) {
            moments[0] = first;
            moments[1] = first + 1 + rest % near;
            moments[2] = moments[1] + rest / near % near;
            moments[3] = moments[2] + rest / near / near;
            count_of_moments = 4;
            fooled += is_fooled(a, open_it);
        }
    return fooled;
}

/* By four moves, the last two one after another, as within one look-up. */
static int attack_within(const struct attack *a, opener *open_it)
{
    const int near = 16;
    int fooled = is_fooled(a, open_it), last = moment;
    for (int first = 1; first <= last; first++)
        for (int rest = 0; rest < near * near; rest++) {
            moments[0] = first;
            moments[1] = first + 1 + rest % near;
            moments[2] = moments[1] + 1 + rest / near;
            moments[3] = moments[2] + 1;
            count_of_moments = 4;
            fooled += is_fooled(a, open_it);
        }
    return fooled;
}

static int open_it(const char *path)
{
    return inroot_open(root, path, INROOT_EXACT | INROOT_NO_RETRY);
}

static const struct attack all[] = {
    {"up and down", "x/../../secret", {{move_out, move_in}, 2}, NULL},
    {"a file", "f", {{make_outside, remove_outside}, 2}, NULL},
    {"another directory's file", "x/../y/f", {{make_deeper, remove_deeper}, 2}, NULL},
    {"a directory", "c", {{make_outside, remove_outside}, 2}, NULL},
    {"another file", "g", {{exchange_outside, exchange_back}, 2}, &of_g},
};
#define LOWER_MOVES {{bring_lower, take_lower, bring_lower, remove_lower}, 4}
static const struct attack layered[] = {
    {"a directory of a lower layer", "c", LOWER_MOVES, NULL},
    {"the same, called so", "c (deleted)", LOWER_MOVES, NULL},
};
/* The root is renamed while what was moved out is asked for. */
static const struct attack beside_renames = {
    "up", "x/../..", {{move_aside, rename_root, rename_root, move_back}, 4}, &of_inner,
};
enum { ATTACKS = sizeof all / sizeof *all };

static void attack_by(const char *who, const struct attack *one, const char *before, int (*how)(const struct attack *, opener *))
{
    char path[PATH_MAX + 80];
    struct attack a = *one;
    snprintf(path, sizeof path, "%s%s/%s", before, below, a.path);
    a.path = path;
    int fooled = how(&a, open_it);
    gives(fooled, 0, "%s, %s, %s%s: openings of what never stood inside", who, a.name, before, lies ? ", numbers lie" : "");
}

static void each(const char *who)
{
    for (int one = 0; one < ATTACKS; one++)
        for (int way = 0; way < 2; way++) {
            lies = all[one].stands != NULL && way == 0;
            attack_by(who, &all[one], way == 1 ? "./" : "", attack);
            lies = false;
        }
}

/* Moves that come twice, which take longer to be tried. */
static void each_twice(const char *who)
{
    for (int one = 1; one < ATTACKS; one++)
        attack_by(who, &all[one], "", attack_twice);
}

static void in_no_chroot(void)
{
    each("by a descriptor");
    attack_by("by a descriptor, beside renames of the root", &beside_renames, "", attack_twice);
    proc_lies = true;
    each("by a descriptor, where /proc lies");
}

static void enter_root(void)
{
    if (fchdir(root) != 0 || chroot(".") != 0)
        _exit(NO_RIGHT);
}

static void in_chroot(void)
{
    enter_root();
    each("in a chroot");
    each_twice("in a chroot");
}

/* ---- the control */

/* Each part is opened in the one before, and nothing is asked. */
static int unchecked(const char *path)
{
    char text[PATH_MAX], *rest = text, *part;
    int dir = openat(root, ".", O_PATH | O_DIRECTORY | O_CLOEXEC);
    strcpy(text, path);
    while (dir >= 0 && (part = strsep(&rest, "/")) != NULL) {
        int next = openat(dir, part, O_PATH | O_NOFOLLOW | O_CLOEXEC);
        close(dir);
        dir = next;
    }
    return dir;
}

static void be_led_out(void)
{
    for (int one = 0; one < ATTACKS; one++) {
        char path[PATH_MAX + 80];
        struct attack a = all[one];
        snprintf(path, sizeof path, "%s/%s", below, a.path);
        a.path = path;
        int fooled = attack(&a, unchecked);
        printf("twins: a walk without checks, %s: fooled at %d pairs of moments\n", a.name, fooled);
        gives_least(fooled, 1, "%s: how often a walk without checks is fooled", a.name);
    }
}

/* ---- what they act on */

/* Directories one in another, the last of which is `q`: a descriptor of it. */
static int make_all(const char *top)
{
    char path[3 * PATH_MAX];
    size_t begin = strlen(where) + 1;
    snprintf(path, sizeof path, "%s/%s%s/q", where, top, where);
    for (char *slash = path + begin; slash != NULL;) {
        slash = strchr(slash + 1, '/');
        if (slash != NULL)
            *slash = 0;
        if (mkdir(path, 0755) != 0)
            sure(errno == EEXIST ? 0 : -1, path);
        if (slash != NULL)
            *slash = '/';
    }
    return sure(open(path, O_PATH | O_DIRECTORY | O_CLOEXEC), path);
}

static void make_twins(void)
{
    static const char *const dirs[] = {"b", "b/x", "b/y"};
    inner = make_all("box");
    other = make_all("other");
    sure(mkdirat(base, "q", 0755), "q");
    outer = sure(openat(base, "q", O_PATH | O_DIRECTORY | O_CLOEXEC), "q");
    root = sure(openat(base, "box", O_PATH | O_DIRECTORY | O_CLOEXEC), "box");
    for (size_t one = 0; one < sizeof dirs / sizeof *dirs; one++)
        sure(mkdirat(inner, dirs[one], 0755), dirs[one]);
    sure(mknodat(outer, "secret", S_IFREG | 0600, 0), "secret");
    sure(mknodat(other, "secret", S_IFREG | 0600, 0), "other/secret");
    sure(mknodat(inner, "b/g", S_IFREG | 0600, 0), "b/g");
    sure(fstatat(inner, "b/g", &of_g, 0), "b/g");
    sure(fstat(inner, &of_inner), "q");
    snprintf(below, sizeof below, "%s/q/b", where + 1);
}

static void begin_here(void)
{
    base = sure(open(where, O_PATH | O_DIRECTORY | O_CLOEXEC), where);
    make_twins();
}

/* The same on overlayfs, whose lower layer has what comes from outside. */
static void on_layers(void)
{
    char path[2 * PATH_MAX], options[4 * PATH_MAX];
    static const char *const dirs[] = {"lower", "lower/p", "upper", "work", "merged"};
    for (size_t one = 0; one < sizeof dirs / sizeof *dirs; one++)
        sure(mkdirat(base, dirs[one], 0755), dirs[one]);
    for (int one = 0; one < LOWER; one++) {
        snprintf(path, sizeof path, "lower/p/%d", one);
        sure(mkdirat(base, path, 0755), path);
    }
    snprintf(options, sizeof options, "lowerdir=%s/lower,upperdir=%s/upper,workdir=%s/work,redirect_dir=on", where, where,
             where);
    strcat(where, "/merged");
    own_mounts_or_end();
    if (mount("overlay", where, "overlay", 0, options) != 0)
        _exit(NO_RIGHT);
    begin_here();
    lower = sure(openat(base, "p", O_PATH | O_DIRECTORY | O_CLOEXEC), "p");
    enter_root();
    for (int one = 0; one < 2; one++) {
        const int before = removed;
        brought = one == 0 ? "b/c" : "b/c (deleted)";
        attack_by("in a chroot, on overlayfs", &layered[one], "", attack_within);
        gives_least(removed - before, 100, "%s: how many were removed", layered[one].name);
    }
}

int main(int count, char **words)
{
    struct open_how how = {.flags = O_PATH | O_CLOEXEC};
    if (count != 2 || realpath(words[1], where) == NULL)
        return 2;
    proc = sure(open("/proc", O_PATH | O_DIRECTORY | O_CLOEXEC), "/proc");
    if (__real_syscall(SYS_openat2, proc, ".", &how, sizeof how) < 0)
        return NO_OPENAT2;
    begin_here();
    open_proc();
    apart(be_led_out);
    apart(in_no_chroot);
    int skipped = apart(in_chroot);
    skipped |= apart(on_layers);
    printf("twins: %d not as they are to be\n", wrong);
    return wrong != 0 ? 1 : skipped;
}
