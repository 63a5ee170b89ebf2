/*
 * tries.h: somebody acts at one moment of a call, and what the call gave and left is looked at; and which moments are tried. Each
 * try begins with the same tree.
 */
#ifndef TRIES_H
#define TRIES_H

#include "acts.h"

/*
 * What a row's call gives: a descriptor of what is inside, of what it has made, of a file without a name. It counts itself; it may
 * miss; it comes to a/b/d; it is tried where a/b is a mount, too.
 */
enum { OPENS = 1, GIVES = 2, OPENS_NEW = 4, COUNTS_ITSELF = 8, MAY_MISS = 16, BY_D = 32, ON_MOUNT = 64, ANY = -1 };

struct row {
    const char *name;
    int (*call)(void);
    int what;
    int changes;           /* so many entries at most, or ANY */
};

static long tries;
/* Not all moments are tried: of the kinds of system calls one of so many in a round, and of those that fail one of so many. */
static bool few;
enum { KINDS_APART = 3, FAULTS_APART = 23 };
/* Which of them, it counts up by calls and acts; and where it begins in this round. */
static unsigned turn, phase;

/* ---- a try */

static int descriptors(void)
{
    int count = 0;
    for (int fd = 0; fd < 48; fd++)
        count += __real_fcntl(fd, F_GETFD) >= 0;
    return count;
}

static bool may_mount;
/* So many descriptors are open between two tries, or -1. */
static int held = -1;

static void begin_try(void)
{
    struct stat now;
    if (may_mount)
        for (int one = 0; one < 2; one++) {
            unmount_t();
            unmount_f();
            unmount_new();
            unmount_b();
            unmount_a();
        }
    if (breaks_promise)
        sure(dup3(spare_root, root, O_CLOEXEC), "dup3");
    sure(fstatat(base, "out", &now, 0), "out");
    if (now.st_ino != outside[0].st_ino)
        exchange_root();
    if (lies)
        take_outside_back();
    ask_hand(CLEAN);
    if (is_root_moved) {
        ask_hand(LAY);
        int now_root = open_at(where_root);
        sure(dup3(now_root, root, O_CLOEXEC), "dup3");
        __real_close(now_root);
    }
    clear_tree(root);
    clear(root);
    clear(gone);
    make_tree(root);
    if (hand >= 0 && !is_root_moved) {
        clear(store);
        make_part(store);
        ask_hand(LAY);
    }
}

static bool says(const char *step)
{
    struct inroot_error why;
    return inroot_last_error(&why) == 0 && strcmp(why.step, step) == 0;
}

static bool is_expected(int error)
{
    switch (error) {
    case EAGAIN: case ENOENT: case ENOTDIR: case ELOOP: case EXDEV: case EEXIST: case EISDIR: case ENOTEMPTY: case EBUSY:
        return true;
    case EINVAL:
        /* Of what is no link any more; of a directory that would be renamed into itself. */
    case EPERM:
        /* Of a directory that would get another name. */
        return true;
    default:
        /* If /proc lacks a descriptor's link, or statx(2) doesn't say which file it is, it is none to go by. And whether the kernel has
           what the library needs may be what fails. */
        return breaks_promise || error == acting->fault || error == shortage ||
               (error == ENOSYS && acting->fault != 0 &&
                (acting->fault == ENOENT || says("Kernel") || strcmp(failed_call, "__wrap_statx") == 0));
    }
}

static void check_result(const struct row *row, int result, bool acted)
{
    bool opens = row->what & (OPENS | GIVES | OPENS_NEW);
    if ((!acted || (acting->fault == EINTR && repeats)) && !(row->what & MAY_MISS))
        expect(result >= 0, "%s: it gives %d where nobody acts (%s)", what_is_done, result, failed_call);
    if (result < 0)
        expect(is_expected(-result), "%s: it fails by %d (%s)", what_is_done, result, failed_call);
    if (opens && result >= 0)
        is_inside_fd(result, "what is opened");
    if (row->changes == ANY || breaks_promise)
        return;
    bool made = result >= 0 || ((row->what & GIVES) && says("Give"));
    int due = made ? row->changes : 0;
    expect(changes == due, "%s: it gives %d, and has changed %d entries", what_is_done, result, changes);
}

/* Somebody acts before this system call. Gives whether the call came so far. */
static bool try_once(const char *who, const struct row *row, const struct act *act, int first)
{
    char words[256];
    begin_try();
    snprintf(words, sizeof words, "%s, %s, %s at %d", who, row->name, act->name, first);
    what_is_done = words;
    if (held < 0)
        held = descriptors();
    acting = act;
    moment = changes = twice_closed = 0;
    repeats = false;
    moment_of_first = first;
    moment_of_second = act->later > 0 ? first + act->later : 0;
    counting = !(row->what & COUNTS_ITSELF);
    int result = row->call();
    counting = false;
    check_result(row, result, moment >= first);
    if (row->what & (OPENS | GIVES | OPENS_NEW) && result >= 0)
        __real_close(result);
    int now = descriptors();
    gives(now, held, "%s: open descriptors", what_is_done);
    held = now;
    gives(twice_closed, 0, "%s: descriptors closed that were none", what_is_done);
    if (!breaks_promise && !lies)
        is_unchanged_outside();
    tries++;
    return moment >= first;
}

/* So many system calls the call makes, if nobody acts; and of which kinds. */
static struct kind usual[KINDS];

static int count_moments(const char *who, const struct row *row)
{
    static const struct act nothing = {"nobody acts", do_nothing, NULL, 0, 0};
    try_once(who, row, &nothing, INT_MAX);
    memcpy(usual, kinds, sizeof usual);
    return moment < KINDS ? moment : KINDS;
}

static bool is_of_kind(int one, int other)
{
    return strcmp(usual[one].function, usual[other].function) == 0 && usual[one].about == usual[other].about;
}

/* Acts on this directory alone matter to no call that doesn't come there. */
static bool is_elsewhere(const struct row *row, const struct act *act)
{
    bool is_of_d = act->first == move_out_d || act->first == remove_d || (act->first == move_x && act->second == NULL);
    return is_of_d && !(row->what & BY_D);
}

/* Before such a call nobody's act matters that doesn't before the next one: it looks at no entry. */
static bool looks_at_nothing(int at)
{
    static const char *const blind[] = {"__wrap_close", "my_fcntl", "__wrap_fstatfs"};
    for (size_t one = 0; one < sizeof blind / sizeof *blind; one++)
        if (strcmp(usual[at].function, blind[one]) == 0)
            return true;
    return false;
}

/* How many system calls of this one's kind come before that one. */
static unsigned alike_before(int at, int before)
{
    unsigned alike = 0;
    for (int one = 0; one < before; one++)
        alike += is_of_kind(one, at);
    return alike;
}

static unsigned first_alike(int at)
{
    unsigned first = 0;
    while (!is_of_kind((int)first, at))
        first++;
    return first;
}

/* Whether an entry was made by then. */
static bool is_behind_making(int at)
{
    static const char *const makes[] = {"__wrap_mkdirat", "__wrap_mknodat", "__wrap_symlinkat", "__wrap_linkat"};
    for (int before = 0; before < at; before++) {
        if (strcmp(usual[before].function, "my_openat") == 0 && usual[before].about & O_CREAT)
            return true;
        for (size_t one = 0; one < sizeof makes / sizeof *makes; one++)
            if (strcmp(usual[before].function, makes[one]) == 0)
                return true;
    }
    return false;
}

/*
 * Of each kind of system call one moment, and in each call, act and round another one; each round has a third of the kinds, and the
 * next round others. Errors are many, and each of them meets each kind in one call or another. Gives whether this is such a moment.
 */
static bool is_chosen(const struct act *act, int at, int length, unsigned turn)
{
    if (act->fault != 0)
        return ((unsigned)at + turn) % FAULTS_APART == 0;
    return !looks_at_nothing(at) && (first_alike(at) + turn) % KINDS_APART == 0 &&
           alike_before(at, at) == turn / KINDS_APART % alike_before(at, length);
}

/* A call that is disturbed may come to later moments: without an act before these, it comes to none. */
static void try_each(const char *who, const struct row *row, const struct act *act, int length)
{
    const bool is_of_made = act->first == replace_new || act->first == link_new || act->first == mount_new;
    turn++;
    /* Others may find what was put there. */
    if ((act->first == replace_new && !(row->what & GIVES)) || (few && is_elsewhere(row, act)))
        return;
    for (int at = 0; at < length; at++)
        if (is_of_made ? is_behind_making(at) : !few || is_chosen(act, at, length, turn))
            try_once(who, row, act, at + 1);
}

/* Has a/b be a mount from here on. */
static void begin_hand(void)
{
    int ends[2];
    snprintf(where_store, sizeof where_store, "%.4000s/../store", where_root);
    snprintf(where_moved, sizeof where_moved, "%s/y/m", where_out);
    store = open_at(where_store);
    sure(socketpair(AF_UNIX, SOCK_STREAM | SOCK_CLOEXEC, 0, ends), "socketpair");
    if (sure(fork(), "fork") == 0) {
        __real_close(ends[0]);
        lend_hand(ends[1]);
    }
    __real_close(ends[1]);
    hand = ends[0];
}

/* By paths, and so in the mount namespace of this process: what was opened in another one doesn't see the mounts that are made here. */
static void open_directories(void)
{
    char path[PATH_MAX + 8];
    snprintf(path, sizeof path, "%s/..", where_root);
    base = open_at(path);
    root = open_at(where_root);
    spare_root = open_at(where_root);
    out = open_at(where_out);
    snprintf(path, sizeof path, "%s/x", where_out);
    gone = open_at(path);
}

static void begin_acts(const char *where)
{
    char path[PATH_MAX + 8];
    sure(realpath(where, path) == NULL ? -1 : 0, where);
    snprintf(where_root, sizeof where_root, "%.4000s/box", path);
    snprintf(where_out, sizeof where_out, "%.4000s/out", path);
    sure(mkdir(where_root, 0755), "box");
    sure(mkdir(where_out, 0755), "out");
    make_tree(open_at(where_out));
    static const char *const more[] = {"out/x", "out/y", "out/y/m", "store"};
    for (size_t one = 0; one < sizeof more / sizeof *more; one++) {
        snprintf(path, sizeof path, "%.4000s/../%s", where_root, more[one]);
        sure(mkdir(path, 0755), path);
    }
    open_directories();
    look_outside(outside);
}

#endif
