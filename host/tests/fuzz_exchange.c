/*
 * fuzz_exchange: the proved library's function through whole calls: any call of inroot.h, with any flags, texts and answers, and
 * with any bytes where a system call reads some. A call ends soon once its system calls fail. Each text that is due has an end.
 * Nothing is asked of a descriptor that isn't open or handed in; what was opened is closed once, is kept or is the reply. Each
 * look-up stays below its directory, or is of one name and follows no link; what changes an entry is given one name. Memory is given
 * back, as the leak sanitizer says.
 *
 * For libFuzzer, or with fuzz_main.c for stored cases. A case is bytes: the demand, what is known, the texts, and the answers.
 */
#define _GNU_SOURCE
#include "../calls.h"
#include "../inroot.h"
#include "../openat2.h"

#include <dirent.h>
#include <errno.h>
#include <fcntl.h>
#include <limits.h>
#include <stdio.h>
#include <stdlib.h>
#include <string.h>
#include <sys/stat.h>

int LLVMFuzzerTestOneInput(const uint8_t *data, size_t size);

#define MUST(holds) ((holds) ? (void)0 : (fprintf(stderr, "not so: %s\n", #holds), abort()))

enum { ANSWERS = 128, READ = PATH_MAX + 256, NUMBERS = 4096, ROOT = 7, OBJECT, AT_HAND, FIRST = 100 };
enum { PROC_TYPE = 0x9fa0, NO_LINKS_FOLLOWED = 0x2000, RECORD = 19 };
/* The library keeps a name behind that for itself. So many turns may come once each system call fails. */
enum { KEPT_NAME = INROOT_ROOM - 256, SOON = 64 };
/* The numbers of objects: the directory at the top, the root, and what was handed in. Each has three others below it. */
enum { TOP = 0, ROOT_OBJECT = 3, OTHER_OBJECT = 11 };
enum state { FREE, OPEN, CLOSED, KEPT };

/* By the demand, what was due before and what is due: the library has no counters of its own. */
__attribute__((section("__libfuzzer_extra_counters"))) static uint8_t seen[64 * 1024];

struct input {
    const uint8_t *at;
    size_t left;
};

struct file {
    uint64_t object;
    uint8_t state;
    bool is_root;
};

/* A call, and what it has open by its answers. */
struct talk {
    struct input in;
    struct inroot_demand demand;
    struct inroot_state state;
    struct inroot_due due;
    struct inroot_gave answers[ANSWERS];
    unsigned char first[PATH_MAX + 2], second[PATH_MAX + 2], read[READ], room[INROOT_ROOM];
    size_t second_length;
    struct file files[NUMBERS];
    uint32_t next;
    unsigned without_input;
    bool claims;
};

/* The next byte; 0 behind the last one. */
static unsigned byte(struct input *in)
{
    if (in->left == 0)
        return 0;
    in->left--;
    return *in->at++;
}

/* ---- the demand */

/* A slash, and bytes of a few kinds; a long one has so many as a path may have, or more. How many stand behind the slash. */
static size_t some_text(struct input *in, unsigned char *text)
{
    static const char bytes[] = "aabc//..";
    const unsigned wanted = byte(in);
    const size_t length = wanted < 250 ? wanted % 32 : wanted < 253 ? 250U + wanted - 245U : PATH_MAX - 255U + wanted;
    text[0] = '/';
    for (size_t at = 1; at <= length; at++)
        text[at] = (unsigned char)(wanted < 250 || at % 200 == 0 ? bytes[byte(in) & 7] : 'n');
    for (size_t at = 200; wanted >= 253 && at <= length; at += 200)
        text[at] = '/';
    return length;
}

static struct inroot_known some_known(struct input *in)
{
    const unsigned bits = byte(in);
    return (struct inroot_known){
        .kept.file = {.device = 1, .inode = TOP, .mount = 1}, .kept.fd = AT_HAND, .kept.there = bits & 1, .kept.handed_in = bits & 2,
        .kept.claimed = bits & 5, .has_floor = bits & 8,
        .machine = {.directory = O_DIRECTORY, .nofollow = O_NOFOLLOW, .direct = O_DIRECT, .largefile = O_LARGEFILE},
    };
}

static struct inroot_demand some_demand(struct input *in)
{
    /* Those from INROOT_DO_OPEN_AT on stand one after another. */
    static const uint8_t calls[] = {
        INROOT_DO_RESOLVE, INROOT_DO_MKDIR, INROOT_DO_SYMLINK, INROOT_DO_UNLINK, INROOT_DO_RMDIR, INROOT_DO_RENAME,
        INROOT_DO_REMOVE_ALL,
    };
    enum { FEW = sizeof calls, MORE = INROOT_DO_PROC_READ_LINK - INROOT_DO_OPEN_AT + 1 };
    static const uint32_t flags[] = {
        0, INROOT_BENEATH, INROOT_NO_LINKS, INROOT_NOFOLLOW, INROOT_NO_RETRY, INROOT_FOLLOW, INROOT_NO_XDEV, INROOT_GIVE,
        INROOT_DIRECTORY, INROOT_EXACT, 0x20000,
    };
    static const uint32_t objects[] = {
        OBJECT, OBJECT, OBJECT, AT_HAND, (uint32_t)-1, (uint32_t)INROOT_PROC_ROOT, (uint32_t)INROOT_PROC_SELF, 0x80000000,
    };
    static const uint32_t modes[] = {S_IFREG | 0644, S_IFDIR | 0700, S_IFIFO | 0600, S_IFCHR | 0600, 0755, 0644, 0, 0x20000};
    static const uint64_t times[] = {0, UTIME_NOW, UTIME_OMIT, 1000000000};
    static const uint32_t hows[] = {
        O_RDONLY, O_RDWR | O_CREAT, O_PATH, O_PATH | O_NOFOLLOW, O_RDWR | O_CREAT | O_EXCL, O_DIRECTORY, 1, 2,
        O_RDWR | O_TMPFILE, O_WRONLY | O_TRUNC, O_RDONLY | O_CREAT, O_RDWR | O_CREAT | O_NOFOLLOW, O_RDONLY | O_NOFOLLOW,
    };
    const unsigned what = byte(in), bits = byte(in), more = byte(in), way = byte(in), number = what % (FEW + MORE);
    return (struct inroot_demand){
        .what = (uint8_t)(number < FEW ? calls[number] : number - FEW + INROOT_DO_OPEN_AT),
        .root = what == 255 ? UINT32_MAX : ROOT, .fd = objects[more >> 4 & 7],
        .flags = flags[bits % 11] | (bits & 64 ? INROOT_EXACT : 0) | (bits & 128 ? flags[more % 9] : 0),
        .how = hows[way % 13], .mode = modes[way >> 4 & 7], .above = 0755, .device = more == 255 ? UINT64_MAX : more & 1,
        .size = (uint64_t)more << more % 20, .accessed = times[more & 3], .changed = times[more >> 2 & 3], .known = some_known(in),
    };
}

/* ---- objects: a tree, in which each name that begins with the same letter leads to the same */

static uint64_t below(uint64_t object, const char *name, size_t length)
{
    if (length == 0 || (length == 1 && name[0] == '.'))
        return object;
    if (length == 2 && name[0] == '.' && name[1] == '.')
        return object == TOP ? TOP : (object - 1) / 3;
    return 3 * object + 1 + (unsigned char)*name % 3;
}

static uint64_t walked(uint64_t object, const char *path)
{
    for (size_t length; *path != 0; path += length + (path[length] == '/')) {
        length = strcspn(path, "/");
        object = below(object, path, length);
    }
    return object;
}

/* The path of an object from the top, at the end of a room. */
static const char *path_of(uint64_t object, char *room, size_t size)
{
    char *at = room + size - 1;
    *at = 0;
    for (; object != TOP; object = (object - 1) / 3) {
        *--at = "cab"[(object - 1) % 3];
        *--at = '/';
    }
    return *at == 0 ? "/" : at;
}

static const struct file *file_of(const struct talk *t, uint64_t fd)
{
    static const struct file none;
    return fd < NUMBERS ? &t->files[fd] : &none;
}

/* It is open, and then isn't the call's any more. */
static void take(struct talk *t, uint64_t fd, enum state as)
{
    MUST(fd < NUMBERS && t->files[fd].state == OPEN);
    t->files[fd].state = (uint8_t)as;
}

/* ---- what is due */

#define IS_ONE_OF(what, ...) (memchr((const uint8_t[]){__VA_ARGS__}, what, sizeof (const uint8_t[]){__VA_ARGS__}) != NULL)

static bool opens(uint8_t what)
{
    return IS_ONE_OF(what, INROOT_DUE_OPENAT2, INROOT_DUE_OPENAT, INROOT_DUE_DUPFD, INROOT_DUE_FSOPEN, INROOT_DUE_FSMOUNT,
                     INROOT_DUE_OPEN_TREE);
}

static bool has_descriptor(uint8_t what)
{
    return !IS_ONE_OF(what, INROOT_DUE_XATTR, INROOT_DUE_FSOPEN, INROOT_DUE_OPEN_TREE, INROOT_DUE_NANOSLEEP, INROOT_DUE_CLAIM,
                      INROOT_DUE_RELEASE, INROOT_DUE_KNOW);
}

/* Says what is due. */
static void next(struct talk *t)
{
    const unsigned before = t->due.what;
    memset(t->room, '#', KEPT_NAME);
    inroot_turn(&t->demand, &t->state, t->first, sizeof t->first, t->second, t->second_length, t->read, sizeof t->read, t->answers,
                ANSWERS, &t->due, t->room, sizeof t->room);
    const unsigned now = t->due.what;
    uint8_t *const way = &seen[(t->demand.what * 40U + before) * 40U + now];
    *way = (uint8_t)(*way + (*way < 255));
    MUST(now >= INROOT_DUE_OPENAT2 && now <= INROOT_DUE_FAILS && t->due.at < ANSWERS);
    MUST(memchr(t->room, 0, INROOT_SECOND));
    MUST(!IS_ONE_OF(now, INROOT_DUE_SYMLINKAT, INROOT_DUE_LINKAT, INROOT_DUE_RENAMEAT2) ||
         memchr(t->room + INROOT_SECOND, 0, KEPT_NAME - INROOT_SECOND));
    t->without_input += t->in.left == 0;
    MUST(t->without_input < SOON);
}

/* What a demand names, or what an answer has opened. */
static void must_be_there(struct talk *t, uint32_t fd)
{
    const bool is_given = fd == ROOT || fd == t->demand.fd || fd == (uint32_t)AT_FDCWD || fd == UINT32_MAX;
    const bool is_at_hand = fd == AT_HAND && t->demand.known.kept.there;
    const uint8_t state = file_of(t, fd)->state;
    MUST(is_given || is_at_hand || state == OPEN || state == KEPT);
}

/* The descriptor of an object that is named in a /proc; or UINT32_MAX. */
static uint32_t named(const char *text)
{
    static const char front[] = "thread-self/fd/";
    text += strncmp(text, "/proc/", 6) == 0 ? 6 : 0;
    return strncmp(text, front, sizeof front - 1) == 0 ? (uint32_t)strtoul(text + sizeof front - 1, NULL, 10) : UINT32_MAX;
}

static bool is_one_name(const char *text)
{
    return strchr(text, '/') == NULL && text[0] != 0;
}

/* Nothing leads out of the directory: but for `..` of one that isn't the root, by itself. */
static void must_stay(struct talk *t, const char *text)
{
    const struct inroot_due *due = &t->due;
    const bool is_kept = due->what == INROOT_DUE_OPENAT2 && due->resolve & (RESOLVE_IN_ROOT | RESOLVE_BENEATH);
    const bool is_bare = due->number & (O_NOFOLLOW | O_EXCL) || strcmp(text, ".") == 0;
    const bool is_found = due->what == INROOT_DUE_OPENAT && due->fd == (uint32_t)AT_FDCWD && strcmp(text, "/proc") == 0;
    const bool is_of_proc = t->demand.what == INROOT_DO_PROC_OPEN || t->demand.what == INROOT_DO_PROC_READ_LINK;
    MUST(due->number & O_CLOEXEC);
    MUST(is_kept || is_found || is_of_proc || named(text) != UINT32_MAX || (is_one_name(text) && is_bare));
    MUST(is_kept || !file_of(t, due->fd)->is_root || strcmp(text, "..") != 0);
}

static bool is_entry(const char *text)
{
    const size_t length = strlen(text);
    return length > 0 && length <= NAME_MAX && is_one_name(text) && strcmp(text, ".") != 0 && strcmp(text, "..") != 0;
}

static void must_be_entries(struct talk *t, const char *text, const char *other)
{
    MUST(is_entry(text) || !IS_ONE_OF(t->due.what, INROOT_DUE_MKDIRAT, INROOT_DUE_MKNODAT, INROOT_DUE_SYMLINKAT,
                                      INROOT_DUE_UNLINKAT, INROOT_DUE_RENAMEAT2));
    MUST(is_entry(other) || !IS_ONE_OF(t->due.what, INROOT_DUE_RENAMEAT2, INROOT_DUE_LINKAT));
}

static void look_at(struct talk *t)
{
    const struct inroot_due *due = &t->due;
    const char *text = (const char *)t->room, *other = (const char *)t->room + INROOT_SECOND;
    if (has_descriptor(due->what))
        must_be_there(t, due->fd);
    if (due->what == INROOT_DUE_LINKAT || due->what == INROOT_DUE_RENAMEAT2)
        must_be_there(t, due->other);
    if (due->what == INROOT_DUE_KEEP || due->what == INROOT_DUE_RELEASE)
        MUST(t->claims);
    if (due->what == INROOT_DUE_OPENAT2 || due->what == INROOT_DUE_OPENAT)
        must_stay(t, text);
    if (named(text) != UINT32_MAX)
        must_be_there(t, named(text));
    must_be_entries(t, text, other);
}

/* ---- answers */

/* Behind the last byte each system call fails. Of no descriptor nothing is given, though a filter may say so of openat2(2). */
static uint32_t some_error(struct input *in, const struct inroot_due *due)
{
    static const uint8_t errors[] = {
        EINTR, ENOENT, EAGAIN, EACCES, EPERM, ENOSYS, EMFILE, ENOMEM, EBADF, ELOOP, EXDEV, ENOTDIR, EEXIST, EINVAL, ESRCH, ERANGE,
        EBUSY, EISDIR, ENOTEMPTY, 200,
    };
    /* What C does by itself gives no error. */
    if (IS_ONE_OF(due->what, INROOT_DUE_KEEP, INROOT_DUE_RELEASE, INROOT_DUE_KNOW))
        return 0;
    if (in->left == 0)
        return EIO;
    const unsigned drawn = byte(in), error = errors[drawn % sizeof errors];
    const bool is_of_none = has_descriptor(due->what) && due->fd > INT_MAX && due->fd != (uint32_t)AT_FDCWD;
    if (drawn > 100)
        return is_of_none && due->what != INROOT_DUE_OPENAT2 ? EBADF : 0;
    return error == EINTR && due->again ? ENOENT : error;
}

/* Opens a number that isn't open: now and then that of a standard file. */
static uint32_t some_number(struct talk *t)
{
    const char *text = (const char *)t->room;
    const uint32_t low = byte(&t->in) % 32, from = named(text) != UINT32_MAX ? named(text) : t->due.fd;
    const bool is_free = low < 3 && t->due.what != INROOT_DUE_DUPFD && t->files[low].state != OPEN && t->files[low].state != KEPT;
    const uint32_t fd = is_free ? low : t->next++;
    const struct file *above = file_of(t, from);
    MUST(fd < NUMBERS);
    t->files[fd] = (struct file){
        .object = named(text) == UINT32_MAX && t->due.what != INROOT_DUE_DUPFD ? walked(above->object, text) : above->object,
        .state = OPEN, .is_root = above->is_root && strcmp(text, ".") == 0,
    };
    return fd;
}

static uint32_t read_text(struct talk *t, const char *text)
{
    const size_t length = strlen(text);
    memset(t->read, '?', sizeof t->read);
    memcpy(t->read, text, length);
    return (uint32_t)length;
}

/* The text of a link: the object's own path, the second text, or other bytes. */
static uint32_t some_link(struct talk *t)
{
    static const char *const texts[] = {"1/task/1", "a", "../a", "/a/b", "b/../c", "/a (deleted)", "", "(unreachable)/a"};
    char path[256] = "";
    const char *text = (const char *)t->room;
    const unsigned bits = byte(&t->in);
    if (strcmp(text, "thread-self") == 0 && bits < 128)
        return read_text(t, "1/task/1");
    if (named(text) != UINT32_MAX && bits < 128)
        return read_text(t, path_of(file_of(t, named(text))->object, path, sizeof path));
    if (bits < 160)
        return read_text(t, (const char *)t->second + 1);
    if (bits < 240)
        return read_text(t, texts[bits % 8]);
    memset(t->read, 'n', sizeof t->read);
    return (uint32_t)(sizeof t->read - bits % 2 * 257);
}

/* A record of getdents64(2). Which bytes it has. */
static size_t some_record(struct talk *t, unsigned char *record)
{
    static const char *const names[] = {".", "..", "a", "b", "c", "aa", "", "a/b"};
    static const uint8_t kinds[] = {DT_DIR, DT_REG, DT_LNK, DT_UNKNOWN};
    static char long_name[260];
    memset(long_name, 'n', sizeof long_name);
    const unsigned bits = byte(&t->in);
    const size_t length = bits >= 252 ? 251 + bits % 8 : strlen(names[bits & 7]);
    const unsigned short size = (unsigned short)((RECORD + length + 8) / 8 * 8);
    memset(record, 0, size);
    memcpy(record + 16, &size, sizeof size);
    record[18] = kinds[bits >> 3 & 3];
    memcpy(record + RECORD, bits >= 252 ? long_name : names[bits & 7], length);
    return size;
}

/* Some, or none at a directory's end; now and then a byte of them is another one. */
static uint32_t some_records(struct talk *t)
{
    size_t used = 0;
    const unsigned bits = byte(&t->in);
    for (unsigned count = bits % 4; count > 0; count--)
        used += some_record(t, t->read + used);
    if (bits > 200 && used > 0)
        t->read[byte(&t->in) * 4U % used] = (unsigned char)byte(&t->in);
    return (uint32_t)used;
}

/* What the tree says of the object, or something else. */
static struct inroot_gave some_look(struct talk *t)
{
    static const uint16_t modes[] = {S_IFDIR | 0700, S_IFREG | 0644, S_IFLNK | 0777, S_IFCHR | 0600, S_IFSOCK, 0};
    const unsigned bits = byte(&t->in);
    const uint64_t object = walked(file_of(t, t->due.fd)->object, (const char *)t->room);
    return (struct inroot_gave){
        .device = 1, .inode = bits & 8 ? object ^ 1 : object, .mount = 1 + (bits >> 4 & 1), .node = bits >> 5 & 1,
        .links = bits & 64 ? 0 : 2, .mode = modes[(bits & 7) < 6 ? bits & 7 : object % 3 == 1 ? 2 : 0], .has_mount = bits < 250,
    };
}

static struct inroot_gave answer(struct talk *t)
{
    const struct inroot_due *due = &t->due;
    const uint32_t error = some_error(&t->in, due);
    if (due->what == INROOT_DUE_CLOSE || due->what == INROOT_DUE_KEEP)
        take(t, due->fd, due->what == INROOT_DUE_KEEP ? KEPT : CLOSED);
    if (due->what == INROOT_DUE_CLAIM || due->what == INROOT_DUE_KEEP || due->what == INROOT_DUE_RELEASE)
        t->claims = due->what == INROOT_DUE_CLAIM && error == 0;
    if (error != 0)
        return (struct inroot_gave){.error = error};
    switch (due->what) {
    case INROOT_DUE_STATX: return some_look(t);
    case INROOT_DUE_GETDENTS: return (struct inroot_gave){.value = some_records(t)};
    case INROOT_DUE_READLINKAT: return (struct inroot_gave){.value = some_link(t)};
    case INROOT_DUE_XATTR: case INROOT_DUE_XATTR_AT: return (struct inroot_gave){.value = byte(&t->in)};
    case INROOT_DUE_FSTATFS: {
        const unsigned bits = byte(&t->in);
        return (struct inroot_gave){.file_system = PROC_TYPE + bits / 128, .flags = bits & 64 ? NO_LINKS_FOLLOWED : 0};
    }
    default: return (struct inroot_gave){.value = opens(due->what) && due->fd != UINT32_MAX ? some_number(t) : 0};
    }
}

/* ---- a call */

/* Whether a call with this reply hands out a descriptor, which is open then. */
static bool hands_out(const struct talk *t)
{
    if (IS_ONE_OF(t->demand.what, INROOT_DO_MKDIR, INROOT_DO_SYMLINK, INROOT_DO_MAKE_NODE, INROOT_DO_LINK, INROOT_DO_LINK_OBJECT))
        return t->demand.flags & INROOT_GIVE;
    return IS_ONE_OF(t->demand.what, INROOT_DO_RESOLVE, INROOT_DO_OPEN_AT, INROOT_DO_OPEN_PARENT, INROOT_DO_REOPEN,
                     INROOT_DO_PROC_OPEN, INROOT_DO_MAKE_DIRECTORIES, INROOT_DO_MAKE_FILE);
}

static void must_end(struct talk *t)
{
    const struct inroot_due *due = &t->due;
    MUST(!t->claims && due->closes <= 2);
    if (due->closes > 0)
        take(t, due->first_closed, CLOSED);
    if (due->closes > 1)
        take(t, due->second_closed, CLOSED);
    if (due->what == INROOT_DUE_FAILS)
        MUST(due->number > 0 && due->number < 4096);
    else if (hands_out(t))
        take(t, due->number, CLOSED);
    for (size_t at = 0; at < NUMBERS; at++)
        MUST(t->files[at].state != OPEN);
}

int LLVMFuzzerTestOneInput(const uint8_t *data, size_t size)
{
    static struct talk t;
    memset(&t, 0, sizeof t);
    t.in = (struct input){data, size};
    t.demand = some_demand(&t.in);
    t.next = FIRST;
    t.files[ROOT] = (struct file){.object = ROOT_OBJECT, .is_root = true};
    t.files[OBJECT] = (struct file){.object = OTHER_OBJECT};
    t.demand.length = some_text(&t.in, t.first);
    t.second_length = some_text(&t.in, t.second) + 1;
    for (next(&t); t.due.what < INROOT_DUE_VALUE; next(&t)) {
        look_at(&t);
        t.answers[t.due.at] = answer(&t);
    }
    must_end(&t);
    return 0;
}
