/*
 * served: below the root is a file system whose server lies (FUSE). Each question is answered by an error, once, some times or for
 * long; inode numbers are all the same, or new in each answer; a directory is a file by another answer; names have a slash, are
 * `..`, are empty or too long; a link's text is empty, has 4,095 bytes, or leads out. No call opens, lists or removes anything
 * outside, none leaves a descriptor open, and as soon as the server tells the truth each call gives what it gave before. An object is
 * known by its size, about which the server doesn't lie.
 *
 * usage: served DIR. Exits 0 where that holds. 77: no openat2(2) here. 78: no right to mount such a file system, or to change a root.
 */
#define _GNU_SOURCE
#include "fuse.h"

#include <sys/mman.h>
#include <sys/vfs.h>

/*
 * ---- the file system. What its server lies about stands in memory that the test shares with it: an error for each question of one
 * kind, numbers, kinds, a link's text, the names of a directory.
 */

/* The tree, and once more below `box`: each node's number is its place here and one more. An object's size tells its label. */
struct node {
    uint64_t above;
    const char *name;
    uint32_t kind;
    int label;
};

enum { SIZE_OF_NONE = 1000, LABEL_FILE = 4, LABEL_LISTED = 5, LABEL_OTHER = 8 };

static const struct node nodes[] = {
    {0, "", S_IFDIR, 1},
    {1, "a", S_IFDIR, 2}, {2, "b", S_IFDIR, 3}, {3, "f", S_IFREG, LABEL_FILE}, {3, "d", S_IFDIR, LABEL_LISTED}, {3, "l", S_IFLNK, 6},
    {1, "t", S_IFDIR, 7}, {7, "f", S_IFREG, LABEL_OTHER},
    {1, "box", S_IFDIR, 1},
    {9, "a", S_IFDIR, 2}, {10, "b", S_IFDIR, 3}, {11, "f", S_IFREG, LABEL_FILE}, {11, "d", S_IFDIR, LABEL_LISTED}, {11, "l", S_IFLNK, 6},
    {9, "t", S_IFDIR, 7}, {15, "f", S_IFREG, LABEL_OTHER},
};
enum { NODES = sizeof nodes / sizeof *nodes };

/* What the server lies about. */
struct lies {
    uint32_t asked;                /* questions of this kind (an opcode) get the error, so many of them; or all kinds */
    int32_t error, times;
    uint32_t same_number, new_number, other_kind;
    uint32_t text_length, names;   /* of the link; which names the directory `d` has */
    char text[8192];
    uint32_t questions;            /* so many came */
};
static struct lies *lies;
enum { ANY_QUESTION = 0xffff };

/* ---- answers */

static struct fuse_attr attributes_of(uint64_t node)
{
    static uint64_t count = 100;
    const uint32_t kind = nodes[node - 1].kind, other = kind == S_IFDIR ? S_IFREG : S_IFDIR;
    return (struct fuse_attr){
        .ino = lies->same_number ? 7 : lies->new_number ? count++ : node,
        .size = SIZE_OF_NONE + (uint64_t)nodes[node - 1].label,
        .mode = (lies->other_kind == node ? other : kind) | 0755,
        .nlink = 2,
        .blksize = 4096,
    };
}

static uint64_t find_node(uint64_t above, const char *name)
{
    for (uint64_t at = 0; at < NODES; at++)
        if (nodes[at].above == above && strcmp(nodes[at].name, name) == 0)
            return at + 1;
    return 0;
}

/* ---- the names of a directory */

static size_t put_name(char *room, size_t used, uint64_t offset, const char *name, size_t length, uint32_t type)
{
    const struct fuse_dirent head = {.ino = 5, .off = offset, .namelen = (uint32_t)length, .type = type};
    memcpy(room + used, &head, FUSE_NAME_OFFSET);
    memcpy(room + used + FUSE_NAME_OFFSET, name, length);
    return used + FUSE_DIRENT_ALIGN(FUSE_NAME_OFFSET + length);
}

/* Names of one directory that no file system of Linux's own gives. */
enum { NAMES_NONE, NAMES_WITH_SLASH, NAMES_OF_DOTS, NAMES_EMPTY, NAMES_LONG, NAMES_WITH_NUL, NAMES_OF_NOTHING, NAMES };

static void list(uint64_t unique, uint64_t node, uint64_t offset)
{
    static char name[1024];
    char room[4096] = {0};
    size_t used = 0;
    if (offset == 0 && node != 0 && node <= NODES && nodes[node - 1].label == LABEL_LISTED)
        switch (lies->names) {
        case NAMES_WITH_SLASH: used = put_name(room, used, 1, "../../x", 7, 8); break;
        case NAMES_OF_DOTS:
            used = put_name(room, used, 1, "..", 2, 4);
            used = put_name(room, used, 2, "..", 2, 8);
            used = put_name(room, used, 3, ".", 1, 10);
            break;
        case NAMES_EMPTY: used = put_name(room, used, 1, "\0x", 2, 4); break;
        case NAMES_LONG:
            memset(name, 'n', sizeof name);
            used = put_name(room, used, 1, name, 1000, 4);
            break;
        case NAMES_WITH_NUL: used = put_name(room, used, 1, "..\0x", 4, 4); break;
        case NAMES_OF_NOTHING: used = put_name(room, used, 1, "none", 4, 4); break;
        default: break;
        }
    else if (offset == 0)
        for (uint64_t at = 0; at < NODES; at++)
            if (nodes[at].above == node)
                used = put_name(room, used, at + 1, nodes[at].name, strlen(nodes[at].name), nodes[at].kind >> 12);
    answer(unique, 0, room, used);
}

/* ---- questions */

static void serve_entry(uint64_t unique, uint64_t above, const char *name)
{
    const uint64_t node = find_node(above, name);
    const struct fuse_entry_out entry = {.nodeid = node, .generation = 1, .attr = attributes_of(node ? node : 1)};
    answer(unique, node == 0 ? ENOENT : 0, &entry, node == 0 ? 0 : sizeof entry);
}

static void serve_one(const struct fuse_in_header *head, const char *more)
{
    const struct fuse_init_out hello = {.major = 7, .minor = 31, .max_write = 4096, .max_background = 8, .time_gran = 1};
    const struct fuse_attr_out about = {.attr = attributes_of(head->nodeid != 0 && head->nodeid <= NODES ? head->nodeid : 1)};
    const struct fuse_open_out opened = {.fh = 1};
    struct fuse_statfs_out whole = {.st = {.bsize = 4096, .namelen = 1024}};
    switch (head->opcode) {
    case FUSE_INIT: answer(head->unique, 0, &hello, sizeof hello); break;
    case FUSE_LOOKUP: serve_entry(head->unique, head->nodeid, more); break;
    case FUSE_GETATTR: answer(head->unique, 0, &about, sizeof about); break;
    case FUSE_READLINK: answer(head->unique, 0, lies->text, lies->text_length); break;
    case FUSE_OPEN: case FUSE_OPENDIR: answer(head->unique, 0, &opened, sizeof opened); break;
    case FUSE_READDIR: list(head->unique, head->nodeid, ((const struct fuse_read_in *)(const void *)more)->offset); break;
    case FUSE_STATFS: answer(head->unique, 0, &whole, sizeof whole); break;
    case FUSE_RELEASE: case FUSE_RELEASEDIR: case FUSE_FLUSH: answer(head->unique, 0, NULL, 0); break;
    case FUSE_FORGET: case FUSE_BATCH_FORGET: case FUSE_INTERRUPT: break;
    default: answer(head->unique, ENOSYS, NULL, 0);
    }
}

static bool is_lied_to(uint32_t opcode)
{
    const bool is_asked = lies->asked == ANY_QUESTION ? opcode != FUSE_INIT : opcode == lies->asked;
    return is_asked && opcode != FUSE_FORGET && opcode != FUSE_BATCH_FORGET && opcode != FUSE_INTERRUPT && lies->times > 0;
}

static void serve(const struct fuse_in_header *head, const char *more)
{
    __atomic_add_fetch(&lies->questions, 1, __ATOMIC_RELAXED);
    if (is_lied_to(head->opcode)) {
        lies->times--;
        answer(head->unique, lies->error, NULL, 0);
    } else {
        serve_one(head, more);
    }
}

static inline void begin_server(const char *where, unsigned long flags)
{
    lies = mmap(NULL, sizeof *lies, PROT_READ | PROT_WRITE, MAP_SHARED | MAP_ANONYMOUS, -1, 0);
    if (lies == MAP_FAILED)
        _exit(NO_RIGHT);
    begin_serving(where, flags, serve);
    close(device);
}

/* ---- the test */

static int root;
static char where_box[4096], where_served[4096];
static struct stat secret;
static const char *who = "";

/* ---- the calls. Each gives 0 and the number of the object that it found, or -errno. */

static int number_of(int fd)
{
    struct stat about;
    int number = fd < 0 ? fd : fstat(fd, &about) == 0 ? (int)about.st_size - SIZE_OF_NONE : -errno;
    if (fd >= 0 && fstat(fd, &about) == 0)
        expect(about.st_ino != secret.st_ino || about.st_dev != secret.st_dev, "%s: the file outside is opened", who);
    if (fd >= 0)
        close(fd);
    return number;
}

static const char *prefix = "";

static const char *below(const char *path)
{
    static char text[256];
    snprintf(text, sizeof text, "%s%s", prefix, path);
    return text;
}

static int open_file(void) { return number_of(inroot_open(root, below("a/b/f"), 0)); }
static int open_exact(void) { return number_of(inroot_open(root, below("a/b/f"), INROOT_EXACT)); }
static int open_up(void) { return number_of(inroot_open(root, below("a/b/../../t/f"), 0)); }
static int open_link(void) { return number_of(inroot_open(root, below("a/b/l"), 0)); }
static int open_up_exact(void) { return number_of(inroot_open(root, below("a/b/../../t/f"), INROOT_EXACT)); }
static int open_link_by_kernel(void)
{
    const struct open_how how = {.flags = O_PATH | O_CLOEXEC, .resolve = RESOLVE_IN_ROOT};
    int fd = (int)syscall(SYS_openat2, root, below("a/b/l"), &how, sizeof how);
    return number_of(fd < 0 ? -errno : fd);
}
static int open_link_exact(void) { return number_of(inroot_open(root, below("a/b/l"), INROOT_EXACT)); }
static int open_to_read(void) { return number_of(inroot_openat(root, below("a/b/f"), O_RDONLY, 0, 0)); }
static int open_on_mount(void) { return number_of(inroot_open(root, below("a/../a/b/f"), INROOT_NO_XDEV)); }

static int place(void)
{
    char text[256] = "";
    int fd = inroot_open(root, below("a/b/f"), 0);
    int length = fd < 0 ? fd : (int)inroot_place(root, fd, text, sizeof text);
    if (fd >= 0)
        close(fd);
    if (length >= 0)
        expect(strcmp(text + 1, below("a/b/f")) == 0, "%s: the place is '%s'", who, text);
    return length;
}

static int remove_all(void) { return (int)inroot_remove_all(root, below("a/b/d"), INROOT_NO_RETRY); }

static const struct {
    const char *name;
    int (*call)(void);
    int found;
} rows[] = {
    {"open a file", open_file, LABEL_FILE},
    {"open a file exactly", open_exact, LABEL_FILE},
    {"open behind ..", open_up, LABEL_OTHER},
    {"open behind .. exactly", open_up_exact, LABEL_OTHER},
    {"open a link's target", open_link, LABEL_OTHER},
    {"open a link's target exactly", open_link_exact, LABEL_OTHER},
    {"open for reading", open_to_read, LABEL_FILE},
    {"open on one mount", open_on_mount, LABEL_FILE},
    {"the place of a file", place, 0},
    {"remove all", remove_all, 0},
};
enum { ROWS = sizeof rows / sizeof *rows, ONE_MOUNT = 7, FIRST_WITHOUT = 8 };

/* ---- what is lied about */

static void tell_truth(void)
{
    *lies = (struct lies){.text = "../../t/f", .text_length = 9, .questions = lies->questions};
}

static int usual[ROWS];

static void is_as_usual(int row)
{
    tell_truth();
    gives(rows[row].call(), usual[row], "%s, %s: afterwards", who, rows[row].name);
}

/* The call finds the object, or fails. Nothing stays open, and nothing is lost for later. */
static void try_row(int row)
{
    int before = open_descriptors();
    int got = rows[row].call();
    expect(got < 0 || got == usual[row] || row >= FIRST_WITHOUT, "%s, %s: it gives %d", who, rows[row].name, got);
    gives(open_descriptors(), before, "%s, %s: open descriptors", who, rows[row].name);
    is_as_usual(row);
}

static void with_errors(void)
{
    static const int errors[] = {EPERM, ENOSYS, EINTR, EAGAIN, EACCES, ENOENT, EIO, ESTALE, EXDEV, ELOOP, ENOTDIR, EBADF};
    static const uint32_t asked[] = {FUSE_LOOKUP, FUSE_GETATTR, FUSE_READLINK, FUSE_OPENDIR, FUSE_READDIR, ANY_QUESTION};
    static const int times[] = {1, 3, 60};
    for (unsigned error = 0; error < sizeof errors / sizeof *errors; error++)
        for (unsigned kind = 0; kind < sizeof asked / sizeof *asked; kind++)
            for (unsigned row = 0; row < ROWS; row++) {
                const int often = times[(error + kind + row) % (sizeof times / sizeof *times)];
                char words[128];
                snprintf(words, sizeof words, "question %u gets %d, %d times", asked[kind], errors[error], often);
                who = words;
                lies->asked = asked[kind];
                lies->error = errors[error];
                lies->times = often;
                try_row((int)row);
            }
}

static void with_numbers(void)
{
    for (int row = 0; row < ROWS; row++) {
        who = "all numbers are the same";
        lies->same_number = 1;
        expect(row >= FIRST_WITHOUT || rows[row].call() == usual[row], "%s, %s: another object", who, rows[row].name);
        try_row(row);
        who = "a number is new in each answer";
        lies->new_number = 1;
        try_row(row);
    }
}

/* The kernel gives EIO for such an object from then on: so this comes last. */
static void with_kinds(void)
{
    who = "a directory is a file, and a file a directory";
    for (uint32_t node = NODES; node > 0; node--)
        for (int row = 0; row < ROWS && nodes[node - 1].kind != S_IFLNK; row++) {
            lies->other_kind = node;
            int before = open_descriptors(), got = rows[row].call();
            expect(got < 0 || got == usual[row] || row >= FIRST_WITHOUT, "%s, %s: it gives %d", who, rows[row].name, got);
            gives(open_descriptors(), before, "%s, %s: open descriptors", who, rows[row].name);
            tell_truth();
        }
}

static void with_names(void)
{
    static const char *const what[] = {
        "no names", "a slash in a name", "dots", "an empty name", "a long name", "a zero in a name", "no such name",
    };
    for (uint32_t names = 0; names < NAMES; names++)
        for (int row = FIRST_WITHOUT; row < ROWS; row++) {
            who = what[names];
            lies->names = names;
            try_row(row);
        }
}

/*
 * A link may lead anywhere in the root. Each text, and the object, or the error. By an empty one the kernel's walk stays where the
 * link is.
 */
static void with_texts(void)
{
    static char longest[4095];
    static const struct {
        const char *text;
        uint32_t length;
        int served, own;
    } texts[] = {
        {"", 0, -ENOENT, -ENOENT},
        {"../../../../out/secret", 22, -ENOENT, -ENOENT},
        {"f\0/../../../../out/secret", 26, LABEL_FILE, LABEL_FILE},
        {"/a/b/f", 6, -ENOENT, LABEL_FILE},
        {longest, 4095, -ENOENT, -ENOENT},
    };
    memset(longest, '.', sizeof longest);
    for (size_t one = 1; one < sizeof longest; one += 2)
        longest[one] = '/';
    memcpy(longest, "none", 4);
    for (size_t one = 0; one < sizeof texts / sizeof *texts; one++) {
        who = texts[one].text;
        memcpy(lies->text, texts[one].text, texts[one].length);
        lies->text_length = texts[one].length;
        const int exact = prefix[0] ? texts[one].served : texts[one].own, by_kernel = open_link_by_kernel();
        gives(open_link_exact(), exact, "a link's text of %u bytes: '%.30s', exactly", texts[one].length, who);
        gives(open_link(), by_kernel < 0 ? exact : by_kernel, "a link's text of %u bytes: '%.30s'", texts[one].length, who);
        tell_truth();
    }
}

static void each(void)
{
    tell_truth();
    who = "nobody lies";
    for (int row = 0; row < ROWS; row++) {
        usual[row] = rows[row].call();
        if (row < FIRST_WITHOUT && row != ONE_MOUNT)
            gives(usual[row], rows[row].found, "%s, %s", who, rows[row].name);
    }
    gives(usual[ONE_MOUNT], prefix[0] ? -EXDEV : LABEL_FILE, "%s, %s", who, rows[ONE_MOUNT].name);
    with_names();
    with_texts();
    with_numbers();
    /* After an ENOSYS the kernel asks some questions no more, and keeps what directories have. */
    with_errors();
    with_kinds();
}

/* ---- each way to have the root */

/* The file system is mounted in the root, and the root is it or what is above or below it. */
static void begin(const char *name, unsigned long flags)
{
    char path[8192];
    begin_server(where_served, flags);
    open_proc();
    snprintf(path, sizeof path, "%s/%s", where_box, name);
    root = sure(open(path, O_PATH | O_DIRECTORY | O_CLOEXEC), path);
}

static void by_descriptor(void)
{
    begin("", 0);
    prefix = "m/";
    each();
}

/* ---- a mount on which no link is followed: whoever refuses to say so changes nothing */

/* Of Linux 5.10; the headers may be older. */
enum { NO_LINK_FOLLOWED = 256, ST_NO_LINK_FOLLOWED = 0x2000 };

static void follow_none(void)
{
    static const int errors[] = {EIO, ENOSYS, EPERM, ENOENT, EINTR, EAGAIN};
    static const int flags[] = {0, INROOT_EXACT};
    struct statfs about;
    if (fstatfs(root, &about) != 0 || !(about.f_flags & ST_NO_LINK_FOLLOWED))
        return;
    for (size_t one = 0; one < sizeof flags / sizeof *flags; one++) {
        tell_truth();
        gives(inroot_open(root, "a/b/l", flags[one]), -ELOOP, "a link where none is followed, flags %d", flags[one]);
        for (size_t error = 0; error < sizeof errors / sizeof *errors; error++) {
            lies->asked = FUSE_STATFS;
            lies->error = errors[error];
            lies->times = 3;
            int got = inroot_open(root, "a/b/l", flags[one] | INROOT_NO_RETRY);
            gives(got, errors[error] == EINTR ? -ELOOP : -errors[error], "the same, where the server gives %d instead", errors[error]);
        }
    }
}

static void where_no_link_is_followed(void)
{
    begin("m", NO_LINK_FOLLOWED);
    follow_none();
}

/* It is the thread's root and current directory; and that root isn't a mount's, so that no text tells inside from outside. */
static void in_chroot(void)
{
    begin("m/box", 0);
    if (fchdir(root) != 0 || chroot(".") != 0)
        _exit(NO_RIGHT);
    each();
}

int main(int count, char **words)
{
    static void (*const ways[])(void) = {
        by_descriptor, in_chroot, where_no_link_is_followed,
    };
    struct stat now;
    int skipped = 0;
    if (count != 2)
        return 2;
    if (!has_openat2())
        return NO_OPENAT2;
    snprintf(where_box, sizeof where_box, "%.4000s/box", words[1]);
    snprintf(where_served, sizeof where_served, "%.4000s/box/m", words[1]);
    sure(chdir(words[1]), words[1]);
    sure(mkdir("box", 0755), "box");
    sure(mkdir("box/m", 0755), "m");
    sure(mkdir("out", 0755), "out");
    sure(mknod("out/secret", S_IFREG | 0600, 0), "secret");
    sure(stat("out/secret", &secret), "secret");
    for (size_t one = 0; one < sizeof ways / sizeof *ways; one++) {
        int status = apart(ways[one]);
        skipped = status != 0 ? status : skipped;
    }
    sure(stat("out/secret", &now), "secret");
    expect(now.st_ino == secret.st_ino && now.st_ctim.tv_nsec == secret.st_ctim.tv_nsec, "what is outside is as it was");
    printf("served: %d not as they are to be\n", wrong);
    return wrong != 0 ? 1 : skipped;
}
