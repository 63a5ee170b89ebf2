/*
 * no_links: inroot_openat() with O_CREAT walks twice, and somebody places a link, or removes one, in between. Under
 * INROOT_NO_LINKS none is followed.
 *
 * usage: no_links DIR. Exits 0 where each call ends as openat2(2) would, and nothing else was made or opened.
 */
#define _GNU_SOURCE
#include "support.h"
#include "wraps.h"

#include <errno.h>
#include <fcntl.h>
#include <string.h>
#include <sys/stat.h>

static int root;

/* What is done as the call is about to make the file, for the first time or each time. */
static void (*act)(void);
static bool each_time;

static int my_openat(int dir, const char *name, int flags, mode_t mode)
{
    if (flags & O_CREAT && act != NULL) {
        act();
        act = each_time ? act : NULL;
    }
    return __real_openat(dir, name, flags, mode);
}

INSTEAD_OF_OPENAT(my_openat)

static void place_dangling(void) { sure(symlinkat("target", root, "d/f"), "d/f"); }
static void place_link(void) { sure(symlinkat("/there", root, "d/f"), "d/f"); }
static void place_file(void) { sure(mknodat(root, "d/f", S_IFREG | 0600, 0), "d/f"); }
static void place_directory(void) { sure(mkdirat(root, "d/f", 0700), "d/f"); }

/* It is there as the file is to be made, and gone as it is looked for. */
static void flicker(void)
{
    unlinkat(root, "d/f", 0);
    place_dangling();
}

static void clear(void)
{
    unlinkat(root, "d/f", 0);
    unlinkat(root, "d/f", AT_REMOVEDIR);
    unlinkat(root, "d/target", 0);
}

/* What comes in between, and what a call gives: an error, or what it opened. */
static const struct {
    void (*act)(void);
    int flags;
    int error;
    const char *opened;
} rows[] = {
    {place_dangling, INROOT_NO_LINKS, ELOOP, NULL},
    {place_dangling, INROOT_NO_LINKS | INROOT_NO_RETRY, ELOOP, NULL},
    {place_dangling, INROOT_NO_LINKS | INROOT_BENEATH, ELOOP, NULL},
    {place_link, INROOT_NO_LINKS, ELOOP, NULL},
    {place_link, INROOT_NO_LINKS | INROOT_NO_RETRY, ELOOP, NULL},
    {place_link, INROOT_BENEATH, EXDEV, NULL},
    {place_file, INROOT_NO_LINKS, 0, "d/f"},
    {place_file, INROOT_NO_LINKS | INROOT_NO_RETRY, 0, "d/f"},
    {place_file, 0, 0, "d/f"},
    {place_directory, INROOT_NO_LINKS, EISDIR, NULL},
    {place_dangling, 0, 0, "d/target"},
    {place_link, 0, 0, "there"},
    {NULL, INROOT_NO_LINKS, 0, "d/f"},
};

static void one(size_t row, int way)
{
    int before = open_descriptors();
    act = rows[row].act;
    int fd = inroot_openat(root, "d/f", O_RDWR | O_CREAT, 0600, way | rows[row].flags);
    expect(act == NULL, "row %zu: no file was to be made", row);
    act = NULL;
    gives((fd < 0 ? -fd : 0), rows[row].error, "row %zu: the error", row);
    if (rows[row].opened != NULL)
        gives_object(fd, root, rows[row].opened, "row %zu: what was opened", row);
    bool made = faccessat(root, "d/target", F_OK, AT_SYMLINK_NOFOLLOW) == 0;
    gives(made, (rows[row].opened != NULL && strcmp(rows[row].opened, "d/target") == 0),
          "row %zu: a link's target", row);
    if (fd >= 0)
        close(fd);
    gives(open_descriptors(), before, "row %zu: open descriptors", row);
    clear();
}

/* A link that comes at each try. It isn't followed, and the call ends. */
static void again_and_again(int flags, int wanted)
{
    act = flicker;
    each_time = true;
    int fd = inroot_openat(root, "d/f", O_RDWR | O_CREAT, 0600, INROOT_NO_LINKS | flags);
    act = NULL;
    each_time = false;
    gives(fd, wanted, "a link at each try, flags %d", flags);
    gives(faccessat(root, "d/target", F_OK, AT_SYMLINK_NOFOLLOW), -1, "a link at each try: its target, asked for");
    clear();
}

/* Each time the file is to be made, a link is placed there that leads to the next name. */
static void lead_on(void)
{
    static unsigned number;
    char name[16], next[16];
    snprintf(name, sizeof name, number == 0 ? "d/f" : "d/n%u", number);
    snprintf(next, sizeof next, "n%u", ++number);
    sure(symlinkat(next, root, name), name);
    gives_most(number, 41, "links that are followed");
}

static void led_on(void)
{
    act = lead_on;
    each_time = true;
    int fd = inroot_openat(root, "d/f", O_RDWR | O_CREAT, 0600, 0);
    act = NULL;
    each_time = false;
    gives(fd, -ELOOP, "a link at each name");
    clear();
}

/* A link that is there from the first. */
static void from_the_first(int way)
{
    static const int how[] = {O_RDONLY, O_RDWR, O_RDWR | O_CREAT, O_PATH};
    place_link();
    for (size_t one = 0; one < sizeof how / sizeof *how; one++) {
        int fd = inroot_openat(root, "d/f", how[one], 0, way | INROOT_NO_LINKS);
        gives(fd, -ELOOP, "a link that is there, opened by %o", (unsigned)how[one]);
    }
    clear();
}

static void each(int way)
{
    for (size_t row = 0; row < sizeof rows / sizeof *rows; row++)
        one(row, way);
    again_and_again(way, -ELOOP);
    again_and_again(way | INROOT_NO_RETRY, -ELOOP);
    from_the_first(way);
}

int main(int count, char **words)
{
    if (count != 2)
        return 2;
    root = sure(open(words[1], O_PATH | O_DIRECTORY | O_CLOEXEC), words[1]);
    sure(mkdirat(root, "d", 0755), "d");
    sure(mknodat(root, "there", S_IFREG | 0600, 0), "there");
    open_proc();
    each(0);
    each(INROOT_EXACT);
    led_on();
    printf("no_links: %d not as they are to be\n", wrong);
    return wrong != 0;
}
