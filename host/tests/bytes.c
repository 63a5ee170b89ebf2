/*
 * bytes: names of each byte but the slash and zero: alone, 255 times, and before the ending that the kernel writes behind the text of what
 * was removed. Each file below such a directory is opened by its names and behind `..`, and its place is told.
 *
 * usage: bytes DIR. Exits 0 where that holds.
 */
#define _GNU_SOURCE
#include "support.h"

#include <string.h>

enum { FORMS = 3, LONGEST = 255 };

static int root;

static void write_name(char name[LONGEST + 1], int byte, int form)
{
    size_t length = form == 1 ? LONGEST : 1;
    memset(name, byte, length);
    strcpy(name + length, form == 2 ? " (deleted)" : "");
}

static void finds(const char *path, int flags, const char *name)
{
    char place[1024];
    const char *own = strrchr(path, '/') - strlen(name);
    int fd = inroot_open(root, path, flags);
    gives_object(fd, root, own, "the file below the name of byte %d", (unsigned char)name[0]);
    if (fd < 0)
        return;
    int length = (int)inroot_place(root, fd, place, sizeof place);
    expect(length > 1 && strcmp(place + 1, own) == 0, "the place of the file below the name of byte %d", (unsigned char)name[0]);
    close(fd);
}

static void try_name(const char *name)
{
    char path[LONGEST + 3], up[2 * LONGEST + 8];
    snprintf(path, sizeof path, "%s/f", name);
    snprintf(up, sizeof up, "%s/../%s/f", name, name);
    sure(mkdirat(root, name, 0755), "a name");
    sure(mknodat(root, path, S_IFREG | 0600, 0), "a file");
    finds(path, 0, name);
    finds(path, INROOT_EXACT, name);
    finds(up, 0, name);
    finds(up, INROOT_EXACT, name);
    gives(inroot_remove_all(root, name, 0), 2, "the tree by the name of byte %d", (unsigned char)name[0]);
}

static void each(void)
{
    char name[LONGEST + 1];
    for (int byte = 1; byte < 256; byte++)
        for (int form = 0; form < FORMS; form++) {
            write_name(name, byte, form);
            if (byte != '/' && strcmp(name, ".") != 0)
                try_name(name);
        }
}

int main(int count, char **words)
{
    if (count != 2)
        return 2;
    root = sure(open(words[1], O_PATH | O_DIRECTORY | O_CLOEXEC), words[1]);
    open_proc();
    each();
    printf("bytes: %d not as they are to be\n", wrong);
    return wrong != 0;
}
