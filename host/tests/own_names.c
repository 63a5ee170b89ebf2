/*
 * own_names: a program that has names of its own which the library within the driver might have, too. Its functions aren't
 * called, and what inroot.h defines isn't in its way.
 *
 * usage: own_names DIR. Exits 0 where that holds.
 */
#include "../inroot.h"

#include <fcntl.h>
#include <stdio.h>
#include <stdlib.h>

enum { ASK_RESOLVE, STEP_OPEN, ANSWER_DONE, KIND_DIR, REPLY_DONE, TEXT_MAX, ROOM };

void *rattle_alloc(size_t size, size_t align);
void rattle_dealloc(void *block, size_t size, size_t align);
void *rattle_realloc(void *block, size_t size, size_t align, size_t more);

void *rattle_alloc(size_t size, size_t align)
{
    (void)size;
    (void)align;
    abort();
}

void rattle_dealloc(void *block, size_t size, size_t align)
{
    (void)block;
    (void)size;
    (void)align;
    abort();
}

void *rattle_realloc(void *block, size_t size, size_t align, size_t more)
{
    (void)block;
    (void)size;
    (void)align;
    (void)more;
    abort();
}

int main(int count, char **words)
{
    int root = count == 2 ? open(words[1], O_RDONLY | O_DIRECTORY) : -1;
    int made = inroot_mkdir_all(root, "x/y", 0755, 0);
    printf("own_names: %d\n", made);
    return made < 0;
}
