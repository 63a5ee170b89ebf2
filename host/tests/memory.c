/*
 * memory: each allocation of each kind of call is refused in turn. The call then ends by ENOMEM or as it does without,
 * and leaves no descriptor open.
 *
 * usage: memory DIR. Exits 0 where that holds.
 */
#define _GNU_SOURCE
#include "each.h"

#include <stdbool.h>
#include <string.h>
#include <unistd.h>

static long left_until_refused = -1;
static bool refused;

static bool refuses(void)
{
    return left_until_refused >= 0 && left_until_refused-- == 0 && (refused = true);
}

void *__real_malloc(size_t size);
void *__real_realloc(void *block, size_t size);

void *__wrap_malloc(size_t size)
{
    return refuses() ? NULL : __real_malloc(size);
}

void *__wrap_realloc(void *block, size_t size)
{
    return refuses() ? NULL : __real_realloc(block, size);
}

int main(int count, char **words)
{
    int tried = 0;
    if (count != 2)
        return 2;
    int root = sure(open(words[1], O_PATH | O_DIRECTORY | O_CLOEXEC), words[1]);
    make_tree(root);
    open_proc();
    int before = open_descriptors();
    for (int number = 0; number < CALLS; number++) {
        int wanted = call(root, number);
        restore(root, wanted, number);
        for (long at = 0;; at++) {
            refused = false;
            left_until_refused = at;
            int got = call(root, number);
            left_until_refused = -1;
            if (!refused) {
                restore(root, got, number);
                break;
            }
            tried++;
            if (got != -ENOMEM && !same(got, wanted)) {
                printf("not so: call %d without allocation %ld: wanted %d or -ENOMEM, got %d\n", number, at, wanted, got);
                wrong++;
            }
            restore(root, got, number);
        }
    }
    int left = open_descriptors() - before;
    printf("memory: %d allocations refused, %d ended wrongly, %d descriptors left open\n", tried, wrong, left);
    return wrong != 0 || left != 0 || tried == 0;
}
