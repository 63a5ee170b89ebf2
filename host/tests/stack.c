/*
 * stack: how much of its thread's stack each kind of call takes: no more than the 64 kilobytes of which inroot.h tells.
 *
 * usage: stack DIR. Exits 0 where that holds.
 */
#define _GNU_SOURCE
#include "each.h"

#include <pthread.h>
#include <string.h>
#include <sys/mman.h>

enum { STACK = 1 << 20, MOST = 64 << 10, UNUSED = 0xa5 };

static int root, number;
static unsigned char *stack;

/* How many bytes of it were written to. The thread asks as long as it has it: some C libraries clear it afterwards. */
static size_t used(void)
{
    size_t left = 0;
    while (left < STACK && stack[left] == UNUSED)
        left++;
    return STACK - left;
}

static void *make_call(void *count)
{
    restore(root, call(root, number), number);
    *(size_t *)count = used();
    return NULL;
}

static void *make_none(void *count)
{
    *(size_t *)count = used();
    return NULL;
}

/* In a thread that does this. */
static size_t used_by(void *(*what)(void *))
{
    pthread_t thread;
    pthread_attr_t attributes;
    size_t count = 0;
    stack = mmap(NULL, STACK, PROT_READ | PROT_WRITE, MAP_PRIVATE | MAP_ANONYMOUS, -1, 0);
    sure(stack == MAP_FAILED ? -1 : 0, "mmap");
    memset(stack, UNUSED, STACK);
    pthread_attr_init(&attributes);
    errno = pthread_attr_setstack(&attributes, stack, STACK);
    sure(-errno, "pthread_attr_setstack");
    errno = pthread_create(&thread, &attributes, what, &count);
    sure(-errno, "pthread_create");
    pthread_join(thread, NULL);
    pthread_attr_destroy(&attributes);
    munmap(stack, STACK);
    return count;
}

int main(int count, char **words)
{
    size_t most = 0;
    if (count != 2)
        return 2;
    root = sure(open(words[1], O_PATH | O_DIRECTORY | O_CLOEXEC), words[1]);
    make_tree(root);
    size_t thread = used_by(make_none);
    for (number = 0; number < CALLS; number++) {
        size_t taken = used_by(make_call) - thread;
        gives_most(taken, MOST, "call %d: bytes of the stack", number);
        most = taken > most ? taken : most;
    }
    gives_least((long)most, MOST / 8 + 1, "bytes of the stack that some call takes");
    printf("stack: %zu bytes at most, %d not as they are to be\n", most, wrong);
    return wrong != 0;
}
