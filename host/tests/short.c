/*
 * short: each kind of call with so many descriptors left, from none on, and as the first of a thread. It ends by EMFILE or as it
 * does else, and leaves none open.
 *
 * usage: short DIR. Exits 0 where that holds.
 */
#define _GNU_SOURCE
#include "each.h"

#include <pthread.h>
#include <sys/resource.h>

enum { MOST = 20 };

static int root;

/* A call in a thread that knows nothing of the kernel yet: by its number, in the place of which it lays what it gave. */
static void *call_first(void *at)
{
    *(int *)at = call(root, *(int *)at);
    return NULL;
}

static void allow(int count)
{
    struct rlimit limit;
    sure(getrlimit(RLIMIT_NOFILE, &limit), "getrlimit");
    limit.rlim_cur = (rlim_t)count;
    sure(setrlimit(RLIMIT_NOFILE, &limit), "setrlimit");
}

static void each_call(void)
{
    int ran_short = 0;
    /* The library opens its /proc now: a rename anywhere on the machine may have any call below need it. */
    sure(close(sure(inroot_reopen(root, O_RDONLY | O_DIRECTORY), "inroot_reopen")), "close");
    const int none = take_gaps(root), enough = none + 64;
    for (int number = 0; number < CALLS; number++) {
        allow(enough);
        int wanted = call(root, number);
        restore(root, wanted, number);
        int before = open_descriptors();
        for (int left = 0; left < MOST; left++) {
            allow(none + left);
            int got = call(root, number);
            allow(enough);
            ran_short += got == -EMFILE;
            expect(got == -EMFILE || same(got, wanted), "call %d with %d descriptors left: wanted %d or -EMFILE, got %d", number, left, wanted,
                   got);
            expect(left < 8 || got != -EMFILE, "call %d with %d descriptors left: wanted what else it gives, got -EMFILE", number, left);
            restore(root, got, number);
        }
        int first = number;
        pthread_t thread;
        allow(none);
        gives(pthread_create(&thread, NULL, call_first, &first), 0, "pthread_create");
        pthread_join(thread, NULL);
        allow(enough);
        expect(first == -EMFILE || same(first, wanted), "call %d, a thread's first: wanted %d or -EMFILE, got %d", number, wanted, first);
        restore(root, first, number);
        gives(open_descriptors(), before, "call %d: open descriptors", number);
    }
    gives_least(ran_short, CALLS + 1, "calls that ran short");
}

int main(int count, char **words)
{
    if (count != 2)
        return 2;
    root = sure(open(words[1], O_PATH | O_DIRECTORY | O_CLOEXEC), words[1]);
    make_tree(root);
    apart(each_call);
    printf("short: %d not as they are to be\n", wrong);
    return wrong != 0;
}
