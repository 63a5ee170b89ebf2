/*
 * ends: what is left of a thread that is cancelled. A call that is begun by a thread which is already cancelled goes on to its
 * end, and the thread ends at its next point.
 *
 * usage: ends DIR. Exits 0 where nothing is left open.
 */
#define _GNU_SOURCE
#include "each.h"

#include <pthread.h>

static int root, proc;
static bool returned;

static void in_thread(void *(*what)(void *), void *with)
{
    pthread_t thread;
    sure(-pthread_create(&thread, NULL, what, with), "pthread_create");
    pthread_join(thread, NULL);
}

/* A thread that is cancelled before it makes the call. */
static void *make_call(void *what)
{
    void (*const *call)(void) = what;
    pthread_cancel(pthread_self());
    (*call)();
    returned = true;
    pthread_testcancel();
    expect(false, "a thread goes on after it was cancelled");
    return NULL;
}

static void cancelled(const char *name, void (*call)(void))
{
    int before = open_descriptors();
    returned = false;
    in_thread(make_call, &call);
    expect(returned, "%s: the thread ended within the call", name);
    gives_most(open_descriptors(), before, "%s: open descriptors", name);
}

/* ---- each call */

static int number, result;

static void make_one(void)
{
    result = call(root, number);
}

static void each_call(void)
{
    open_proc();
    for (number = 0; number < CALLS; number++) {
        char name[16];
        int before = open_descriptors();
        snprintf(name, sizeof name, "call %d", number);
        returned = false;
        void (*one)(void) = make_one;
        in_thread(make_call, &one);
        /* What these close(2) themselves is a point of their own. */
        bool has_points = number == 14 || number == 19 || number == 21 || number == 30;
        expect(returned || has_points, "%s: the thread ended within the call", name);
        if (returned)
            restore(root, result, number);
        if (!has_points)
            gives(open_descriptors(), before, "%s: open descriptors", name);
    }
}

static void use_proc(void)
{
    gives(inroot_use_proc(proc), -EBUSY, "a second /proc");
}

static void handed_in_twice(void)
{
    gives(inroot_use_proc(proc), 0, "the first /proc");
    cancelled("inroot_use_proc", use_proc);
}

static void nothing(void)
{
}

int main(int count, char **words)
{
    void (*first)(void) = nothing;
    if (count != 2)
        return 2;
    /* What the C library loads to end a thread is open from here on. */
    in_thread(make_call, &first);
    root = sure(open(words[1], O_PATH | O_DIRECTORY | O_CLOEXEC), words[1]);
    proc = sure(open("/proc", O_PATH | O_DIRECTORY | O_CLOEXEC), "/proc");
    make_tree(root);
    apart(each_call);
    apart(handed_in_twice);
    printf("ends: %d not as they are to be\n", wrong);
    return wrong != 0;
}
