/*
 * user_namespace: a program in a user namespace of its own has no right over the mounts of another's mount namespace. So
 * inroot_use_private_proc() makes no proc(5) there: it gives EPERM, and calls go by /proc.
 *
 * usage: user_namespace DIR. Exits 0 where that holds. 78: no user namespace may be made here, as in a thread whose root directory
 * isn't that of its mount namespace.
 */
#define _GNU_SOURCE
#include "support.h"


static int box;

static void without_the_mounts(void)
{
    if (unshare(CLONE_NEWUSER) != 0)
        _exit(NO_RIGHT);
    gives(inroot_use_private_proc(), -EPERM, "one in another's mount namespace");
    gives_object(inroot_open(box, "a/f", 0), box, "a/f", "a file by /proc then");
}

int main(int count, char **words)
{
    int base;
    begin_in_box(count, words, &base, &box);
    sure(mkdirat(box, "a", 0755), "a");
    close(sure(openat(box, "a/f", O_WRONLY | O_CREAT | O_EXCL | O_CLOEXEC, 0644), "a/f"));
    int skipped = apart(without_the_mounts);
    printf("user_namespace: %d not as they are to be\n", wrong);
    return wrong != 0 ? 1 : skipped;
}
