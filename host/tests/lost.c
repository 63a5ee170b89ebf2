/*
 * lost: loses memory in a part of a test, which ends by _exit(2); with a word, in a chroot. checks/host looks whether the
 * sanitizer for leaks sees it.
 *
 * usage: lost [chroot]    ends with status 1 where it is seen, 78 where there is no right to a chroot, and 0 else
 */
#define _GNU_SOURCE
#include "support.h"

static void lose(void)
{
    for (int at = 0; at < 9; at++)
        *(volatile char *)malloc(9) = 0;
}

static void lose_in_chroot(void)
{
    chroot_or_end(sure(open("/sys", O_PATH | O_DIRECTORY | O_CLOEXEC), "/sys"));
    lose();
}

int main(int count, char **words)
{
    (void)words;
    int skipped = apart(count == 1 ? lose : lose_in_chroot);
    return skipped != 0 ? skipped : wrong;
}
