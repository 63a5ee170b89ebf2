/*
 * fuzz_main: runs stored cases where there is no libFuzzer. Each line of the file is a case, in hexadecimal digits.
 *
 * usage: PROGRAM CASES [LINE]    the case of this line alone
 */
#include <stdint.h>
#include <stdio.h>
#include <stdlib.h>
#include <string.h>

int LLVMFuzzerTestOneInput(const uint8_t *data, size_t size);

/* In a block of its own size, so that a step over its end is seen. */
static int run(const char *digits, size_t size)
{
    uint8_t *data = malloc(size + 1);
    if (data == NULL)
        return 0;
    for (size_t at = 0; at < size; at++)
        if (sscanf(digits + 2 * at, "%2hhx", &data[at]) != 1) {
            free(data);
            return 0;
        }
    LLVMFuzzerTestOneInput(data, size);
    free(data);
    return 1;
}

int main(int count, char **words)
{
    static char line[1 << 20];
    const unsigned long only = count > 2 ? strtoul(words[2], NULL, 10) : 0;
    unsigned long read = 0, done = 0;
    FILE *file = count > 1 ? fopen(words[1], "r") : NULL;
    if (file == NULL) {
        perror("fuzz_main");
        return 2;
    }
    while (fgets(line, sizeof line, file) != NULL) {
        const size_t length = strcspn(line, "\n");
        read++;
        if (only != 0 && only != read)
            continue;
        if (length % 2 != 0 || !run(line, length / 2)) {
            fprintf(stderr, "fuzz_main: line %lu is no case\n", read);
            return 2;
        }
        done++;
    }
    fclose(file);
    printf("%lu cases\n", done);
    return done == 0;
}
