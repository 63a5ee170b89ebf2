/*
 * arm64.c: the first process of the kernel that checks/arm64 boots. It runs the lines of /tests, each as a command in a
 * directory of its own, and prints `test STATUS SECONDS LINE` once the command has ended, after its output. Then the
 * machine is off.
 */
#define _GNU_SOURCE
#include <errno.h>
#include <fcntl.h>
#include <signal.h>
#include <stdio.h>
#include <stdlib.h>
#include <string.h>
#include <sys/mount.h>
#include <sys/reboot.h>
#include <sys/stat.h>
#include <sys/syscall.h>
#include <sys/wait.h>
#include <time.h>
#include <unistd.h>

enum { WORDS = 8, LIMIT = 900 };

static void mount_at(const char *type, const char *at, const char *options)
{
    if ((mkdir(at, 0755) != 0 && errno != EEXIST) || mount(type, at, type, 0, options) != 0)
        printf("arm64: %s is not mounted at %s: %s\n", type, at, strerror(errno));
}

static void load(const char *module)
{
    int fd = open(module, O_RDONLY | O_CLOEXEC);
    if (fd < 0)
        return;
    if (syscall(SYS_finit_module, fd, "", 0) != 0)
        printf("arm64: %s is not loaded: %s\n", module, strerror(errno));
    close(fd);
}

/* The command's name stands below /bin; what it is given comes behind its directory. */
static void become(char *line, const char *at)
{
    char path[256], *words[WORDS + 3] = {path};
    int count = 1;
    char *word = strtok(line, " ");
    snprintf(path, sizeof path, "/bin/%s", word);
    words[count++] = strdup(at);
    while (count < WORDS && (word = strtok(NULL, " ")))
        words[count++] = word;
    execv(path, words);
    printf("arm64: %s: %s\n", path, strerror(errno));
    _exit(127);
}

/* How it ended, as a shell tells it. */
static int status_of(pid_t child)
{
    int status;
    while (waitpid(child, &status, 0) < 0)
        if (errno != EINTR)
            return 255;
    return WIFEXITED(status) ? WEXITSTATUS(status) : 128 + WTERMSIG(status);
}

static void run(const char *line, const char *at)
{
    char copy[256];
    time_t start = time(NULL);
    snprintf(copy, sizeof copy, "%s", line);
    if (mkdir(at, 0755) != 0)
        printf("arm64: %s: %s\n", at, strerror(errno));
    fflush(stdout);
    pid_t child = fork();
    if (child == 0) {
        alarm(LIMIT);
        become(copy, at);
    }
    int status = child < 0 ? 255 : status_of(child);
    printf("\ntest %d %ld %s\n", status, (long)(time(NULL) - start), line);
    fflush(stdout);
}

int main(void)
{
    char line[256], at[64];
    unsigned int number = 0;
    mount_at("proc", "/proc", NULL);
    mount_at("sysfs", "/sys", NULL);
    mount_at("devtmpfs", "/dev", NULL);
    mount_at("tmpfs", "/dev/shm", NULL);
    mount_at("tmpfs", "/tmp", NULL);
    load("/overlay.ko");
    setenv("INROOT_FUZZ_DIR", "/tmp", 1);
    FILE *tests = fopen("/tests", "re");
    while (tests && fgets(line, sizeof line, tests)) {
        line[strcspn(line, "\n")] = '\0';
        snprintf(at, sizeof at, "/tmp/%u", ++number);
        run(line, at);
    }
    puts("arm64: all were run");
    fflush(stdout);
    sync();
    reboot(RB_POWER_OFF);
    for (;;)
        pause();
}
