/* Loaded before a program (LD_PRELOAD), lets one of its requests to the machine fail, and counts its memory.
 *
 *   FAULT_MEMORY=N   the N-th request for memory (malloc, calloc, realloc, posix_memalign, aligned_alloc) is refused
 *   FAULT_THREAD=N   the N-th thread isn't made (EAGAIN)
 *   FAULT_READ=N     the N-th read fails with EIO
 *   FAULT_WRITE=N    the N-th write fails with ENOSPC
 *   FAULT_KIND       of a read or a write: fail (as above), interrupt (EINTR), or short (it moves one byte)
 *   FAULT_LAST=M     the M-th is the last that fails; without it only the N-th fails
 *   FAULT_LOG        the file for the line that tells, at the end: how many requests for memory, reads and writes
 *                    there were, how many failed, how many blocks of memory were not freed, the most memory that was
 *                    resident, in KB, and how many threads were asked for
 *   FAULT_PLAIN      memory is not filled: for a checker of memory under which the program runs, and to measure
 *
 * Memory is filled when it is given and when it is freed, and each realloc moves, so that a program that reads what it
 * did not write, or what it has freed, is likely to answer otherwise. What is counted is counted over all threads. */
#define _GNU_SOURCE
#include <dlfcn.h>
#include <errno.h>
#include <fcntl.h>
#include <malloc.h>
#include <pthread.h>
#include <stdio.h>
#include <stdlib.h>
#include <string.h>
#include <sys/resource.h>
#include <sys/syscall.h>
#include <unistd.h>

/* glibc's own, which these stand before; and what frees the memory that it keeps for itself. */
extern void *__libc_malloc(size_t);
extern void *__libc_calloc(size_t, size_t);
extern void *__libc_realloc(void *, size_t);
extern void *__libc_memalign(size_t, size_t);
extern void __libc_free(void *);
extern void __libc_freeres(void);

enum { GIVEN = 0xa5, FREED = 0xdb };

/* What is counted, and which of it fails. */
struct fault {
    unsigned long count, first, last;
};

static struct fault memory, threads, reads, writes;
static unsigned long failed;
static long live;
static int is_begun, is_plain;
static const char *kind = "fail";

static unsigned long number(const char *name) {
    const char *text = getenv(name);
    return text ? strtoul(text, NULL, 10) : 0;
}

static void set(struct fault *fault, const char *name) {
    unsigned long last = number("FAULT_LAST");
    fault->count = 0;
    fault->first = number(name);
    fault->last = last > fault->first ? last : fault->first;
}

static int fails(struct fault *fault) {
    unsigned long count = __atomic_add_fetch(&fault->count, 1, __ATOMIC_SEQ_CST);
    if (!is_begun || !fault->first || count < fault->first || count > fault->last) return 0;
    __atomic_add_fetch(&failed, 1, __ATOMIC_SEQ_CST);
    return 1;
}

static void lives(long more) { __atomic_add_fetch(&live, more, __ATOMIC_SEQ_CST); }

__attribute__((constructor)) static void begin(void) {
    set(&memory, "FAULT_MEMORY");
    set(&threads, "FAULT_THREAD");
    set(&reads, "FAULT_READ");
    set(&writes, "FAULT_WRITE");
    if (getenv("FAULT_KIND")) kind = getenv("FAULT_KIND");
    is_plain = getenv("FAULT_PLAIN") != NULL;
    failed = 0;
    live = 0;
    is_begun = 1;
}

__attribute__((destructor)) static void tell(void) {
    const char *log = getenv("FAULT_LOG");
    struct rusage usage;
    char line[200];
    int length, file;
    if (!is_begun) return;
    is_begun = 0;
    if (!log || (file = open(log, O_WRONLY | O_CREAT | O_TRUNC, 0600)) < 0) return;
    getrusage(RUSAGE_SELF, &usage);
    /* A thread that ended leaves its table to the next one. */
    if (threads.count) __libc_freeres();
    length = snprintf(line, sizeof line, "%lu %lu %lu %lu %ld %ld %lu\n", memory.count, reads.count, writes.count,
                      failed, live, usage.ru_maxrss, threads.count);
    syscall(SYS_write, file, line, (size_t)length);
    close(file);
}

/* A program that may start threads ends by this. */
void _exit(int status) {
    tell();
    for (;;) syscall(SYS_exit_group, status);
}

/* ---- memory */

static void *given(void *block, size_t size) {
    if (!block) return NULL;
    lives(1);
    if (!is_plain) memset(block, GIVEN, size);
    return block;
}

static void *refused(void) {
    errno = ENOMEM;
    return NULL;
}

void *malloc(size_t size) { return fails(&memory) ? refused() : given(__libc_malloc(size), size); }

void *calloc(size_t count, size_t size) {
    void *block = fails(&memory) ? refused() : __libc_calloc(count, size);
    if (block) lives(1);
    return block;
}

void *aligned_alloc(size_t align, size_t size) {
    return fails(&memory) ? refused() : given(__libc_memalign(align, size), size);
}

void *memalign(size_t align, size_t size) { return aligned_alloc(align, size); }

int posix_memalign(void **to, size_t align, size_t size) {
    void *block = aligned_alloc(align, size);
    if (!block) return ENOMEM;
    *to = block;
    return 0;
}

void free(void *block) {
    if (!block) return;
    lives(-1);
    if (!is_plain) memset(block, FREED, malloc_usable_size(block));
    __libc_free(block);
}

void *realloc(void *old, size_t size) {
    void *block;
    size_t kept;
    if (fails(&memory)) return refused();
    if (is_plain && old) return __libc_realloc(old, size);
    block = given(__libc_malloc(size), size);
    if (!block || !old) return block;
    kept = malloc_usable_size(old);
    memcpy(block, old, kept < size ? kept : size);
    free(old);
    return block;
}

/* ---- threads */

int pthread_create(pthread_t *thread, const pthread_attr_t *attributes, void *(*run)(void *), void *argument) {
    int (*create)(pthread_t *, const pthread_attr_t *, void *(*)(void *), void *);
    if (fails(&threads)) return EAGAIN;
    *(void **)&create = dlsym(RTLD_NEXT, "pthread_create");
    return create ? create(thread, attributes, run, argument) : EAGAIN;
}

/* ---- reads and writes */

/* Whether it is to move one byte; a fault is -1. */
static int is_cut(struct fault *fault, int error) {
    if (!fails(fault)) return 0;
    if (!strcmp(kind, "short")) return 1;
    errno = strcmp(kind, "interrupt") ? error : EINTR;
    return -1;
}

ssize_t read(int file, void *to, size_t size) {
    int cut = is_cut(&reads, EIO);
    return cut < 0 ? -1 : syscall(SYS_read, file, to, cut && size > 1 ? 1 : size);
}

ssize_t write(int file, const void *from, size_t size) {
    int cut = is_cut(&writes, ENOSPC);
    return cut < 0 ? -1 : syscall(SYS_write, file, from, cut && size > 1 ? 1 : size);
}

ssize_t __write(int file, const void *from, size_t size) { return write(file, from, size); }
