/* Counts what a program that it is loaded before (LD_PRELOAD) asks for between its last two readings of the clock:
 * requests for memory (calls of malloc, calloc and realloc), the most bytes that it held above those held at the first
 * reading, and by how many bytes its resident memory (proc(5), statm) was larger at the second. The three are the last
 * line of standard error. */
#define _GNU_SOURCE
#include <dlfcn.h>
#include <malloc.h>
#include <stdio.h>
#include <stdlib.h>
#include <sys/syscall.h>
#include <time.h>
#include <unistd.h>

/* What is counted since a reading of the clock. */
struct span {
    unsigned long requests;
    long most;
    long resident;
};

static long held;
static long held_at_reading;
static long resident_at_reading;
static struct span now;
static struct span last;

/* glibc's own, which these stand before. */
extern void *__libc_malloc(size_t);
extern void *__libc_calloc(size_t, size_t);
extern void *__libc_realloc(void *, size_t);
extern void __libc_free(void *);

static void hold(void *place) {
    if (!place) return;
    held += (long)malloc_usable_size(place);
    if (held - held_at_reading > now.most) now.most = held - held_at_reading;
}

static void let_go(void *place) {
    if (place) held -= (long)malloc_usable_size(place);
}

void *malloc(size_t size) {
    void *place = __libc_malloc(size);
    now.requests++;
    hold(place);
    return place;
}

void *calloc(size_t count, size_t size) {
    void *place = __libc_calloc(count, size);
    now.requests++;
    hold(place);
    return place;
}

void *realloc(void *old, size_t size) {
    now.requests++;
    let_go(old);
    void *place = __libc_realloc(old, size);
    /* One that was refused leaves the old one. */
    hold(place || !size ? place : old);
    return place;
}

void free(void *place) {
    let_go(place);
    __libc_free(place);
}

static long resident(void) {
    long pages = 0, all = 0;
    FILE *file = fopen("/proc/self/statm", "r");
    if (!file) return 0;
    if (fscanf(file, "%ld %ld", &all, &pages) != 2) pages = 0;
    fclose(file);
    return pages * sysconf(_SC_PAGESIZE);
}

/* A reading ends one span and begins the next. */
int clock_gettime(clockid_t clock, struct timespec *to) {
    last = now;
    long pages = resident();
    last.resident = pages - resident_at_reading;
    resident_at_reading = pages;
    held_at_reading = held;
    now = (struct span){0, 0, 0};
    return (int)syscall(SYS_clock_gettime, clock, to);
}

__attribute__((destructor)) static void tell(void) {
    fprintf(stderr, "%lu %ld %ld\n", last.requests, last.most, last.resident);
}

/* A program that may have threads ends so, past the destructors. */
void _exit(int status) {
    tell();
    for (;;) syscall(SYS_exit_group, status);
}
