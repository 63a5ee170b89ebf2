/*
 * program.c: what is kept of the program and of a thread from one call to the next: the /proc by which the library goes, and
 * whether the thread has seen that the kernel has what the library needs. What they are for, the proved library says
 * (crates/find_proc).
 */
#define _GNU_SOURCE
#include "driver.h"

#include <errno.h>
#include <stdatomic.h>

/*
 * Stand in place of the program's descriptor while another thread makes out which one it is. In a child that is made just then they
 * stay: so the second says that the program was handing one in.
 */
enum { NONE = -1, CLAIMED = -5, HANDED_IN = -6 };

/* The program's descriptor. The others are written before it, once, by the thread that has claimed the place. */
static atomic_int kept = NONE;
static struct inroot_proc_file kept_file;
static bool was_handed_in;

static _Thread_local bool has_floor;

void inroot_program_known(struct inroot_known *known)
{
    const int now = atomic_load(&kept);
    known->kept = (struct inroot_proc_kept){
        .fd = (uint32_t)now, .there = now >= 0, .handed_in = now == HANDED_IN || (now >= 0 && was_handed_in),
        .claimed = now != NONE,
    };
    if (now >= 0)
        known->kept.file = kept_file;
    known->has_floor = has_floor;
}

static long claim(int as)
{
    int nothing = NONE;
    errno = EBUSY;
    return atomic_compare_exchange_strong(&kept, &nothing, as) ? 0 : -1;
}

static long keep(const struct inroot_due *due)
{
    kept_file = (struct inroot_proc_file){.device = due->number, .inode = due->resolve, .mount = due->mount};
    was_handed_in = due->mode;
    atomic_store(&kept, (int)due->fd);
    return 0;
}

long inroot_program_does(const struct inroot_due *due)
{
    switch (due->what) {
    case INROOT_DUE_CLAIM: return claim(due->fd ? HANDED_IN : CLAIMED);
    case INROOT_DUE_KEEP: return keep(due);
    case INROOT_DUE_RELEASE: atomic_store(&kept, NONE); return 0;
    /* INROOT_DUE_KNOW */
    default: has_floor = due->fd; return 0;
    }
}
