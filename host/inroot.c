/* inroot.c: the calls of inroot.h. Each one is a demand that the proved library makes (crates/linux_call). */
#define _GNU_SOURCE
#include "driver.h"

#include <string.h>

const char *inroot_version(void)
{
    return INROOT_VERSION;
}

/* A call on a path, or on two. */
static struct inroot_call on_path(enum inroot_do what, int root, const char *path, int flags)
{
    return (struct inroot_call){
        .demand = {.what = (uint8_t)what, .root = (uint32_t)root, .flags = (uint32_t)flags}, .first = path,
    };
}

int inroot_open(int root, const char *path, int flags)
{
    struct inroot_call call = on_path(INROOT_DO_RESOLVE, root, path, flags);
    return (int)inroot_exchange(&call);
}

int inroot_openat(int root, const char *path, int open_flags, mode_t mode, int flags)
{
    struct inroot_call call = on_path(INROOT_DO_OPEN_AT, root, path, flags);
    call.demand.how = (uint32_t)open_flags;
    call.demand.mode = mode;
    return (int)inroot_exchange(&call);
}

int inroot_stat(int root, const char *path, struct stat *about, int flags)
{
    struct inroot_call call = on_path(INROOT_DO_STATUS, root, path, flags);
    call.about = about;
    return (int)inroot_exchange(&call);
}

ssize_t inroot_readlink(int root, const char *path, int flags, char *text, size_t size)
{
    struct inroot_call call = on_path(INROOT_DO_READ_LINK, root, path, flags);
    call.text = text;
    call.size = size;
    return (ssize_t)inroot_exchange(&call);
}

int inroot_mkdir(int root, const char *path, mode_t mode, int flags)
{
    struct inroot_call call = on_path(INROOT_DO_MKDIR, root, path, flags);
    call.demand.mode = mode;
    return (int)inroot_exchange(&call);
}

int inroot_mknod(int root, const char *path, mode_t mode, dev_t dev, int flags)
{
    struct inroot_call call = on_path(INROOT_DO_MAKE_NODE, root, path, flags);
    call.demand.mode = mode;
    call.demand.device = dev;
    return (int)inroot_exchange(&call);
}

int inroot_symlink(int root, const char *text, const char *path, int flags)
{
    struct inroot_call call = on_path(INROOT_DO_SYMLINK, root, path, flags);
    call.second = text;
    return (int)inroot_exchange(&call);
}

int inroot_unlink(int root, const char *path, int flags)
{
    struct inroot_call call = on_path(INROOT_DO_UNLINK, root, path, flags);
    return (int)inroot_exchange(&call);
}

int inroot_rmdir(int root, const char *path, int flags)
{
    struct inroot_call call = on_path(INROOT_DO_RMDIR, root, path, flags);
    return (int)inroot_exchange(&call);
}

int inroot_rename(int root, const char *from, const char *to, int mode, int flags)
{
    struct inroot_call call = on_path(INROOT_DO_RENAME, root, from, flags);
    call.second = to;
    call.demand.how = (uint32_t)mode;
    return (int)inroot_exchange(&call);
}

ssize_t inroot_remove_all(int root, const char *path, int flags)
{
    struct inroot_call call = on_path(INROOT_DO_REMOVE_ALL, root, path, flags);
    return (ssize_t)inroot_exchange(&call);
}

int inroot_mkdir_all(int root, const char *path, mode_t mode, int flags)
{
    struct inroot_call call = on_path(INROOT_DO_MAKE_DIRECTORIES, root, path, flags);
    call.demand.mode = mode;
    return (int)inroot_exchange(&call);
}

int inroot_mkfile_all(int root, const char *path, mode_t mode, mode_t above, int flags)
{
    struct inroot_call call = on_path(INROOT_DO_MAKE_FILE, root, path, flags);
    call.demand.mode = mode;
    call.demand.above = above;
    return (int)inroot_exchange(&call);
}

int inroot_link(int root, const char *existing, const char *path, int flags)
{
    struct inroot_call call = on_path(INROOT_DO_LINK, root, existing, flags);
    call.second = path;
    return (int)inroot_exchange(&call);
}

int inroot_link_fd(int root, int fd, const char *path, int flags)
{
    struct inroot_call call = on_path(INROOT_DO_LINK_OBJECT, root, path, flags);
    call.demand.fd = (uint32_t)fd;
    return (int)inroot_exchange(&call);
}

int inroot_open_parent(int root, const char *path, int flags, char last[256])
{
    struct inroot_call call = on_path(INROOT_DO_OPEN_PARENT, root, path, flags);
    char name[256] = "";
    call.name = name;
    const int dir = (int)inroot_exchange(&call);
    /* LAST may be the room of PATH. */
    strcpy(last, name);
    return dir;
}

ssize_t inroot_place(int root, int fd, char *path, size_t size)
{
    struct inroot_call call = on_path(INROOT_DO_PLACE, root, NULL, 0);
    call.demand.fd = (uint32_t)fd;
    call.demand.size = size;
    call.text = path;
    call.size = size;
    const ssize_t length = (ssize_t)inroot_exchange(&call);
    if (length >= 0)
        path[length] = 0;
    return length;
}

/* ---- on an object that was found, by its descriptor */

static struct inroot_call on(enum inroot_do what, int fd)
{
    return (struct inroot_call){.demand = {.what = (uint8_t)what, .fd = (uint32_t)fd}};
}

int inroot_reopen(int fd, int open_flags)
{
    struct inroot_call call = on(INROOT_DO_REOPEN, fd);
    call.demand.how = (uint32_t)open_flags;
    return (int)inroot_exchange(&call);
}

int inroot_fchmod(int fd, mode_t mode)
{
    struct inroot_call call = on(INROOT_DO_CHANGE_MODE, fd);
    call.demand.mode = mode;
    return (int)inroot_exchange(&call);
}

int inroot_fchown(int fd, uid_t user, gid_t group)
{
    struct inroot_call call = on(INROOT_DO_CHANGE_OWNER, fd);
    call.demand.user = user;
    call.demand.group = group;
    return (int)inroot_exchange(&call);
}

int inroot_futimens(int fd, const struct timespec *times)
{
    const struct timespec now = {.tv_nsec = UTIME_NOW};
    const struct timespec own[2] = {times == NULL ? now : times[0], times == NULL ? now : times[1]};
    struct inroot_call call = on(INROOT_DO_CHANGE_TIMES, fd);
    call.demand.accessed = (uint64_t)own[0].tv_nsec;
    call.demand.changed = (uint64_t)own[1].tv_nsec;
    call.times = own;
    return (int)inroot_exchange(&call);
}

static ssize_t act(int fd, enum inroot_do what, const char *name, void *value, size_t size, int flags)
{
    struct inroot_call call = on(what, fd);
    call.demand.how = (uint32_t)flags;
    call.demand.size = size;
    call.attribute = name;
    call.value = value;
    return (ssize_t)inroot_exchange(&call);
}

int inroot_fsetxattr(int fd, const char *name, const void *value, size_t size, int flags)
{
    return (int)act(fd, INROOT_DO_SET_ATTRIBUTE, name, (void *)(uintptr_t)value, size, flags);
}

ssize_t inroot_fgetxattr(int fd, const char *name, void *value, size_t size)
{
    return act(fd, INROOT_DO_GET_ATTRIBUTE, name, value, size, 0);
}

ssize_t inroot_flistxattr(int fd, char *names, size_t size)
{
    return act(fd, INROOT_DO_LIST_ATTRIBUTES, NULL, names, size, 0);
}

int inroot_fremovexattr(int fd, const char *name)
{
    return (int)act(fd, INROOT_DO_REMOVE_ATTRIBUTE, name, NULL, 0, 0);
}

/* ---- a /proc */

int inroot_use_proc(int proc)
{
    struct inroot_call call = on(INROOT_DO_USE_PROC, proc);
    return (int)inroot_exchange(&call);
}

int inroot_use_private_proc(void)
{
    struct inroot_call call = on(INROOT_DO_USE_PRIVATE_PROC, 0);
    return (int)inroot_exchange(&call);
}

int inroot_proc_open(int base, const char *path, int open_flags)
{
    struct inroot_call call = on(INROOT_DO_PROC_OPEN, base);
    call.first = path;
    call.demand.how = (uint32_t)open_flags;
    return (int)inroot_exchange(&call);
}

ssize_t inroot_proc_readlink(int base, const char *path, char *text, size_t size)
{
    struct inroot_call call = on(INROOT_DO_PROC_READ_LINK, base);
    call.first = path;
    call.text = text;
    call.size = size;
    return (ssize_t)inroot_exchange(&call);
}
