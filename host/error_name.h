/* error_name.h: the names of errors: strerrorname_np(3) is of one C library alone. */
#ifndef INROOT_ERROR_NAME_H
#define INROOT_ERROR_NAME_H

#include <errno.h>
#include <stdio.h>

/* The name of an error, or its number as a text where it has none here. */
static inline const char *error_name(int error)
{
    static _Thread_local char number[16];
#define NAME(error) {error, #error}
    static const struct {
        int error;
        const char *name;
    } names[] = {
        NAME(EPERM), NAME(ENOENT), NAME(EINTR), NAME(EIO), NAME(ENXIO), NAME(EBADF), NAME(EAGAIN), NAME(ENOMEM), NAME(EACCES),
        NAME(EBUSY), NAME(EEXIST), NAME(EXDEV), NAME(ENODEV), NAME(ENOTDIR), NAME(EISDIR), NAME(EINVAL), NAME(ENFILE),
        NAME(EMFILE), NAME(ETXTBSY), NAME(EFBIG), NAME(ENOSPC), NAME(EROFS), NAME(EMLINK), NAME(ENAMETOOLONG), NAME(ENOSYS),
        NAME(ENOTEMPTY), NAME(ELOOP), NAME(EOVERFLOW), NAME(EOPNOTSUPP), NAME(ETIMEDOUT), NAME(ESTALE), NAME(EDQUOT),
        NAME(EUCLEAN), NAME(EREMOTEIO), NAME(ENODATA), NAME(E2BIG), NAME(ESRCH), NAME(ERANGE),
    };
#undef NAME
    for (size_t at = 0; at < sizeof names / sizeof *names; at++)
        if (names[at].error == error)
            return names[at].name;
    snprintf(number, sizeof number, "%d", error);
    return number;
}

#endif
