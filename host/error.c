/* error.c: why a thread's last call failed, for whoever wants to print it. */
#undef _GNU_SOURCE      /* strerror_r(3) is then that of POSIX, in each C library */
#include "driver.h"
#include "error_name.h"

#include <errno.h>
#include <stdio.h>
#include <string.h>

static _Thread_local struct inroot_error last = {.step = ""};

/* A step, by its number (crates/kernel_calls/src/steps.rt); what a call can't do that fails there; and to what, if no name is told. */
static const struct {
    const char *name, *act, *object;
} steps[] = {
    {"", "", ""}, {"Open", "look up", " the path"}, {"Dup", "copy the root's descriptor", ""}, {"Parent", "go up", ""},
    {"ReadLink", "read the link", ""}, {"NameBelow", "find the object's place", ""}, {"List", "list the directory", ""},
    {"Close", "close a descriptor", ""}, {"MakeDir", "make the directory", ""}, {"MakeFile", "make the file", ""},
    {"MakeLink", "make the link", ""}, {"RemoveFile", "remove", " the entry"},
    {"RemoveDir", "remove the directory", ""}, {"Rename", "rename", " the entry"}, {"Kernel", "", ""},
    {"Give", "open the new entry", ""}, {"Reopen", "open", " the object"},
    {"Attribute", "use the object's attributes", ""}, {"Proc", "use the file of /proc", ""},
    {"Stat", "look at the object", ""},
};

/* What an error means at a step, or at each other one (NULL). What isn't here means what strerror(3) says. */
static const struct {
    int error;
    const char *step, *words;
} meanings[] = {
    {ENOSYS, "Kernel", "the kernel lacks openat2(2) or the number of mounts, or a filter refuses them"},
    {ENOSYS, NULL, "there is no proc(5) to go by"},
    {EINVAL, "", "an argument isn't valid: a flag, a mode, or a path that ends in no name"},
    {EINVAL, "ReadLink", "it isn't a link"},
    {EINVAL, "Proc", "it isn't a link"},
    {EBADF, NULL, "a descriptor isn't open"},
    {EBUSY, "", "the library has a proc(5) already"},
    {ENOENT, "", "the path is empty"},
    {ENOTDIR, "", "a descriptor isn't that of a directory, or a path ends in a slash"},
    {ENAMETOOLONG, NULL, "a path has more than 4,095 bytes, or a name more than 255"},
    {EXDEV, "Proc", "it leads out, or something is mounted over it"},
    {EXDEV, "", "the path leads out of the root or to another mount"},
    {EXDEV, "NameBelow", "it isn't below the root, or is on another mount"},
    {EXDEV, NULL, "it leads out of the root or to another mount"},
    {EISDIR, "", "a directory is there"},
    {ELOOP, NULL, "too many links, or one that the call doesn't follow"},
    {EEXIST, "Rename", "the other name is there already"},
    {EEXIST, NULL, "it is there already"},
    {EAGAIN, "Give", "others moved or replaced it meanwhile"},
    {EAGAIN, "NameBelow", "others moved or removed it at each try, or its name ends in ` (deleted)`"},
    {EAGAIN, "Reopen", "others made and removed it at each try, or the system call would wait"},
    {EAGAIN, NULL, "others renamed or removed entries at each try"},
    {ERANGE, "", "the text doesn't fit"},
    {ERANGE, NULL, "it doesn't fit, or the attribute's name is empty or too long"},
    {ENODATA, NULL, "there is no such attribute"},
};

enum { STEPS = sizeof steps / sizeof *steps, MEANINGS = sizeof meanings / sizeof *meanings };

/* The proved library compares errors with these numbers. */
_Static_assert(EPERM == 1 && ENOENT == 2 && EINTR == 4 && EIO == 5 && EBADF == 9 && EAGAIN == 11 && ENOMEM == 12 &&
               EACCES == 13 && EBUSY == 16 && EEXIST == 17 && EXDEV == 18 && ENOTDIR == 20 && EISDIR == 21 &&
               EINVAL == 22 && ENFILE == 23 && EMFILE == 24 && ERANGE == 34 && ENAMETOOLONG == 36 && ENOSYS == 38 &&
               ENOTEMPTY == 39 && ELOOP == 40 && EOPNOTSUPP == 95 && ESTALE == 116,
               "the numbers of crates/system_calls");

/* As much of the name as fits. */
void inroot_error_keep(int error, unsigned step, const char *name)
{
    const size_t length = strnlen(name, sizeof last.name - 1);
    last.error = error;
    last.step = steps[step < STEPS ? step : 0].name;
    memcpy(last.name, name, length);
    last.name[length] = 0;
}

int inroot_last_error(struct inroot_error *error)
{
    if (last.error == 0)
        return -ENODATA;
    *error = last;
    return 0;
}

/* In quotes, so that a line of a log holds it. */
static void quote(const char *name, char *quoted)
{
    quoted += sprintf(quoted, " \"");
    for (; *name != 0; name++) {
        const unsigned byte = (unsigned char)*name;
        const bool plain = byte >= ' ' && byte <= '~' && byte != '"' && byte != '\\';
        quoted += sprintf(quoted, plain ? "%c" : "\\%03o", byte);
    }
    strcpy(quoted, "\"");
}

static const char *meaning(char *room, size_t size)
{
    size_t at = 0;
    while (at < MEANINGS && (meanings[at].error != last.error ||
                             (meanings[at].step != NULL && strcmp(meanings[at].step, last.step) != 0)))
        at++;
    if (at < MEANINGS)
        return meanings[at].words;
    strerror_r(last.error, room, size);
    return room;
}

int inroot_last_error_text(char *text, size_t size)
{
    char quoted[4 * sizeof last.name + 4], room[128] = "";
    size_t step = 0;
    if (last.error == 0)
        return -ENODATA;
    while (step < STEPS - 1 && strcmp(steps[step].name, last.step) != 0)
        step++;
    const bool acts = steps[step].act[0] != 0;
    strcpy(quoted, steps[step].object);
    if (acts && last.name[0] != 0)
        quote(last.name, quoted);
    return snprintf(text, size, "%s%s%s%s%s (%s)", acts ? "can't " : "", steps[step].act, quoted, acts ? ": " : "",
                    meaning(room, sizeof room), error_name(last.error));
}
