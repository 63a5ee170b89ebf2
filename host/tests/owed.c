/*
 * owed: looks, at each turn of a call, for what the proved library asks of C (../calls.h). This function stands between the driver
 * and the library's own, which is called proved_turn then. Whoever owes something is told so, and ended by abort(3). It is for the
 * address sanitizer.
 */
#define _GNU_SOURCE
#include "../calls.h"

#include <errno.h>
#include <fcntl.h>
#include <limits.h>
#include <sanitizer/asan_interface.h>
#include <stdio.h>
#include <stdlib.h>
#include <string.h>

enum { PATH_SIZE = 4097, ERROR_MAX = 4095 };

void proved_turn(struct inroot_demand *demand, struct inroot_state *state, unsigned char *first, size_t first_size,
                 const unsigned char *second, size_t second_length, unsigned char *read, size_t read_size,
                 struct inroot_gave *answers, size_t count, struct inroot_due *due, unsigned char *room, size_t size);

static void must(bool holds, const char *what)
{
    if (holds)
        return;
    fprintf(stderr, "inroot_turn: its caller owes this: %s\n", what);
    abort();
}

/* ---- what the arguments point to */

struct span {
    const void *at;
    size_t size, aligned;
    bool is_written;
};

/* An address of bytes that are none counts, too. */
static bool is_apart(const struct span *one, const struct span *other)
{
    const uintptr_t a = (uintptr_t)one->at, b = (uintptr_t)other->at;
    return one->size == 0 || other->size == 0 || a + one->size <= b || b + other->size <= a;
}

/* The sanitizer knows which bytes are a variable's or a block's. */
static bool is_there(const struct span *span)
{
    return span->at != NULL && (uintptr_t)span->at % span->aligned == 0 &&
           (span->size == 0 || __asan_region_is_poisoned((void *)(uintptr_t)span->at, span->size) == NULL);
}

static void must_lie_apart(const struct span *spans, size_t count)
{
    for (size_t one = 0; one < count; one++) {
        must(is_there(&spans[one]), "so many bytes at a place for them");
        for (size_t other = 0; other < count; other++)
            must(one == other || !spans[one].is_written || is_apart(&spans[one], &spans[other]),
                 "what is written is no other argument's");
    }
}

static void must_be_bool(const void *at)
{
    unsigned char byte;
    memcpy(&byte, at, sizeof byte);
    must(byte <= 1, "a bool of 0 or 1");
}

/* checks/boundary looks whether these are all. */
static void must_have_bools(const struct inroot_demand *demand, const struct inroot_due *due)
{
    must_be_bool(&demand->known.kept.there);
    must_be_bool(&demand->known.kept.handed_in);
    must_be_bool(&demand->known.kept.claimed);
    must_be_bool(&demand->known.has_floor);
    must_be_bool(&demand->opens);
    must_be_bool(&demand->linked);
    must_be_bool(&demand->gives);
    must_be_bool(&demand->directory);
    must_be_bool(&demand->asks_kind);
    must_be_bool(&due->again);
}

/* ---- from one turn to the next */

/* What the library has left of the calls that are under way in this thread. */
enum { CALLS = 4 };

static _Thread_local struct left {
    const struct inroot_state *at;
    struct inroot_state state;
    struct inroot_demand demand;
    struct inroot_due due;
    unsigned char first[PATH_SIZE], room[INROOT_ROOM];
} left[CALLS];

static struct left *left_of(const struct inroot_state *state)
{
    for (size_t one = 0; one < CALLS; one++)
        if (left[one].at == state)
            return &left[one];
    return NULL;
}

/* By a name that no test puts its own function in the place of. */
static bool is_open(uint32_t fd)
{
    const int error = errno;
    const bool is = fd <= INT_MAX && fcntl64((int)fd, F_GETFD) >= 0;
    errno = error;
    return is;
}

static bool opens(uint8_t what)
{
    return what == INROOT_DUE_OPENAT2 || what == INROOT_DUE_OPENAT || what == INROOT_DUE_DUPFD || what == INROOT_DUE_FSOPEN ||
           what == INROOT_DUE_FSMOUNT || what == INROOT_DUE_OPEN_TREE;
}

static void must_go_on(const struct left *last, const struct inroot_demand *demand, const struct inroot_state *state,
                       const unsigned char *first, const unsigned char *room)
{
    static const struct inroot_state begins;
    if (memcmp(state, &begins, sizeof begins) == 0)
        return;
    must(last != NULL, "a state that is zero before the first turn");
    must(memcmp(state, &last->state, sizeof *state) == 0 && memcmp(demand, &last->demand, sizeof *demand) == 0 &&
             memcmp(first, last->first, sizeof last->first) == 0 && memcmp(room, last->room, sizeof last->room) == 0,
         "what is left alone between two turns");
}

static void must_be_answered(const struct left *last, const struct inroot_gave *answers, size_t count)
{
    if (last == NULL)
        return;
    must(last->due.at < count, "as many answers as before");
    const struct inroot_gave *gave = &answers[last->due.at];
    must(gave->error <= ERROR_MAX, "an answer, with 0 or an error's number");
    must(gave->error != 0 || !opens(last->due.what) || is_open(gave->value), "a descriptor that is open");
}

/* An error that is none stands where the answer is to lie. */
static void leave(const struct inroot_demand *demand, const struct inroot_state *state, const unsigned char *first,
                  struct inroot_gave *answers, size_t count, const struct inroot_due *due, const unsigned char *room)
{
    const bool is_over = due->what >= INROOT_DUE_VALUE;
    struct left *place = left_of(state) != NULL ? left_of(state) : left_of(NULL);
    must(place != NULL && due->at < count, "a call within few others, and room for each answer");
    *place = (struct left){.at = is_over ? NULL : state, .state = *state, .due = *due};
    memcpy(&place->demand, demand, sizeof *demand);
    memcpy(place->first, first, sizeof place->first);
    memcpy(place->room, room, sizeof place->room);
    if (!is_over)
        answers[due->at].error = UINT32_MAX;
}

void inroot_turn(struct inroot_demand *demand, struct inroot_state *state, unsigned char *first, size_t first_size,
                 const unsigned char *second, size_t second_length, unsigned char *read, size_t read_size,
                 struct inroot_gave *answers, size_t count, struct inroot_due *due, unsigned char *room, size_t size)
{
    const struct span spans[] = {
        {demand, sizeof *demand, _Alignof(struct inroot_demand), true}, {state, sizeof *state, _Alignof(struct inroot_state), true},
        {first, first_size, 1, true}, {second, second_length, 1, false}, {read, read_size, 1, true},
        {answers, count * sizeof *answers, _Alignof(struct inroot_gave), true},
        {due, sizeof *due, _Alignof(struct inroot_due), true}, {room, size, 1, true},
    };
    must_lie_apart(spans, sizeof spans / sizeof *spans);
    must(first_size >= PATH_SIZE && read_size >= PATH_SIZE && size >= INROOT_ROOM && count > 0, "room enough");
    must(demand->length < first_size && *first == '/' && second_length > 0 && *second == '/', "a slash before each text");
    must_have_bools(demand, due);
    for (size_t at = 0; at < count; at++)
        must_be_bool(&answers[at].has_mount);
    const struct left *last = left_of(state);
    must_go_on(last, demand, state, first, room);
    must_be_answered(last, answers, count);
    proved_turn(demand, state, first, first_size, second, second_length, read, read_size, answers, count, due, room, size);
    leave(demand, state, first, answers, count, due, room);
}
