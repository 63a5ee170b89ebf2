/*
 * wrong_turns: that owed.c looks at each turn of a call for what the proved library asks of C. A wrong turn ends its process, and
 * the same turn as it is to be doesn't.
 *
 * usage: wrong_turns. Exits 0 where each is so.
 */
#define _GNU_SOURCE
#include "../calls.h"

#include <errno.h>
#include <limits.h>
#include <signal.h>
#include <stdio.h>
#include <string.h>
#include <sys/wait.h>
#include <unistd.h>

enum { ANSWERS = 8, PATH_SIZE = 4097 };

/* A call that opens `/a/b` below a root, and is asked for one look-up. */
static struct inroot_demand demand = {.what = INROOT_DO_RESOLVE, .length = 3, .root = 0};
static struct inroot_state state;
static unsigned char first[PATH_SIZE] = "/a/b", second[] = "/", read_to[PATH_SIZE];
static _Alignas(8) unsigned char room[INROOT_ROOM];
static struct inroot_gave answers[ANSWERS + 1];
static struct inroot_due due;

/* What a turn is made of, as it is to be. */
static struct {
    void *second, *read, *answers, *due;
    size_t first_size, second_size, read_size, count, size;
} with = {second, read_to, answers, &due, sizeof first, 1, sizeof read_to, ANSWERS, sizeof room};

/* Bytes that are others, before that turn: this number, or 0. */
struct row {
    const char *name;
    bool is_wrong;
    int turn;
    void *at;
    size_t size;
    uint64_t number;
};

static void turn(void)
{
    inroot_turn(&demand, &state, first, with.first_size, with.second, with.second_size, with.read, with.read_size, with.answers,
                with.count, with.due, room, with.size);
}

/* What is due fails, but where the row says otherwise. */
static void make(const struct row *row)
{
    for (int made = 1; made <= row->turn; made++) {
        if (made > 1)
            answers[due.at].error = ENOENT;
        if (made == row->turn && row->size <= sizeof row->number)
            memcpy(row->at, &row->number, row->size);
        else if (made == row->turn)
            memset(row->at, (int)row->number, row->size);
        turn();
    }
}

/* Whether the turn ends its process, in a child, whose words aren't shown. */
static bool is_refused(const struct row *row)
{
    int status = 0;
    pid_t child = fork();
    if (child == 0) {
        close(STDERR_FILENO);
        make(row);
        _exit(0);
    }
    return waitpid(child, &status, 0) == child && WIFSIGNALED(status) && WTERMSIG(status) == SIGABRT;
}

int main(void)
{
    const struct row rows[] = {
        {"a first turn", false, 1, &due, 0, 0},
        {"a pointer to nothing", true, 1, &with.second, 8, 0},
        {"more bytes than are there", true, 1, &with.read_size, 8, sizeof read_to + 1},
        {"answers that aren't aligned", true, 1, &with.answers, 8, (uintptr_t)answers + 1},
        {"what is read, in the room", true, 1, &with.read, 8, (uintptr_t)room},
        {"what is due, in the room", true, 1, &with.due, 8, (uintptr_t)room},
        {"a text in the other", true, 1, &with.second, 8, (uintptr_t)first},
        {"a bool of a demand that is none", true, 1, &demand.opens, 1, 2},
        {"a bool of an answer that is none", true, 1, &answers[ANSWERS - 1].has_mount, 1, 2},
        {"no room for a path", true, 1, &with.first_size, 8, PATH_SIZE - 1},
        {"no room for what is read", true, 1, &with.read_size, 8, PATH_SIZE - 1},
        {"a smaller room", true, 1, &with.size, 8, INROOT_ROOM - 1},
        {"no answers", true, 1, &with.count, 8, 0},
        {"a text without a slash before it", true, 1, first, 1, 'a'},
        {"another one", true, 1, &with.second_size, 8, 0},
        {"a text of more bytes than are there", true, 1, &demand.length, 8, sizeof first},
        {"a first turn of a state that isn't zero", true, 1, &state, sizeof state, 1},
        {"a state that isn't left alone", true, 2, &state.kept[22], 8, 5},
        {"a demand that isn't", true, 2, &demand.flags, 4, 5},
        {"a text that isn't", true, 2, &first[1], 1, 'b'},
        {"a room that isn't", true, 2, &room[INROOT_ROOM - 1], 1, 5},
        {"an error", false, 2, &due, 0, 0},
        {"no answer", true, 2, &answers[0].error, 4, UINT32_MAX},
        {"a negative error", true, 2, &answers[0].error, 4, (uint32_t)-ENOENT},
        {"a descriptor that is open", false, 2, &answers[0].value, 8, STDOUT_FILENO},
        {"one that isn't", true, 2, &answers[0].value, 8, INT_MAX},
        {"a call behind another", false, 3, &state, sizeof state, 0},
    };
    unsigned wrong = 0;
    for (size_t one = 0; one < sizeof rows / sizeof *rows; one++) {
        if (is_refused(&rows[one]) == rows[one].is_wrong)
            continue;
        wrong++;
        fprintf(stderr, "wrong_turns: %s: %s\n", rows[one].name, rows[one].is_wrong ? "nobody saw it" : "it was refused");
    }
    if (wrong)
        printf("wrong_turns: %u not as they are to be\n", wrong);
    return wrong != 0;
}
