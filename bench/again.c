/* A block for a text of 40 bytes is given back twice, in a child process: whether that is refused, stops the program or
 * passes, and whether a block that is out then goes out once more. */
#define _GNU_SOURCE
#include "again.h"

#include "tasks.h"

#include <stdio.h>
#include <string.h>
#include <sys/resource.h>
#include <sys/wait.h>
#include <unistd.h>

enum { BYTES = 40, OUT = 100, ONE = 50, MOST_ASKS = 1000 };     /* the block of slot ONE is given back twice */
enum { ONCE = 0, TWICE = 2, REFUSED = 10 };     /* how the child exits; a refusal's number is added to the last */

const char *const ways[WAYS] = {
    [AT_ONCE] = "at once",
    [AMONG_OTHERS] = "among others",
    [OUT_AGAIN] = "when the block is out again",
};

static struct step steps[SLOTS];
static bool held[SLOTS];

static void ask(const struct variant *v, size_t first, size_t end)
{
    for (size_t i = first; i < end; i++) {
        steps[i] = (struct step){(uint16_t)i, BYTES};
        held[i] = true;
    }
    if (v->fill(steps + first, end - first) != 0)
        fail(v->name, "an ask was refused");
}

static unsigned give_back(const struct variant *v, size_t slot)
{
    held[slot] = false;
    return v->drain(&steps[slot], 1);
}

/* Whether two that asked hold the same block. */
static bool out_twice(const struct variant *v)
{
    for (size_t i = 0; i < SLOTS; i++)
        for (size_t j = 0; j < i; j++)
            if (held[i] && held[j] && v->same(i, j))
                return true;
    return false;
}

static _Noreturn void give_back_twice(const struct variant *v, size_t way)
{
    size_t end = OUT;
    v->fresh(HESKAVERN_EIGHT);
    ask(v, 0, OUT);
    unsigned number = 0;
    for (size_t i = 0; i < OUT; i += 2)         /* of others every second one, so that no pool falls empty */
        number |= i == ONE || way == AMONG_OTHERS ? give_back(v, i) : 0;
    if (number != 0)
        fail(v->name, "a give-back was refused");
    for (bool out = false; way == OUT_AGAIN && !out && end < MOST_ASKS; end++) {
        ask(v, end, end + 1);
        out = v->same(ONE, end);
    }
    number = give_back(v, ONE);
    if (number != 0)
        _exit(REFUSED + (int)number);
    ask(v, end, end + 3 * OUT);
    _exit(out_twice(v) ? TWICE : ONCE);
}

/* The telling part of what a program said before it was stopped: without the process's number and addresses. */
static char *telling(char *heard)
{
    char *error = strstr(heard, "ERROR: "), *line = error != NULL ? error + strlen("ERROR: ") : heard;
    line[strcspn(line, "\n")] = 0;
    char *address = strstr(line, " 0x");
    if (address != NULL)
        strcpy(address, " ..");
    return line;
}

static void say(char said[SAID], char *heard, int status)
{
    if (*heard != 0)
        snprintf(said, SAID, "stops the program: %s", telling(heard));
    else if (WIFSIGNALED(status))
        snprintf(said, SAID, "ends with signal %d", WTERMSIG(status));
    else if (WEXITSTATUS(status) >= REFUSED)
        snprintf(said, SAID, "is refused with number %d", WEXITSTATUS(status) - REFUSED);
    else
        snprintf(said, SAID, "passes%s", WEXITSTATUS(status) == TWICE ? ", and the block is out twice" : "");
}

bool passed(const char *said)
{
    return strncmp(said, "passes", strlen("passes")) == 0;
}

bool refused(const char *said, unsigned number)
{
    char so[SAID];
    snprintf(so, SAID, "is refused with number %u", number);
    return strcmp(said, so) == 0;
}

void try_again(const struct variant *v, size_t way, char said[SAID])
{
    char heard[4096] = {0}, rest[4096];
    size_t n = 0;
    ssize_t got;
    int ends[2], status;
    pid_t child;
    if (pipe(ends) != 0 || (child = fork()) < 0)
        fail(v->name, "no child process");
    if (child == 0) {
        setrlimit(RLIMIT_CORE, &(struct rlimit){0, 0});
        dup2(ends[1], STDERR_FILENO);
        give_back_twice(v, way);
    }
    close(ends[1]);
    while (n < sizeof heard - 1 && (got = read(ends[0], heard + n, sizeof heard - 1 - n)) > 0)
        n += (size_t)got;
    while (read(ends[0], rest, sizeof rest) > 0)
        ;
    close(ends[0]);
    waitpid(child, &status, 0);
    say(said, heard, status);
}
