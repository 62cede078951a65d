/* The peers' processes, and how they are spoken to: an order over one pipe, a reply over the other. */
#define _GNU_SOURCE
#include "peers.h"

#include "tasks.h"

#include <fcntl.h>
#include <sched.h>
#include <string.h>
#include <sys/wait.h>
#include <unistd.h>

enum { TRY, PREPARE, VISIT };
enum { RUN_IN = 700 };      /* visits: six million texts of the statement, which AddressSanitizer keeps 256 MB of */

struct order {
    size_t what, number, round;     /* the number of the way or of the task */
    int core;                       /* that the others of the round run on */
};

struct reply {
    double time;
    char said[SAID];
};

bool start_peer(struct peer *p)
{
    struct reply hello;
    int to[2], from[2];
    if (pipe2(to, O_CLOEXEC) != 0 || pipe2(from, O_CLOEXEC) != 0 || (p->process = fork()) < 0)
        fail(p->name, "no process");
    if (p->process == 0) {
        dup2(to[0], STDIN_FILENO);
        dup2(from[1], STDOUT_FILENO);
        execl("/bin/sh", "sh", "-c", p->command, "sh", "peer", p->library, (char *)NULL);
        _exit(127);
    }
    close(to[0]);
    close(from[1]);
    p->to = to[1];
    p->from = from[0];
    return read(p->from, &hello, sizeof hello) == sizeof hello;
}

void end_peer(struct peer *p)
{
    close(p->to);
    close(p->from);
    waitpid(p->process, NULL, 0);
}

static struct reply tell(struct peer *p, struct order o)
{
    struct reply r;
    if (write(p->to, &o, sizeof o) != sizeof o || read(p->from, &r, sizeof r) != sizeof r)
        fail(p->name, "its process has ended");
    return r;
}

void peer_try(struct peer *p, size_t way)
{
    struct reply r = tell(p, (struct order){.what = TRY, .number = way});
    memcpy(p->said[way], r.said, SAID);
}

void peer_prepare(struct peer *p, size_t task)
{
    tell(p, (struct order){.what = PREPARE, .number = task});
}

double peer_visit(struct peer *p, size_t task, size_t round)
{
    return tell(p, (struct order){VISIT, task, round, sched_getcpu()}).time;
}

const struct variant *own_of(const char *library)
{
    const char *file;
    const struct variant *own = find_own(&file);
    return strstr(file, library) != NULL ? own : NULL;
}

/* A core may be slower than another for a while: a visit goes to the one of its round. */
static void move_to(int core)
{
    cpu_set_t only;
    CPU_ZERO(&only);
    CPU_SET((size_t)core, &only);
    sched_setaffinity(0, sizeof only, &only);
}

static struct reply obey(const struct variant *own, struct order o)
{
    const struct task *t = &tasks[o.number];
    struct reply r = {0};
    if (o.what == TRY)
        try_again(own, o.number, r.said);
    if (o.what == PREPARE)
        prepare(t, own);
    for (size_t i = 0; o.what == PREPARE && i < RUN_IN; i++)
        visit(t, own, i);
    if (o.what == VISIT) {
        move_to(o.core);
        r.time = visit(t, own, o.round);
    }
    return r;
}

void serve(const char *library)
{
    struct reply r = {0};
    struct order o;
    const struct variant *own = own_of(library);
    if (own == NULL)
        _exit(1);
    make_traces();
    while (write(STDOUT_FILENO, &r, sizeof r) == sizeof r && read(STDIN_FILENO, &o, sizeof o) == sizeof o)
        r = obey(own, o);
    _exit(0);
}
