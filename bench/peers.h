/* Peers: allocators that want to be the only one of their process. Each runs in a process of its own, which makes its
 * visits when it is told to. */
#ifndef PEERS_H
#define PEERS_H

#include "again.h"

#include <sys/types.h>

enum { MOST_PEERS = 4 };

struct peer {
    const char *name, *library, *command;   /* a shell command, and the file that malloc must come from there */
    char said[WAYS][SAID];                  /* what a second give-back did */
    pid_t process;
    int to, from;                           /* its standard input and output */
};

/* Starts the process. False where it does not come up, or its malloc is not of the library. */
bool start_peer(struct peer *p);
void end_peer(struct peer *p);

/* What the process is told. After the preparation it makes some visits that do not count, so that an allocator that
 * keeps blocks back before it hands them out again has as many of them as it keeps. */
void peer_try(struct peer *p, size_t way);
void peer_prepare(struct peer *p, size_t task);
double peer_visit(struct peer *p, size_t task, size_t round);

/* The process itself: does what it is told until its standard input ends. */
_Noreturn void serve(const char *library);

/* The process's own malloc, where it is of that library, and otherwise NULL. */
const struct variant *own_of(const char *library);

#endif
