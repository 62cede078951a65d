/* A variant with the calls of malloc, free and realloc. Included once for each, with THIS(name) for its own names. The
 * calls are made by pointers: they are looked up at run time, and no pair can be optimised away. */

static struct system_calls THIS(calls);

#define BLOCK void *

static inline BLOCK THIS(ask)(size_t size, unsigned *refused)
{
    BLOCK block = THIS(calls).ask(size);
    *refused |= block == NULL;
    return block;
}

static inline void THIS(give_back)(BLOCK block, unsigned *refused)
{
    (void)refused;
    THIS(calls).give_back(block);
}

static inline BLOCK THIS(resize)(BLOCK block, size_t size, unsigned *refused)
{
    block = THIS(calls).resize(block, size);
    *refused |= block == NULL;
    return block;
}

#include "traces.h"
