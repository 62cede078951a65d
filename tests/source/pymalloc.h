/* The small-block allocator of CPython's Objects/obmalloc.c, over memory that its caller lends. Names of types,
 * members and constants are the source's; the calls are named as in 01. It trusts its caller: a pointer given to it
 * is of a live block. */
#ifndef PYMALLOC_H
#define PYMALLOC_H

#include <stddef.h>

/* 3 in the source, and 4 in newer CPython on 64-bit machines. Here it is that of the heap at hand: the variable `heap`
 * points to it wherever these are used. */
#define ALIGNMENT_SHIFT         (heap->alignment_shift)
#define ALIGNMENT               (1u << ALIGNMENT_SHIFT)
#define INDEX2SIZE(I)           (((unsigned)(I) + 1) << ALIGNMENT_SHIFT)
#define SMALL_REQUEST_THRESHOLD 512
#define NB_SMALL_SIZE_CLASSES   (SMALL_REQUEST_THRESHOLD / ALIGNMENT)
#define MAX_SIZE_CLASSES        64      /* at the smaller alignment */
#define POOL_SIZE               4096
#define MAX_ARENAS              16

typedef unsigned char block;

/* Stands in the first 48 bytes of its pool. */
struct pool_header {
    union { block *_padding;
            unsigned count; } ref;      /* number of live blocks */
    block *freeblock;                   /* first freed block; each holds a pointer to the next */
    struct pool_header *nextpool;       /* next pool of this class, or next freed pool of the arena */
    struct pool_header *prevpool;       /* previous pool of this class */
    unsigned arenaindex;                /* its arena */
    unsigned szidx;                     /* its class */
    unsigned nextoffset;                /* bytes to the first block that was never handed out */
    unsigned maxnextoffset;             /* largest nextoffset at which a block still fits */
};

typedef struct pool_header *poolp;

struct arena_object {
    block *pool_address;                /* next pool to be carved off */
    unsigned nfreepools;                /* freed pools and pools never carved */
    unsigned ntotalpools;
    struct pool_header *freepools;      /* freed pools, linked by nextpool */
    struct arena_object *nextarena;     /* in the list of usable or of unused arenas */
    struct arena_object *prevarena;     /* in the list of usable arenas alone */
};

struct pymalloc {
    block *memory;
    unsigned pools;                                 /* pools of an arena */
    unsigned alignment_shift;                       /* 3 or 4: blocks are aligned to 8 or to 16 bytes */
    struct arena_object *usable_arenas;             /* open, with a pool to hand out; rising by nfreepools */
    struct arena_object *unused_arena_objects;      /* not open */
    poolp usedpools[2 * MAX_SIZE_CLASSES];          /* for each class the nextpool and prevpool of a list's head */
    struct arena_object arenas[MAX_ARENAS];
    unsigned long moves;                            /* how often an arena moved in usable_arenas: not the source's */
};

/* An empty heap over arenas * pools * POOL_SIZE bytes, which start at a multiple of POOL_SIZE, with an alignment_shift
 * of 3 or 4. Writes no memory. */
void pymalloc_format(struct pymalloc *heap, void *memory, unsigned arenas, unsigned pools, unsigned alignment_shift);

/* A block of at least nbytes, from 1 to SMALL_REQUEST_THRESHOLD. NULL where there is no room. */
void *pymalloc_ask(struct pymalloc *heap, size_t nbytes);

void pymalloc_give_back(struct pymalloc *heap, void *p);

/* The block that p's bytes are now in. NULL where there is no room; then p stands as it was. */
void *pymalloc_resize(struct pymalloc *heap, void *p, size_t nbytes);

/* The size of the block at p. */
unsigned pymalloc_size(const struct pymalloc *heap, const void *p);

#endif
