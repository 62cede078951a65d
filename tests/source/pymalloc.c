/* The allocator of CPython's Objects/obmalloc.c, with one change, which is 01's: there is a fixed number of arenas, all
 * in one lent area. Where the source turns to the system's allocator, there is no room. */
#include "pymalloc.h"

#include <stdint.h>
#include <string.h>

#define POOL_OVERHEAD   ((unsigned)sizeof(struct pool_header))
#define DUMMY_SIZE_IDX  0xffff          /* the class of a pool just carved */
#define POOL_ADDR(P)    ((poolp)((uintptr_t)(P) & ~(uintptr_t)(POOL_SIZE - 1)))

typedef char the_header_takes_48_bytes[sizeof(struct pool_header) == 48 ? 1 : -1];

/* The head of a class list, good for its nextpool and prevpool alone: usedpools holds these two, which in a pool_header
 * follow two members of a pointer's size. */
static poolp list_head(struct pymalloc *heap, unsigned size)
{
    return (poolp)((block *)&heap->usedpools[2 * size] - 2 * sizeof(block *));
}

void pymalloc_format(struct pymalloc *heap, void *memory, unsigned arenas, unsigned pools, unsigned alignment_shift)
{
    memset(heap, 0, sizeof *heap);
    heap->memory = memory;
    heap->pools = pools;
    heap->alignment_shift = alignment_shift;
    for (unsigned size = 0; size < NB_SMALL_SIZE_CLASSES; size++)
        heap->usedpools[2 * size] = heap->usedpools[2 * size + 1] = list_head(heap, size);
    for (unsigned i = 0; i + 1 < arenas; i++)
        heap->arenas[i].nextarena = &heap->arenas[i + 1];
    heap->unused_arena_objects = &heap->arenas[0];
}

/* Opens the first unused arena. NULL where none is left. */
static struct arena_object *new_arena(struct pymalloc *heap)
{
    struct arena_object *ao = heap->unused_arena_objects;
    if (ao == NULL)
        return NULL;
    heap->unused_arena_objects = ao->nextarena;
    ao->freepools = NULL;
    ao->pool_address = heap->memory + (size_t)(ao - heap->arenas) * heap->pools * POOL_SIZE;
    ao->nfreepools = heap->pools;
    ao->ntotalpools = ao->nfreepools;
    ao->nextarena = ao->prevarena = NULL;
    return ao;
}

static void join_usable(struct pymalloc *heap, struct arena_object *ao)
{
    ao->nextarena = heap->usable_arenas;
    ao->prevarena = NULL;
    if (ao->nextarena != NULL)
        ao->nextarena->prevarena = ao;
    heap->usable_arenas = ao;
}

static void leave_usable(struct pymalloc *heap, struct arena_object *ao)
{
    if (ao->prevarena == NULL)
        heap->usable_arenas = ao->nextarena;
    else
        ao->prevarena->nextarena = ao->nextarena;
    if (ao->nextarena != NULL)
        ao->nextarena->prevarena = ao->prevarena;
}

/* A pool of the first usable arena: the one freed last, or else the next that was never carved. */
static poolp take_pool(struct pymalloc *heap)
{
    struct arena_object *ao = heap->usable_arenas;
    poolp pool = ao->freepools;
    if (pool != NULL) {
        ao->freepools = pool->nextpool;
    } else {
        pool = (poolp)ao->pool_address;
        pool->arenaindex = (unsigned)(ao - heap->arenas);
        pool->szidx = DUMMY_SIZE_IDX;
        ao->pool_address += POOL_SIZE;
    }
    if (--ao->nfreepools == 0)
        leave_usable(heap, ao);
    return pool;
}

/* Puts a pool with no live block to use for a class whose list is empty, and hands out its first block. A pool that had
 * this class before keeps its freed blocks. Otherwise only two blocks are set up: memory is not touched before it is
 * needed. */
static void *init_pool(struct pymalloc *heap, poolp pool, unsigned size)
{
    poolp next = heap->usedpools[size + size];      /* the list's head, as the list is empty */
    block *bp;

    pool->nextpool = pool->prevpool = next;
    next->nextpool = next->prevpool = pool;
    pool->ref.count = 1;
    if (pool->szidx == size) {
        bp = pool->freeblock;
        pool->freeblock = *(block **)bp;
        return bp;
    }
    pool->szidx = size;
    size = INDEX2SIZE(size);
    bp = (block *)pool + POOL_OVERHEAD;
    pool->nextoffset = POOL_OVERHEAD + (size << 1);
    pool->maxnextoffset = POOL_SIZE - size;
    pool->freeblock = bp + size;
    *(block **)pool->freeblock = NULL;
    return bp;
}

/* A block of a used pool, which always has one. The pool leaves its list when that was the last. */
static void *take_block(const struct pymalloc *heap, poolp pool)
{
    block *bp = pool->freeblock;
    ++pool->ref.count;
    pool->freeblock = *(block **)bp;
    if (pool->freeblock != NULL)
        return bp;
    if (pool->nextoffset <= pool->maxnextoffset) {
        pool->freeblock = (block *)pool + pool->nextoffset;
        pool->nextoffset += INDEX2SIZE(pool->szidx);
        *(block **)pool->freeblock = NULL;
        return bp;
    }
    pool->nextpool->prevpool = pool->prevpool;
    pool->prevpool->nextpool = pool->nextpool;
    return bp;
}

void *pymalloc_ask(struct pymalloc *heap, size_t nbytes)
{
    unsigned size = (unsigned)(nbytes - 1) >> ALIGNMENT_SHIFT;
    poolp pool = heap->usedpools[size + size];
    if (pool != pool->nextpool)
        return take_block(heap, pool);
    if (heap->usable_arenas == NULL)
        heap->usable_arenas = new_arena(heap);
    if (heap->usable_arenas == NULL)
        return NULL;
    return init_pool(heap, take_pool(heap), size);
}

/* A full pool has a freed block again: to the front of its class list, so that the next ask takes that block. */
static void join_used(struct pymalloc *heap, poolp pool)
{
    poolp next = heap->usedpools[pool->szidx + pool->szidx];
    poolp prev = next->prevpool;
    pool->nextpool = next;
    pool->prevpool = prev;
    next->prevpool = pool;
    prev->nextpool = pool;
}

/* No pool of the arena is used: it is closed, and is the next to be opened. */
static void release_arena(struct pymalloc *heap, struct arena_object *ao)
{
    leave_usable(heap, ao);
    ao->nextarena = heap->unused_arena_objects;
    heap->unused_arena_objects = ao;
}

/* The arena has one free pool more: it moves back past those that now have fewer, if there are any. So the fullest come
 * first and serve first, and the emptiest may come to be released. */
static void sort_usable(struct pymalloc *heap, struct arena_object *ao)
{
    unsigned nf = ao->nfreepools;
    if (ao->nextarena == NULL || nf <= ao->nextarena->nfreepools)
        return;
    leave_usable(heap, ao);
    while (ao->nextarena != NULL && nf > ao->nextarena->nfreepools) {
        ao->prevarena = ao->nextarena;
        ao->nextarena = ao->nextarena->nextarena;
    }
    ao->prevarena->nextarena = ao;
    if (ao->nextarena != NULL)
        ao->nextarena->prevarena = ao;
    heap->moves++;
}

/* The pool has no live block: it goes back to its arena, for any class. */
static void free_pool(struct pymalloc *heap, poolp pool)
{
    struct arena_object *ao = &heap->arenas[pool->arenaindex];
    pool->nextpool->prevpool = pool->prevpool;
    pool->prevpool->nextpool = pool->nextpool;
    pool->nextpool = ao->freepools;
    ao->freepools = pool;
    unsigned nf = ++ao->nfreepools;
    if (nf == ao->ntotalpools)
        release_arena(heap, ao);
    else if (nf == 1)
        join_usable(heap, ao);
    else
        sort_usable(heap, ao);
}

void pymalloc_give_back(struct pymalloc *heap, void *p)
{
    poolp pool = POOL_ADDR(p);
    block *lastfree = pool->freeblock;
    *(block **)p = lastfree;
    pool->freeblock = p;
    --pool->ref.count;
    if (lastfree == NULL)
        join_used(heap, pool);
    else if (pool->ref.count == 0)
        free_pool(heap, pool);
}

void *pymalloc_resize(struct pymalloc *heap, void *p, size_t nbytes)
{
    size_t size = pymalloc_size(heap, p);
    if (nbytes <= size && 4 * nbytes > 3 * size)
        return p;
    void *bp = pymalloc_ask(heap, nbytes);
    if (bp != NULL) {
        memcpy(bp, p, nbytes < size ? nbytes : size);
        pymalloc_give_back(heap, p);
    }
    return bp;
}

unsigned pymalloc_size(const struct pymalloc *heap, const void *p)
{
    return INDEX2SIZE(POOL_ADDR(p)->szidx);
}
