/* Writes a seeded sequence of replay records for a heap of A arenas of P pools, of edition eight (0) or sixteen (1):
 * sequences SEED CALLS A P EDITION > records. It makes each call on the allocator written from the source as well, so
 * that it knows which blocks are live. Where there are several arenas it says on stderr how often one of them moved in
 * the usable list. */
#define _POSIX_C_SOURCE 200112L
#include "bytes.h"
#include "pymalloc.h"
#include "random.h"

#include <stdbool.h>
#include <stdint.h>
#include <stdio.h>
#include <stdlib.h>

enum { ASK = 1, GIVE_BACK = 2, RESIZE = 3 };
enum { STALE = 64, FEW = 64 };

static struct pymalloc lent_heap, *const heap = &lent_heap;
static block *memory;
static uint32_t bytes;          /* of memory */
static uint32_t *live, count;   /* the offsets of the live blocks, and how many */
static uint32_t stale[STALE], dropped;  /* the offsets of the last blocks that came back, and how many came in all */
static uint32_t *place;         /* for each offset / ALIGNMENT: 1 + where it stands in live, 0 if it is not live */
static uint64_t calls, wanted;  /* written, and to be written in all */

static bool is_live(uint32_t offset)
{
    return offset < bytes && offset % ALIGNMENT == 0 && place[offset / ALIGNMENT] != 0;
}

static void add(uint32_t offset)
{
    live[count++] = offset;
    place[offset / ALIGNMENT] = count;
}

static void drop(uint32_t offset)
{
    uint32_t at = place[offset / ALIGNMENT], last = live[--count];
    live[at - 1] = last;
    place[last / ALIGNMENT] = at;
    place[offset / ALIGNMENT] = 0;
    stale[dropped++ % STALE] = offset;
}

static bool has_several_arenas(void)
{
    return bytes > heap->pools * POOL_SIZE;
}

/* What the program ends with, when every call that was wanted is written and made. */
static int finish(void)
{
    if (has_several_arenas())
        fprintf(stderr, "%lu\n", heap->moves);
    return fflush(stdout) == 0 ? 0 : 1;
}

/* Writes a record. The program ends where it would be one more than are wanted. */
static void put_record(uint32_t op, uint32_t size, uint32_t offset)
{
    unsigned char record[16] = {0};
    if (calls++ == wanted)
        exit(finish());
    put32(record, op);
    put32(record + 4, size);
    put32(record + 8, offset);
    fwrite(record, 1, sizeof record, stdout);
}

/* What stands in a field that an op does not use must not matter. */
static uint32_t noise(void)
{
    return below(2) ? below(UINT32_MAX) : 0;
}

/* Asks, and says whether it was served. */
static bool ask(uint32_t size)
{
    put_record(ASK, size, noise());
    block *p = size >= 1 && size <= SMALL_REQUEST_THRESHOLD ? pymalloc_ask(heap, size) : NULL;
    if (p != NULL)
        add((uint32_t)(p - memory));
    return p != NULL;
}

static void give_back(uint32_t offset)
{
    put_record(GIVE_BACK, noise(), offset);
    if (!is_live(offset))
        return;
    pymalloc_give_back(heap, memory + offset);
    drop(offset);
}

static void resize(uint32_t offset, uint32_t size)
{
    put_record(RESIZE, size, offset);
    if (!is_live(offset) || size < 1 || size > SMALL_REQUEST_THRESHOLD)
        return;
    block *p = pymalloc_resize(heap, memory + offset, size);
    if (p == NULL)
        return;
    drop(offset);
    add((uint32_t)(p - memory));
}

/* Which sizes a phase asks for. Those of EXACT fill a pool to its last byte: they divide its 4,048. */
static enum { SMALL, ONE_CLASS, THREE_CLASSES, LARGE, EXACT, ANY, MIXES } mix;
static uint32_t class;

static uint32_t some_size(void)
{
    static const uint32_t exact[] = {16, 176, 368, 8, 88, 184};    /* at sixteen the first three */
    switch (mix) {
    case SMALL: return between(1, 64);
    case ONE_CLASS: return ALIGNMENT * class + between(1, ALIGNMENT);
    case THREE_CLASSES: return ALIGNMENT * ((class + 20 * below(3)) % NB_SMALL_SIZE_CLASSES) + between(1, ALIGNMENT);
    case LARGE: return between(385, 512);
    case EXACT: return exact[below(ALIGNMENT == 16 ? 3 : 6)];
    default: return between(1, 512);
    }
}

/* A live block. Asks for one where there is none. */
static uint32_t some_block(void)
{
    while (count == 0)
        ask(some_size());
    return live[below(count)];
}

/* How often a phase does its thing. A sequence starts with short phases, so a difference shows after few records. */
static uint32_t times(uint32_t most)
{
    uint64_t now = 2 + calls / 8;
    return between(1, now < most ? (uint32_t)now : most);
}

/* Blocks come and go, with the heap growing or shrinking. */
static void churn(void)
{
    uint32_t asks = between(25, 75);
    for (uint32_t n = times(400); n > 0; n--)
        if (below(100) < asks)
            ask(some_size());
        else
            give_back(some_block());
}

static int rising(const void *a, const void *b)
{
    uint32_t x = *(const uint32_t *)a, y = *(const uint32_t *)b;
    return (x > y) - (x < y);
}

static int falling(const void *a, const void *b)
{
    return rising(b, a);
}

/* Gives blocks back from the first, from the last or at random, until so many are left. */
static void drain(uint32_t rest)
{
    uint32_t order = below(3);
    if (order < 2)
        qsort(live, count, sizeof *live, order == 0 ? falling : rising);
    for (uint32_t i = 0; i < count; i++)
        place[live[i] / ALIGNMENT] = i + 1;
    while (count > rest)
        give_back(live[order < 2 ? count - 1 : below(count)]);
}

/* To no room and beyond, then back. Several arenas often get large blocks, which fill them soonest. */
static void fill_and_drain(void)
{
    if (has_several_arenas() && below(2) == 0)
        mix = LARGE;
    for (uint32_t refused = between(1, 8); refused > 0;)
        refused -= !ask(some_size());
    drain(below(2) ? 0 : below(count + 1));
}

/* Every arena is released and then opened again. */
static void empty_heap(void)
{
    drain(0);
    for (uint32_t n = times(12); n > 0; n--)
        ask(some_size());
}

/* Whole pools are given back, and the next ask has the pool's old class or another. */
static void empty_pools(void)
{
    for (uint32_t n = times(12); n > 0; n--) {
        uint32_t offset = some_block(), size = pymalloc_size(heap, memory + offset);
        for (uint32_t i = count; i > 0; i--)
            if (live[i - 1] / POOL_SIZE == offset / POOL_SIZE)
                give_back(live[i - 1]);
        for (uint32_t k = below(4); k > 0; k--)
            ask(below(2) ? size - below(ALIGNMENT) : some_size());
    }
}

/* A few blocks of all sizes come and go in runs. Most have a pool of their own, which is taken and falls empty with
 * them: so an arena comes to have more free pools than the next of the usable list. */
static void few_blocks(void)
{
    uint32_t pools = bytes / POOL_SIZE, most = pools < FEW ? pools : FEW;
    mix = ANY;
    for (uint32_t n = times(20); n > 0; n--) {
        uint32_t rest = below(most);
        while (count > rest)
            give_back(some_block());
        for (uint32_t more = below(most - count + 1); more > 0; more--)
            ask(some_size());
    }
}

/* Sizes on each side of what a block keeps, and any others. */
static void resizes(void)
{
    for (uint32_t n = times(200); n > 0; n--) {
        uint32_t offset = some_block(), size = pymalloc_size(heap, memory + offset);
        switch (below(8)) {
        case 0: resize(offset, size); break;
        case 1: resize(offset, size + 1); break;
        case 2: resize(offset, 3 * size / 4); break;
        case 3: resize(offset, 3 * size / 4 + 1); break;
        case 4: resize(offset, between(3 * size / 4, size)); break;
        case 5: resize(offset, between(1, 512)); break;
        case 6: resize(offset, some_size()); break;
        default: ask(some_size());
        }
    }
}

static uint32_t bad_size(void)
{
    static const uint32_t bad[] = {0, 513, 520, 65536 + 8, UINT32_MAX};
    return bad[below(5)];
}

/* The last block that a pool with a live one has handed out or set ready, or the one after it. */
static uint32_t near_nextoffset(void)
{
    uint32_t offset = some_block(), start = offset / POOL_SIZE * POOL_SIZE;
    const struct pool_header *pool = (const struct pool_header *)(memory + start);
    return start + pool->nextoffset - below(2) * pymalloc_size(heap, memory + offset);
}

/* An offset that is most often not live: of a dead block, or where there is none. */
static uint32_t bad_offset(void)
{
    switch (below(7)) {
    case 0: return some_block() + between(1, ALIGNMENT - 1);
    case 1: return some_block() + 8 * between(1, 64);
    case 2: return 8 * below(bytes / 8);
    case 3: return bytes + below(8192);
    case 4: return stale[below(STALE)];
    case 5: return near_nextoffset();
    default: return UINT32_MAX - below(8192);
    }
}

static void refusals(void)
{
    for (uint32_t n = times(40); n > 0; n--) {
        uint32_t offset = some_block();
        switch (below(7)) {
        case 0: give_back(offset); give_back(offset); break;
        case 1: give_back(offset); resize(offset, some_size()); break;
        case 2: give_back(bad_offset()); break;
        case 3: resize(bad_offset(), some_size()); break;
        case 4: resize(bad_offset(), bad_size()); break;
        case 5: resize(offset, bad_size()); break;
        default: ask(bad_size());
        }
    }
}

static void phase(void)
{
    static void (*const phases[])(void) = {
        churn, churn, empty_pools, empty_pools, resizes, refusals, empty_heap, fill_and_drain};
    mix = below(MIXES);
    class = below(NB_SMALL_SIZE_CLASSES);
    if (has_several_arenas() && below(2) == 0)
        few_blocks();
    else
        phases[below(calls < 500 ? 7 : 8)]();   /* a heap is not filled at the start of a sequence */
}

int main(int argc, char **argv)
{
    int arenas = argc == 6 ? atoi(argv[3]) : 0, pools = argc == 6 ? atoi(argv[4]) : 0;
    int edition = argc == 6 ? atoi(argv[5]) : 0;
    if (arenas < 1 || arenas > MAX_ARENAS || pools < 2 || pools > 64 || edition < 0 || edition > 1) {
        fputs("usage: sequences SEED CALLS A P EDITION, A from 1 to 16, P from 2 to 64, EDITION 0 or 1\n", stderr);
        return 2;
    }
    void *lent;
    random_state = strtoull(argv[1], NULL, 10);
    wanted = strtoull(argv[2], NULL, 10);
    bytes = (uint32_t)(arenas * pools * POOL_SIZE);
    if (posix_memalign(&lent, POOL_SIZE, bytes) == 0) {
        memory = lent;
        pymalloc_format(heap, memory, (unsigned)arenas, (unsigned)pools, 3 + (unsigned)edition);
        live = calloc(bytes / ALIGNMENT, sizeof *live);
        place = calloc(bytes / ALIGNMENT, sizeof *place);
    }
    if (live == NULL || place == NULL) {
        fputs("sequences: no memory for the heap\n", stderr);
        return 1;
    }
    while (calls < wanted)
        phase();
    return finish();
}
