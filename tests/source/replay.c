/* Replays 01's records through the allocator written from the source: replay [A P EDITION] < records > replies. An
 * offset that is not live is refused by W-206's split. The edition is W-211's, 0 for eight and 1 for sixteen. Where
 * nothing is given, a heap has one arena of 16 pools and is of edition eight. */
#define _POSIX_C_SOURCE 200112L
#include "bytes.h"
#include "pymalloc.h"

#include <errno.h>
#include <signal.h>
#include <stdbool.h>
#include <stdint.h>
#include <stdio.h>
#include <stdlib.h>
#include <string.h>

enum { RECORD = 16, PIECE = 4096 * RECORD };
enum { ASK = 1, GIVE_BACK = 2, RESIZE = 3 };
enum { DONE = 0, BAD_SIZE = 3, NO_ROOM = 4, NO_BLOCK = 5, SHORT_RECORD = 8, BAD_RECORD = 9, DEAD_BLOCK = 10 };

/* The heap, and beside it which blocks are live, which the allocator itself cannot tell. */
struct ledger {
    struct pymalloc heap;
    block *memory;
    size_t bytes;
    bool *live;             /* one for each place where a block can start: for each multiple of ALIGNMENT */
    uint32_t count;
};

struct answer {
    unsigned number;
    uint32_t offset, size;
};

/* A fresh heap. Its memory is full of ones, as what it holds must not matter. */
static bool open_ledger(struct ledger *l, unsigned arenas, unsigned pools, unsigned edition)
{
    struct pymalloc *heap = &l->heap;
    void *memory;
    l->bytes = (size_t)arenas * pools * POOL_SIZE;
    l->count = 0;
    if (posix_memalign(&memory, POOL_SIZE, l->bytes) != 0)
        return false;
    memset(memory, 0xff, l->bytes);
    l->memory = memory;
    pymalloc_format(heap, memory, arenas, pools, 3 + edition);
    l->live = calloc(l->bytes / ALIGNMENT, sizeof *l->live);
    return l->live != NULL;
}

static bool is_live(const struct ledger *l, uint32_t offset)
{
    const struct pymalloc *heap = &l->heap;
    return offset < l->bytes && offset % ALIGNMENT == 0 && l->live[offset / ALIGNMENT];
}

/* The number of an offset that is not live: DEAD_BLOCK where a block starts there, below nextoffset, in a pool that is
 * carved, and otherwise NO_BLOCK. A pool is carved where its arena is open, which the unused ones are not, and the next
 * pool to be carved off there comes after it; it then has its class. */
static unsigned dead_or_none(const struct ledger *l, uint32_t offset)
{
    const struct pymalloc *heap = &l->heap;
    const size_t first = sizeof(struct pool_header), n = offset / POOL_SIZE, place = offset % POOL_SIZE;
    if (offset >= l->bytes)
        return NO_BLOCK;
    const block *start = l->memory + n * POOL_SIZE;
    const struct pool_header *pool = (const struct pool_header *)start;
    const struct arena_object *ao = &heap->arenas[n / heap->pools], *unused = heap->unused_arena_objects;
    while (unused != NULL && unused != ao)
        unused = unused->nextarena;
    bool carved = unused == NULL && start < ao->pool_address;
    return carved && place >= first && place < pool->nextoffset && (place - first) % INDEX2SIZE(pool->szidx) == 0
        ? DEAD_BLOCK : NO_BLOCK;
}

static bool is_small(uint32_t size)
{
    return size >= 1 && size <= SMALL_REQUEST_THRESHOLD;
}

static void mark(struct ledger *l, uint32_t offset, bool live)
{
    const struct pymalloc *heap = &l->heap;
    l->live[offset / ALIGNMENT] = live;
    l->count += live ? 1 : -1;
}

static struct answer refuse(unsigned number, uint32_t offset)
{
    return (struct answer){number, offset, 0};
}

/* The answer where the block at p, if any, now stands for the caller. */
static struct answer hand_out(struct ledger *l, const block *p, uint32_t refused)
{
    if (p == NULL)
        return refuse(NO_ROOM, refused);
    uint32_t offset = (uint32_t)(p - l->memory);
    mark(l, offset, true);
    return (struct answer){DONE, offset, pymalloc_size(&l->heap, p)};
}

static struct answer ask(struct ledger *l, uint32_t size)
{
    if (!is_small(size))
        return refuse(BAD_SIZE, 0);
    return hand_out(l, pymalloc_ask(&l->heap, size), 0);
}

static struct answer give_back(struct ledger *l, uint32_t offset)
{
    if (!is_live(l, offset))
        return refuse(dead_or_none(l, offset), offset);
    struct answer a = {DONE, offset, pymalloc_size(&l->heap, l->memory + offset)};
    pymalloc_give_back(&l->heap, l->memory + offset);
    mark(l, offset, false);
    return a;
}

static struct answer resize(struct ledger *l, uint32_t size, uint32_t offset)
{
    if (!is_small(size))
        return refuse(BAD_SIZE, offset);
    if (!is_live(l, offset))
        return refuse(dead_or_none(l, offset), offset);
    const block *p = pymalloc_resize(&l->heap, l->memory + offset, size);
    if (p != NULL)
        mark(l, offset, false);
    return hand_out(l, p, offset);
}

static struct answer call(struct ledger *l, const unsigned char *record)
{
    static const unsigned char zeros[4];
    unsigned op = record[0];
    uint32_t size = get32(record + 4), offset = get32(record + 8);
    if (op < ASK || op > RESIZE || memcmp(record + 1, zeros, 3) != 0 || memcmp(record + 12, zeros, 4) != 0)
        return refuse(BAD_RECORD, op == ASK ? 0 : offset);
    return op == ASK ? ask(l, size) : op == GIVE_BACK ? give_back(l, offset) : resize(l, size, offset);
}

static void put_reply(unsigned char *out, unsigned op, struct answer a, uint32_t count)
{
    put32(out, op | a.number << 8);
    put32(out + 4, a.offset);
    put32(out + 8, a.size);
    put32(out + 12, count);
}

/* The replies to a piece of the input; a record that it breaks off is the input's short last one. Answers their
 * length. */
static size_t replies(struct ledger *l, const unsigned char *in, size_t length, unsigned char *out)
{
    size_t at = 0;
    for (; at + RECORD <= length; at += RECORD) {
        struct answer a = call(l, in + at);
        put_reply(out + at, in[at], a, l->count);
    }
    if (at == length)
        return at;
    put_reply(out + at, 0, refuse(SHORT_RECORD, 0), l->count);
    return at + RECORD;
}

static int fail(const char *what)
{
    fprintf(stderr, "replay: %s: %s\n", what, strerror(errno));
    return 1;
}

static int replay(struct ledger *l)
{
    static unsigned char in[PIECE], out[PIECE];
    for (;;) {
        size_t length = fread(in, 1, PIECE, stdin);
        if (ferror(stdin))
            return fail("cannot read standard input");
        size_t answered = replies(l, in, length, out);
        if (fwrite(out, 1, answered, stdout) != answered || fflush(stdout) != 0)
            return fail("cannot write standard output");
        if (length < PIECE)
            return 0;
    }
}

int main(int argc, char **argv)
{
    int arenas = argc == 4 ? atoi(argv[1]) : 1, pools = argc == 4 ? atoi(argv[2]) : 16;
    int edition = argc == 4 ? atoi(argv[3]) : 0;
    if ((argc != 1 && argc != 4) || arenas < 1 || arenas > MAX_ARENAS || pools < 2 || pools > 64
        || edition < 0 || edition > 1) {
        fputs("usage: replay [A P EDITION], A from 1 to 16, P from 2 to 64, EDITION 0 or 1\n", stderr);
        return 2;
    }
    /* a reader that goes away is then a failed write, with a message */
    signal(SIGPIPE, SIG_IGN);
    struct ledger l;
    if (!open_ledger(&l, (unsigned)arenas, (unsigned)pools, (unsigned)edition))
        return fail("no memory for the heap");
    return replay(&l);
}
