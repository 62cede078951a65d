/* Runs the calls of the library on a painted stack, over whole and damaged heaps of both editions, and prints how many
 * bytes of it each call was seen to use: painted HEAPS SEED */
#include "../../include/heskavern.h"
#include "../compare/random.h"

#include <stdio.h>
#include <stdlib.h>
#include <string.h>

enum { ARENAS = 4, POOLS = 5, MOST = ARENAS * POOLS, STEPS = 500, KEPT = 32, ROW = 4 };

static uint8_t memory[HESKAVERN_MEMORY_BYTES(1, MOST)], memory_then[sizeof memory];
static uint32_t books[HESKAVERN_BOOKS_WORDS(ARENAS, POOLS)], books_then[sizeof books / sizeof *books];
static uint64_t map[HESKAVERN_MAP_WORDS(1, MOST)], map_then[sizeof map / sizeof *map]; /* the heap, and as it was */
static heskavern_request row[ROW];
static uint32_t roll[HESKAVERN_ROLL_WORDS(1, MOST)];
static int32_t changes[HESKAVERN_CHANGES];
static const uint8_t text[HESKAVERN_LARGEST + 1];
static size_t arenas, pools;
static uint32_t kept[KEPT]; /* offsets that asks and resizes answered */

/* ---- the painted stack, in words */
enum { DEPTH = 2048, WORDS = 16, ABOVE = 10 };
static const uint64_t PAINT = 0xa7b3c5d9e1f2968b;
static uint64_t stack[DEPTH] __attribute__((aligned(16)));

/* Calls a function with 16 words, on the stack that ends at `end`. The last ten words are the caller's own and stand
 * ABOVE the call's stack. The library's memset is the one here: it uses no stack but its return address. */
heskavern_answer on_stack(const void *function, const uint64_t words[WORDS], uint64_t *end);
__asm__(".text\n"
        ".globl on_stack\n"
        "on_stack:\n"
        "    push %rbx\n"
        "    mov %rsp, %rbx\n"
        "    mov %rdi, %rax\n"
        "    mov %rsi, %r10\n"
        "    mov %rdx, %rsp\n"
        "    push 120(%r10)\n"
        "    push 112(%r10)\n"
        "    push 104(%r10)\n"
        "    push 96(%r10)\n"
        "    push 88(%r10)\n"
        "    push 80(%r10)\n"
        "    push 72(%r10)\n"
        "    push 64(%r10)\n"
        "    push 56(%r10)\n"
        "    push 48(%r10)\n"
        "    mov 40(%r10), %r9\n"
        "    mov 32(%r10), %r8\n"
        "    mov 24(%r10), %rcx\n"
        "    mov 16(%r10), %rdx\n"
        "    mov 8(%r10), %rsi\n"
        "    mov (%r10), %rdi\n"
        "    call *%rax\n"
        "    mov %rbx, %rsp\n"
        "    pop %rbx\n"
        "    ret\n"
        ".globl memset\n"
        "memset:\n"
        "    mov %rdi, %r8\n"
        "    mov %esi, %eax\n"
        "    mov %rdx, %rcx\n"
        "    rep stosb\n"
        "    mov %r8, %rax\n"
        "    ret\n");

/* How deep the call's stack is not as it was painted, in bytes from where it begins down to the lowest that differs.
 * It is painted anew. */
static size_t used(void)
{
    size_t low = 0, clean = 0;
    while (low < DEPTH && stack[low] == PAINT)
        ++low;
    if (low < DEPTH)
        while ((stack[low] ^ PAINT) >> 8 * clean << 56 == 0)
            ++clean;
    size_t bytes = 8 * (DEPTH - ABOVE - low) - clean;
    while (low < DEPTH)
        stack[low++] = PAINT;
    return bytes;
}

/* ---- the calls */
static struct call {
    const char *name;
    const void *function;
    size_t seen;
} calls[] = {
    {"heskavern_format", heskavern_format, 0},
    {"heskavern_ask", heskavern_ask, 0},
    {"heskavern_ask_all", heskavern_ask_all, 0},
    {"heskavern_give_back", heskavern_give_back, 0},
    {"heskavern_resize", heskavern_resize, 0},
    {"heskavern_write", heskavern_write, 0},
    {"heskavern_view_size", heskavern_view_size, 0},
    {"heskavern_roll_call", heskavern_roll_call, 0},
    {"heskavern_audit", heskavern_audit, 0},
    {"heskavern_compare", heskavern_compare, 0},
};
enum { FORMAT, ASK, ASK_ALL, GIVE_BACK, RESIZE, WRITE, VIEW_SIZE, ROLL_CALL, AUDIT, COMPARE, CALLS };

/* The six words of the heap, and of the one as it was. */
#define LENT(memory, books, map) (uintptr_t)(memory), HESKAVERN_MEMORY_BYTES(arenas, pools), \
    (uintptr_t)(books), HESKAVERN_BOOKS_WORDS(arenas, pools), (uintptr_t)(map), HESKAVERN_MAP_WORDS(arenas, pools)
#define NOW LENT(memory, books, map)
#define THEN LENT(memory_then, books_then, map_then)

static heskavern_answer call_with(int which, const uint64_t words[WORDS])
{
    heskavern_answer answer = on_stack(calls[which].function, words, stack + DEPTH);
    size_t bytes = used();
    if (bytes > calls[which].seen)
        calls[which].seen = bytes;
    return answer;
}

static heskavern_answer call(int which, uint64_t seventh, uint64_t eighth, uint64_t ninth)
{
    const uint64_t words[WORDS] = {NOW, seventh, eighth, ninth};
    return call_with(which, words);
}

/* A size, mostly one that soon fills a pool. */
static uint32_t some_size(void)
{
    return below(4) ? 512 - 8 * below(4) : below(HESKAVERN_LARGEST + 2);
}

/* Asks for a row, and answers what its first request was answered. */
static heskavern_answer ask_row(void)
{
    for (int i = 0; i < ROW; ++i)
        row[i].size = some_size();
    call(ASK_ALL, (uintptr_t)row, between(1, ROW), 0);
    return (heskavern_answer){row[0].number, row[0].offset};
}

/* Compares the heap as it was and as it is, mostly with room, and now and then keeps it as it is. */
static void compare(void)
{
    const uint64_t room = below(4) ? sizeof roll / sizeof *roll : below(40);
    const uint64_t words[WORDS] = {THEN, NOW, (uintptr_t)roll, room, (uintptr_t)changes, HESKAVERN_CHANGES};
    call_with(COMPARE, words);
    if (below(4) == 0) {
        memcpy(memory_then, memory, sizeof memory);
        memcpy(books_then, books, sizeof books);
        memcpy(map_then, map, sizeof map);
    }
}

/* A number that the books might hold: a link, an in-pool offset, or anything. */
static uint32_t word(void)
{
    switch (below(4)) {
    case 0: return below((uint32_t)(arenas * pools) + 2);
    case 1: return 48 + 8 * below(506);
    case 2: return below(64);
    default: return between(0, UINT32_MAX - 1);
    }
}

/* Damages one place of the books past A and P, of the map, or of a block's link. */
static void damage(void)
{
    uint32_t count = (uint32_t)(arenas * pools);
    switch (below(3)) {
    case 0: books[between(2, (uint32_t)HESKAVERN_BOOKS_WORDS(arenas, pools) - 1)] = word(); break;
    case 1: map[below(8 * count)] ^= (uint64_t)1 << below(64); break;
    default: {
        uint32_t at = 4096 * below(count) + 48 + 8 * below(506), link = word();
        for (int i = 0; i < 4; ++i)
            memory[at + i] = (uint8_t)(link >> 8 * i);
    }
    }
}

/* One call, mostly on an offset that was answered. */
static void step(void)
{
    static const int turns[] = {ASK,    ASK,    ASK,   ASK_ALL,   GIVE_BACK, GIVE_BACK, GIVE_BACK, GIVE_BACK,
                                RESIZE, RESIZE, WRITE, VIEW_SIZE, ROLL_CALL, AUDIT,     COMPARE};
    int which = turns[below(sizeof turns / sizeof *turns)];
    uint32_t *place = &kept[below(KEPT)], end = (uint32_t)HESKAVERN_MEMORY_BYTES(arenas, pools);
    uint32_t offset = below(16) ? *place : 8 * below(end / 8 + 2);
    heskavern_answer answer = {0, 0};
    switch (which) {
    case ASK: answer = call(which, some_size(), 0, 0); break;
    case ASK_ALL: answer = ask_row(); break;
    case RESIZE: answer = call(which, offset, some_size(), 0); break;
    case WRITE: call(which, offset, (uintptr_t)text, below(sizeof text)); break;
    case ROLL_CALL: call(which, (uintptr_t)roll, below(4) ? sizeof roll / sizeof *roll : below(40), 0); break;
    case COMPARE: compare(); break;
    default: call(which, offset, 0, 0);
    }
    if (answer.value != 0)
        *place = answer.value;
}

int main(int argc, char **argv)
{
    unsigned long heaps = argc == 3 ? strtoul(argv[1], NULL, 10) : 0;
    random_state = argc == 3 ? strtoull(argv[2], NULL, 10) : 0;
    used();
    for (unsigned long heap = 0; heap < heaps; ++heap) {
        arenas = between(1, ARENAS);
        pools = between(2, POOLS);
        if (call(FORMAT, arenas, pools, heap / 2 % 2).number != HESKAVERN_DONE)
            return 1;
        for (int i = 0; i < STEPS; ++i) {
            if (heap % 2 && below(8) == 0)
                damage();
            step();
        }
    }
    for (int i = 0; i < CALLS; ++i)
        printf("%s %zu\n", calls[i].name, calls[i].seen);
    return 0;
}
