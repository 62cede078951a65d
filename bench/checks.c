/* 01, and what has landed of 02, read once more, in C: every check at every call, each step decided before it is
 * written. Nothing is proved of it; bench/verify.c holds it to the library's answers. Its times say what the checks
 * themselves cost. Roll call is here twice, by the library's passes over the map and by a plain loop; so is the
 * comparison of two heaps, with memcmp and with loops in its place. Compiled with CHECKS(name) for the names of its
 * calls. */
#include "checks.h"

#include <stdbool.h>
#include <string.h>

/* Everything but `refuse` is inlined into the calls, so that the struct of the buffers costs nothing. */
#define INLINE static inline __attribute__((always_inline))

enum { POOL_BYTES = 4096, FIRST_BLOCK = 48, LARGEST = 512, NO_CLASS = 65535 };
enum { USABLE_HEAD = 2, UNUSED_HEAD = 3, CLASS_HEADS = 4, EDITION = 68, RECORDS = 72, RECORD = 8 };
enum { NONE = 512 };    /* the number of no block: no pool has so many */

struct arena {
    uint32_t open, mark, free_pools, freed_head, next, previous, zero[2];
};

struct pool {
    uint32_t count, freeblock, next, previous, class, nextoffset, maxnextoffset, zero;
};

/* The lent buffers, and where the records stand in the books. */
struct heap {
    uint8_t *memory;
    uint32_t *books;
    uint64_t *map;
    struct arena *arena;
    struct pool *pool;
    uint32_t arenas, pools, all, edition;
};

INLINE heskavern_answer answer(uint32_t number, uint32_t value)
{
    heskavern_answer a = {number, value};
    return a;
}

/* ---- the tests that the calls begin with */

INLINE bool in_range(size_t arenas, size_t pools)
{
    return arenas >= 1 && arenas <= 16 && pools >= 2 && pools <= 64;
}

INLINE bool exact(size_t memory_bytes, size_t books_words, size_t map_words, size_t arenas, size_t pools)
{
    return memory_bytes == HESKAVERN_MEMORY_BYTES(arenas, pools) && books_words == HESKAVERN_BOOKS_WORDS(arenas, pools)
        && map_words == HESKAVERN_MAP_WORDS(arenas, pools);
}

/* 1 or 2, for the numbers that the books hold. Where there is neither, the heap can be used. The edition comes before
 * the lengths, but books of the exact length reach its word: whether they do is asked only where a length is wrong. */
INLINE uint32_t open_heap(struct heap *h, const uint8_t *memory, size_t memory_bytes, const uint32_t *books,
                          size_t books_words, const uint64_t *map, size_t map_words)
{
    if (books_words < 2)
        return HESKAVERN_NOT_EXACT;
    if (!in_range(books[0], books[1]))
        return HESKAVERN_OUT_OF_RANGE;
    if (!exact(memory_bytes, books_words, map_words, books[0], books[1])) {
        bool no_edition = books_words > EDITION && books[EDITION] > HESKAVERN_SIXTEEN;
        return no_edition ? HESKAVERN_OUT_OF_RANGE : HESKAVERN_NOT_EXACT;
    }
    if (books[EDITION] > HESKAVERN_SIXTEEN)
        return HESKAVERN_OUT_OF_RANGE;
    h->memory = (uint8_t *)memory;
    h->books = (uint32_t *)books;
    h->map = (uint64_t *)map;
    h->arenas = books[0];
    h->pools = books[1];
    h->all = h->arenas * h->pools;
    h->edition = books[EDITION];
    h->arena = (struct arena *)(h->books + RECORDS);
    h->pool = (struct pool *)(h->books + RECORDS + RECORD * h->arenas);
    return HESKAVERN_DONE;
}

/* Classes and sizes go by 8 in edition 0, and by 16 in edition 1. */
INLINE uint32_t class_of(uint32_t edition, size_t n)
{
    return (uint32_t)(n - 1) >> (3 + edition);
}

INLINE uint32_t size_of(uint32_t edition, uint32_t class)
{
    return (class + 1) << (3 + edition);
}

INLINE uint32_t last_class(uint32_t edition)
{
    return class_of(edition, LARGEST);
}

INLINE bool has_class(const struct heap *h, uint32_t p)
{
    return h->pool[p].class <= last_class(h->edition);
}

INLINE uint32_t size_of_pool(const struct heap *h, uint32_t p)
{
    return size_of(h->edition, h->pool[p].class);
}

/* Which block starts at this place of a pool, or NONE. */
INLINE uint32_t block_at(uint32_t size, uint32_t place)
{
    if (place < FIRST_BLOCK || place > POOL_BYTES - size)
        return NONE;
    uint32_t k = (place - FIRST_BLOCK) / size;
    return k * size == place - FIRST_BLOCK ? k : NONE;
}

INLINE uint64_t *map_word(const struct heap *h, uint32_t p, uint32_t k)
{
    return &h->map[8 * p + k / 64];
}

INLINE bool is_set(const struct heap *h, uint32_t p, uint32_t k)
{
    return *map_word(h, p, k) >> k % 64 & 1;
}

/* Which block of its pool is live at this offset, or NONE. */
INLINE uint32_t live_at(const struct heap *h, size_t offset)
{
    if (offset >= (size_t)h->all * POOL_BYTES)
        return NONE;
    uint32_t p = (uint32_t)(offset / POOL_BYTES);
    if (!has_class(h, p))
        return NONE;
    uint32_t k = block_at(size_of_pool(h, p), offset % POOL_BYTES);
    return k != NONE && is_set(h, p, k) ? k : NONE;
}

/* The refusal of an offset at which no block is live: 10 where one starts there, below nextoffset, in a pool that is
 * carved, and otherwise 5. It stands apart, so that nothing of it is done for a live offset. */
static __attribute__((noinline, cold)) heskavern_answer refuse(const uint32_t *books, size_t offset)
{
    uint32_t arenas = books[0], pools = books[1], edition = books[EDITION];
    uint32_t p = (uint32_t)(offset / POOL_BYTES), place = offset % POOL_BYTES;
    if (offset >= HESKAVERN_MEMORY_BYTES(arenas, pools))
        return answer(HESKAVERN_NO_BLOCK, 0);
    const struct arena *arena = (const struct arena *)(books + RECORDS) + p / pools;
    const struct pool *pool = (const struct pool *)(books + RECORDS + RECORD * arenas) + p;
    bool carved = arena->open == 1 && p % pools < arena->mark;
    if (!carved || pool->class > last_class(edition) || place >= pool->nextoffset)
        return answer(HESKAVERN_NO_BLOCK, 0);
    bool starts = block_at(size_of(edition, pool->class), place) != NONE;
    return answer(starts ? HESKAVERN_DEAD_BLOCK : HESKAVERN_NO_BLOCK, 0);
}

/* ---- links and lists */

INLINE uint32_t get_link(const uint8_t *b)
{
    return b[0] | (uint32_t)b[1] << 8 | (uint32_t)b[2] << 16 | (uint32_t)b[3] << 24;
}

INLINE void put_link(uint8_t *b, uint32_t link)
{
    b[0] = (uint8_t)link;
    b[1] = (uint8_t)(link >> 8);
    b[2] = (uint8_t)(link >> 16);
    b[3] = (uint8_t)(link >> 24);
}

INLINE uint8_t *place_in(const struct heap *h, uint32_t p, uint32_t place)
{
    return h->memory + (size_t)POOL_BYTES * p + place;
}

/* Member n, whose next word is links[8n] and whose previous word comes after it, leaves the list of this head. */
INLINE void leave(uint32_t *links, uint32_t *head, uint32_t n)
{
    uint32_t *own = links + RECORD * n, next = own[0], previous = own[1];
    if (previous == 0)
        *head = next;
    else
        links[RECORD * (previous - 1)] = next;
    if (next != 0)
        links[RECORD * (next - 1) + 1] = previous;
    own[0] = 0;
    own[1] = 0;
}

/* Member n goes into a list at this place, the head or the next word of a member, and has this previous: 0 or the link
 * to that member. */
INLINE void go_in(uint32_t *links, uint32_t *place, uint32_t previous, uint32_t n)
{
    uint32_t *own = links + RECORD * n, next = *place;
    own[0] = next;
    own[1] = previous;
    if (next != 0)
        links[RECORD * (next - 1) + 1] = n + 1;
    *place = n + 1;
}

INLINE void join(uint32_t *links, uint32_t *head, uint32_t n)
{
    go_in(links, head, 0, n);
}

INLINE bool pool_may_leave(const struct heap *h, uint32_t p)
{
    return h->pool[p].next <= h->all && h->pool[p].previous <= h->all;
}

INLINE bool arena_may_leave(const struct heap *h, uint32_t a)
{
    return h->arena[a].next <= h->arenas && h->arena[a].previous <= h->arenas;
}

/* ---- ask */

/* Which block starts at this place of pool p and is not live, or NONE. */
INLINE uint32_t spare_at(const struct heap *h, uint32_t p, uint32_t size, uint32_t place)
{
    uint32_t k = block_at(size, place);
    return k != NONE && !is_set(h, p, k) ? k : NONE;
}

INLINE heskavern_answer hand_out(const struct heap *h, uint32_t p, uint32_t place, uint32_t k)
{
    *map_word(h, p, k) |= (uint64_t)1 << k % 64;
    return answer(HESKAVERN_DONE, POOL_BYTES * p + place);
}

/* From pool p, the front one of its class list. */
INLINE heskavern_answer ask_listed(const struct heap *h, uint32_t class, uint32_t size, uint32_t p)
{
    struct pool *pool = &h->pool[p];
    if (pool->class != class || pool->maxnextoffset != POOL_BYTES - size || pool->count > 505)
        return answer(HESKAVERN_DAMAGED, 0);
    uint32_t place = pool->freeblock, k = spare_at(h, p, size, place);
    if (k == NONE)
        return answer(HESKAVERN_DAMAGED, 0);
    uint32_t link = get_link(place_in(h, p, place));
    if (link != 0) {
        if (spare_at(h, p, size, link) == NONE)
            return answer(HESKAVERN_DAMAGED, 0);
        pool->count++;
        pool->freeblock = link;
    } else if (pool->nextoffset <= pool->maxnextoffset) {
        uint32_t following = pool->nextoffset;
        if (spare_at(h, p, size, following) == NONE)
            return answer(HESKAVERN_DAMAGED, 0);
        pool->count++;
        pool->freeblock = following;
        pool->nextoffset = following + size;
        put_link(place_in(h, p, following), 0);
    } else {
        if (!pool_may_leave(h, p))
            return answer(HESKAVERN_DAMAGED, 0);
        pool->count++;
        pool->freeblock = 0;
        leave(&h->pool->next, &h->books[CLASS_HEADS + class], p);
    }
    return hand_out(h, p, place, k);
}

/* Pool p, taken from arena a, goes alone on the class list. */
INLINE void list_alone(const struct heap *h, uint32_t class, uint32_t a, uint32_t p)
{
    if (--h->arena[a].free_pools == 0)
        leave(&h->arena->next, &h->books[USABLE_HEAD], a);
    h->books[CLASS_HEADS + class] = p + 1;
    h->pool[p].next = 0;
    h->pool[p].previous = 0;
    h->pool[p].count = 1;
}

INLINE heskavern_answer set_class(const struct heap *h, uint32_t class, uint32_t size, uint32_t p)
{
    struct pool *pool = &h->pool[p];
    pool->class = class;
    pool->nextoffset = FIRST_BLOCK + 2 * size;
    pool->maxnextoffset = POOL_BYTES - size;
    pool->freeblock = FIRST_BLOCK + size;
    put_link(place_in(h, p, FIRST_BLOCK + size), 0);
    return hand_out(h, p, FIRST_BLOCK, 0);
}

INLINE bool can_be_set(const struct heap *h, uint32_t p)
{
    return (*map_word(h, p, 0) & 3) == 0;
}

INLINE bool can_give_pool(const struct heap *h, uint32_t a)
{
    uint32_t free = h->arena[a].free_pools;
    return free >= 1 && free <= h->pools && (free != 1 || arena_may_leave(h, a));
}

/* From pool p, the first freed one of arena a. */
INLINE heskavern_answer ask_freed(const struct heap *h, uint32_t class, uint32_t size, uint32_t a, uint32_t p)
{
    struct pool *pool = &h->pool[p];
    uint32_t place = pool->freeblock, k = NONE, link = 0;
    bool again = pool->class == class;
    if (pool->next > h->all || !can_give_pool(h, a))
        return answer(HESKAVERN_DAMAGED, 0);
    if (again) {
        k = spare_at(h, p, size, place);
        if (k == NONE)
            return answer(HESKAVERN_DAMAGED, 0);
        link = get_link(place_in(h, p, place));
        if (link != 0 && spare_at(h, p, size, link) == NONE)
            return answer(HESKAVERN_DAMAGED, 0);
    } else if (!can_be_set(h, p)) {
        return answer(HESKAVERN_DAMAGED, 0);
    }
    h->arena[a].freed_head = pool->next;
    list_alone(h, class, a, p);
    if (!again)
        return set_class(h, class, size, p);
    pool->freeblock = link;
    return hand_out(h, p, place, k);
}

/* From the pool at the mark of arena a, whose words have been tested. */
INLINE heskavern_answer carve(const struct heap *h, uint32_t class, uint32_t size, uint32_t a, uint32_t p)
{
    h->arena[a].mark++;
    list_alone(h, class, a, p);
    return set_class(h, class, size, p);
}

INLINE heskavern_answer ask_usable(const struct heap *h, uint32_t class, uint32_t size, uint32_t a)
{
    uint32_t first = h->arena[a].freed_head, mark = h->arena[a].mark;
    if (first > h->all)
        return answer(HESKAVERN_DAMAGED, 0);
    if (first != 0)
        return ask_freed(h, class, size, a, first - 1);
    if (mark >= h->pools || !can_give_pool(h, a) || !can_be_set(h, a * h->pools + mark))
        return answer(HESKAVERN_DAMAGED, 0);
    return carve(h, class, size, a, a * h->pools + mark);
}

/* From arena a, the first unused one, where none is usable. */
INLINE heskavern_answer ask_unused(const struct heap *h, uint32_t class, uint32_t size, uint32_t a)
{
    struct arena *arena = &h->arena[a];
    if (!arena_may_leave(h, a) || !can_be_set(h, a * h->pools))
        return answer(HESKAVERN_DAMAGED, 0);
    leave(&h->arena->next, &h->books[UNUSED_HEAD], a);
    join(&h->arena->next, &h->books[USABLE_HEAD], a);
    arena->open = 1;
    arena->mark = 0;
    arena->freed_head = 0;
    arena->free_pools = h->pools;
    return carve(h, class, size, a, a * h->pools);
}

INLINE heskavern_answer ask_unlisted(const struct heap *h, uint32_t class, uint32_t size)
{
    uint32_t usable = h->books[USABLE_HEAD], unused = h->books[UNUSED_HEAD];
    if (usable > h->arenas)
        return answer(HESKAVERN_DAMAGED, 0);
    if (usable != 0)
        return ask_usable(h, class, size, usable - 1);
    if (unused == 0)
        return answer(HESKAVERN_NO_ROOM, 0);
    if (unused > h->arenas)
        return answer(HESKAVERN_DAMAGED, 0);
    return ask_unused(h, class, size, unused - 1);
}

INLINE heskavern_answer ask_step(const struct heap *h, size_t n)
{
    uint32_t class = class_of(h->edition, n), size = size_of(h->edition, class), front = h->books[CLASS_HEADS + class];
    if (front == 0)
        return ask_unlisted(h, class, size);
    if (front > h->all)
        return answer(HESKAVERN_DAMAGED, 0);
    return ask_listed(h, class, size, front - 1);
}

/* An ask, but for the tests of the shape. */
INLINE heskavern_answer ask_sized(const struct heap *h, size_t size)
{
    if (size < 1 || size > LARGEST)
        return answer(HESKAVERN_BAD_SIZE, 0);
    return ask_step(h, size);
}

/* ---- give back */

/* The block at this place goes to the front of its pool's freed blocks. */
INLINE void put_back(const struct heap *h, uint32_t p, uint32_t place, uint32_t k)
{
    *map_word(h, p, k) &= ~((uint64_t)1 << k % 64);
    put_link(place_in(h, p, place), h->pool[p].freeblock);
    h->pool[p].freeblock = place;
    h->pool[p].count--;
}

/* Whether arena a, with one more free pool, can move back past the arenas that follow it and have fewer; *last becomes
 * the link to the last of these, or stays where there is none. Damaged links may lead round, so at most A are passed;
 * they may lead back to a, which is not passed: it has as many as itself. Own previous is used only where it moves. */
INLINE bool may_move(const struct heap *h, uint32_t a, uint32_t *last)
{
    uint32_t next = h->arena[a].next, free = h->arena[a].free_pools + 1;
    for (uint32_t more = h->arenas; next <= h->arenas; more--) {
        if (next == 0 || next - 1 == a || h->arena[next - 1].free_pools >= free)
            return *last == 0 || h->arena[a].previous <= h->arenas;
        if (more == 0)
            return false;
        *last = next;
        next = h->arena[next - 1].next;
    }
    return false;
}

/* What an emptied pool and its arena ask of the books. Where the arena is to move, *last becomes the link to the arena
 * that it goes in after. */
INLINE bool may_empty(const struct heap *h, uint32_t a, uint32_t p, uint32_t *last)
{
    uint32_t free = h->arena[a].free_pools;
    if (!pool_may_leave(h, p) || h->arena[a].freed_head > h->all || free > h->pools - 1)
        return false;
    if (free + 1 == h->pools)
        return arena_may_leave(h, a) && h->books[UNUSED_HEAD] <= h->arenas;
    return free == 0 ? h->books[USABLE_HEAD] <= h->arenas : may_move(h, a, last);
}

/* Pool p, at count 0, goes to the freed pools of arena a, which may then be released or newly usable, or moves to after
 * the last, if there is one. */
INLINE void empty_pool(const struct heap *h, uint32_t class, uint32_t a, uint32_t p, uint32_t last)
{
    struct arena *arena = &h->arena[a];
    leave(&h->pool->next, &h->books[CLASS_HEADS + class], p);
    h->pool[p].next = arena->freed_head;
    arena->freed_head = p + 1;
    arena->free_pools++;
    if (arena->free_pools == h->pools) {
        leave(&h->arena->next, &h->books[USABLE_HEAD], a);
        memset(arena, 0, sizeof *arena);
        join(&h->arena->next, &h->books[UNUSED_HEAD], a);
    } else if (arena->free_pools == 1) {
        join(&h->arena->next, &h->books[USABLE_HEAD], a);
    } else if (last != 0) {
        leave(&h->arena->next, &h->books[USABLE_HEAD], a);
        go_in(&h->arena->next, &h->arena[last - 1].next, last, a);
    }
}

/* Block k of its pool is live at this offset. */
INLINE uint32_t back_step(const struct heap *h, size_t offset, uint32_t k)
{
    uint32_t p = (uint32_t)(offset / POOL_BYTES), place = offset % POOL_BYTES;
    struct pool *pool = &h->pool[p];
    uint32_t class = pool->class, free = pool->freeblock, count = pool->count;
    if (count < 1 || count > 506)
        return HESKAVERN_DAMAGED;
    if (free == 0) {
        if (h->books[CLASS_HEADS + class] > h->all)
            return HESKAVERN_DAMAGED;
        put_back(h, p, place, k);
        join(&h->pool->next, &h->books[CLASS_HEADS + class], p);
        return HESKAVERN_DONE;
    }
    if (block_at(size_of(h->edition, class), free) == NONE)
        return HESKAVERN_DAMAGED;
    if (count == 1) {
        uint32_t a = p / h->pools, last = 0;
        if (!may_empty(h, a, p, &last))
            return HESKAVERN_DAMAGED;
        put_back(h, p, place, k);
        empty_pool(h, class, a, p, last);
        return HESKAVERN_DONE;
    }
    put_back(h, p, place, k);
    return HESKAVERN_DONE;
}

/* ---- roll call */

/* No bit of pool p is set, be it at a block or at none. */
INLINE bool none_set(const struct heap *h, uint32_t p)
{
    const uint64_t *m = map_word(h, p, 0);
    return (m[0] | m[1] | m[2] | m[3] | m[4] | m[5] | m[6] | m[7]) == 0;
}

/* Offset and size of each live block of pool p, from set bit to set bit; the roll's end after them. A bit whose block
 * would start past the last one is at no block, and so are all after it. */
INLINE uint32_t *put_pool(const struct heap *h, uint32_t p, uint32_t *roll)
{
    const uint64_t *word = map_word(h, p, 0);
    uint32_t size = size_of_pool(h, p), first = POOL_BYTES * p + FIRST_BLOCK, last = POOL_BYTES * (p + 1) - size;
    for (; first <= last; first += 64 * size, word++) {
        for (uint64_t left = *word; left != 0; left &= left - 1) {
            uint32_t offset = first + (uint32_t)__builtin_ctzll(left) * size;
            if (offset > last)
                return roll;
            *roll++ = offset;
            *roll++ = size;
        }
    }
    return roll;
}

INLINE uint32_t *put_roll(const struct heap *h, uint32_t *roll)
{
    for (uint32_t p = 0; p < h->all; p++)
        if (!none_set(h, p) && has_class(h, p))
            roll = put_pool(h, p, roll);
    return roll;
}

/* The live blocks among 64w to 64w + 63 of pool p, where a pool has so many blocks. */
INLINE uint64_t live_word(const struct heap *h, uint32_t p, uint32_t w, uint32_t blocks)
{
    uint64_t word = h->map[8 * p + w];
    return blocks - 64 * w < 64 ? word & (((uint64_t)1 << (blocks - 64 * w)) - 1) : word;
}

/* Adds the live blocks of pool p, which has a class. */
INLINE void add_live(const struct heap *h, uint32_t p, uint32_t *live)
{
    uint32_t blocks = (POOL_BYTES - FIRST_BLOCK) / size_of_pool(h, p);
    for (uint32_t w = 0; 64 * w < blocks; w++) {
        uint64_t word = live_word(h, p, w, blocks);
        if (word != 0)
            *live += (uint32_t)__builtin_popcountll(word);
    }
}

/* How many blocks are live. Pools with no bit set are passed over where that is wanted. */
INLINE uint32_t count_live(const struct heap *h, bool pass_over)
{
    uint32_t live = 0;
    for (uint32_t p = 0; p < h->all; p++) {
        if ((pass_over && none_set(h, p)) || !has_class(h, p))
            continue;
        add_live(h, p, &live);
    }
    return live;
}

/* The same roll by a plain loop: every word of every pool that has a class, without the bits past its last block. */
INLINE void put_plain_roll(const struct heap *h, uint32_t *roll)
{
    for (uint32_t p = 0; p < h->all; p++) {
        if (!has_class(h, p))
            continue;
        uint32_t size = size_of_pool(h, p), blocks = (POOL_BYTES - FIRST_BLOCK) / size;
        for (uint32_t w = 0; 64 * w < blocks; w++) {
            for (uint64_t word = live_word(h, p, w, blocks); word != 0; word &= word - 1) {
                uint32_t k = 64 * w + (uint32_t)__builtin_ctzll(word);
                *roll++ = POOL_BYTES * p + FIRST_BLOCK + k * size;
                *roll++ = size;
            }
        }
    }
}

/* ---- the audit: 02's rules in their order, each over the whole heap before the next; whether each is kept */

/* What is found out once, on the way to rule 4, for it and those after it: of each pool how many of its bits are set;
 * of each pool and each arena its home, the head word of the list that it belongs to, or one of two that are no list's;
 * and of each head how many are at home there. */
enum { MOST_ARENAS = 16, MOST_POOLS = 64 * MOST_ARENAS, CLASSES = 64, FREED_HEAD = 3 };
enum { NO_LIST = 0, NOT_CARVED = 1, HEADS = RECORDS + RECORD * MOST_ARENAS };

struct found {
    uint16_t set[MOST_POOLS], members[HEADS];
    uint8_t home[MOST_POOLS], arena_home[MOST_ARENAS];
};

/* 2, but for the edition, which has been tested. */
INLINE bool zeros(const struct heap *h)
{
    if ((h->books[69] | h->books[70] | h->books[71]) != 0)
        return false;
    for (uint32_t a = 0; a < h->arenas; a++)
        if (h->arena[a].open > 1 || (h->arena[a].zero[0] | h->arena[a].zero[1]) != 0)
            return false;
    for (uint32_t p = 0; p < h->all; p++)
        if (h->pool[p].zero != 0)
            return false;
    return true;
}

/* 3. */
INLINE bool closed_arenas(const struct heap *h)
{
    for (uint32_t a = 0; a < h->arenas; a++) {
        const struct arena *arena = &h->arena[a];
        if (arena->open == 0 && (arena->mark | arena->free_pools | arena->freed_head) != 0)
            return false;
    }
    return true;
}

/* How many bits of pool p are set, be it at a block or at none. */
INLINE uint32_t set_bits(const struct heap *h, uint32_t p)
{
    const uint64_t *m = map_word(h, p, 0);
    uint32_t set = 0;
    if (none_set(h, p))
        return 0;
    for (uint32_t w = 0; w < 8; w++)
        set += (uint32_t)__builtin_popcountll(m[w]);
    return set;
}

/* How many blocks pool p has: none, where it has no class. */
INLINE uint32_t blocks_of_pool(const struct heap *h, uint32_t p)
{
    return has_class(h, p) ? (POOL_BYTES - FIRST_BLOCK) / size_of_pool(h, p) : 0;
}

/* The home of pool p, which is carved and of arena a. */
INLINE uint32_t home_of(const struct heap *h, uint32_t a, uint32_t p, uint32_t set)
{
    if (set == 0)
        return RECORDS + RECORD * a + FREED_HEAD;
    return set < blocks_of_pool(h, p) ? CLASS_HEADS + h->pool[p].class : NO_LIST;
}

/* Looks at the pools of arena a; how many of them are in use. */
INLINE uint32_t look(const struct heap *h, uint32_t a, struct found *f)
{
    const struct arena *arena = &h->arena[a];
    uint32_t first = a * h->pools, in_use = 0;
    for (uint32_t i = 0; i < h->pools; i++) {
        uint32_t p = first + i, set = set_bits(h, p);
        bool carved = arena->open == 1 && i < arena->mark;
        uint32_t home = carved ? home_of(h, a, p, set) : NOT_CARVED;
        f->set[p] = (uint16_t)set;
        f->home[p] = (uint8_t)home;
        f->members[home]++;
        in_use += carved && set != 0;
    }
    return in_use;
}

/* 4. How many pools are in use is found here, with all that the rules after it want to know. */
INLINE bool open_arenas(const struct heap *h, struct found *f)
{
    for (uint32_t a = 0; a < h->arenas; a++) {
        const struct arena *arena = &h->arena[a];
        uint32_t in_use = look(h, a, f), usable = arena->free_pools != 0 ? USABLE_HEAD : NO_LIST;
        if (arena->open == 1
            && (arena->mark < 1 || arena->mark > h->pools || arena->free_pools != h->pools - in_use))
            return false;
        f->arena_home[a] = (uint8_t)(arena->open == 1 ? usable : UNUSED_HEAD);
        f->members[f->arena_home[a]]++;
    }
    return true;
}

/* No bit of pool p is set from block v on. */
INLINE bool none_from(const struct heap *h, uint32_t p, uint32_t v)
{
    const uint64_t *m = map_word(h, p, 0);
    uint64_t left = m[v / 64] >> v % 64;
    for (uint32_t w = v / 64 + 1; w < 8; w++)
        left |= m[w];
    return left == 0;
}

/* 5. */
INLINE bool bits_at_blocks(const struct heap *h, const struct found *f)
{
    for (uint32_t p = 0; p < h->all; p++)
        if (f->set[p] != 0 && (f->home[p] == NOT_CARVED || !none_from(h, p, blocks_of_pool(h, p))))
            return false;
    return true;
}

/* The list of this head has just those that are at home there, once: so many are met, and then it ends. A walk that
 * ends meets none twice, for it would go on as it went before. The next word of record n, of so many at most, is
 * links[8n], and the previous word comes after it: the link to the one before, or 0 in all, where the list is not
 * doubly linked. (No link, 0, less 1 is above all records.) */
INLINE bool list_has(const struct heap *h, const uint32_t *links, const uint8_t *home, uint32_t most, uint32_t members,
                     uint32_t head, bool doubly)
{
    uint32_t link = h->books[head], previous = 0;
    for (; members != 0; members--) {
        uint32_t n = link - 1;
        if (n >= most || home[n] != head || links[RECORD * n + 1] != previous)
            return false;
        previous = doubly ? link : 0;
        link = links[RECORD * n];
    }
    return link == 0;
}

/* What is on no list has both links 0. */
INLINE bool unlisted(const uint32_t *links, const uint8_t *home, uint32_t most)
{
    for (uint32_t n = 0; n < most; n++)
        if (home[n] == NO_LIST && (links[RECORD * n] | links[RECORD * n + 1]) != 0)
            return false;
    return true;
}

/* 6. */
INLINE bool lists(const struct heap *h, const struct found *f)
{
    const uint32_t *arenas = &h->arena->next, *pools = &h->pool->next;
    for (uint32_t a = 0; a < h->arenas; a++) {
        uint32_t head = RECORDS + RECORD * a + FREED_HEAD;
        if (!list_has(h, pools, f->home, h->all, f->members[head], head, false))
            return false;
    }
    for (uint32_t head = USABLE_HEAD; head <= UNUSED_HEAD; head++)
        if (!list_has(h, arenas, f->arena_home, h->arenas, f->members[head], head, true))
            return false;
    for (uint32_t head = CLASS_HEADS; head < CLASS_HEADS + CLASSES; head++)
        if (!list_has(h, pools, f->home, h->all, f->members[head], head, true))
            return false;
    return unlisted(pools, f->home, h->all) && unlisted(arenas, f->arena_home, h->arenas);
}

/* 7. */
INLINE bool counts(const struct heap *h, const struct found *f)
{
    for (uint32_t p = 0; p < h->all; p++)
        if (h->pool[p].count != f->set[p])
            return false;
    return true;
}

/* From this link on, so many blocks of pool p are met that are not live and come before block v; then the chain ends,
 * and so it met none twice. */
INLINE bool chain_has(const struct heap *h, uint32_t p, uint32_t size, uint32_t v, uint32_t dead, uint32_t link)
{
    for (; dead != 0; dead--) {
        uint32_t k = block_at(size, link);
        if (k >= v || is_set(h, p, k))
            return false;
        link = get_link(place_in(h, p, link));
    }
    return link == 0;
}

/* Each block of pool p, of which so many are live, is one of these, or on the chain, or virgin: those from block v on,
 * at nextoffset. At least so many are on the chain. */
INLINE bool divided(const struct heap *h, uint32_t p, uint32_t live, uint32_t least)
{
    const struct pool *pool = &h->pool[p];
    if (!has_class(h, p))
        return false;
    uint32_t size = size_of_pool(h, p), blocks = blocks_of_pool(h, p);
    bool none_virgin = pool->nextoffset == FIRST_BLOCK + blocks * size;
    uint32_t v = none_virgin ? blocks : block_at(size, pool->nextoffset);
    return pool->maxnextoffset == POOL_BYTES - size && v != NONE && none_from(h, p, v) && v - live >= least
        && chain_has(h, p, size, v, v - live, pool->freeblock);
}

/* 8. A freed pool that was set to no class has words of 0: some of them the rules before this one have found so. */
INLINE bool blocks(const struct heap *h, const struct found *f)
{
    for (uint32_t p = 0; p < h->all; p++) {
        const struct pool *pool = &h->pool[p];
        bool freed = f->set[p] == 0, full = f->home[p] == NO_LIST;
        if (f->home[p] == NOT_CARVED)
            continue;
        if (freed && pool->class == NO_CLASS) {
            if ((pool->freeblock | pool->nextoffset | pool->maxnextoffset) != 0)
                return false;
        } else if (!divided(h, p, f->set[p], freed ? 2 : full ? 0 : 1)) {
            return false;
        }
    }
    return true;
}

/* 9. Of the usable arenas none has more free pools than the next. */
INLINE bool rising(const struct heap *h, const struct found *f)
{
    for (uint32_t a = 0; a < h->arenas; a++) {
        uint32_t next = h->arena[a].next;
        if (f->arena_home[a] == USABLE_HEAD && next != 0 && h->arena[a].free_pools > h->arena[next - 1].free_pools)
            return false;
    }
    return true;
}

INLINE uint32_t first_broken(const struct heap *h)
{
    struct found f;
    memset(f.members, 0, sizeof f.members);
    if (!zeros(h))
        return HESKAVERN_AUDIT_ZEROS;
    if (!closed_arenas(h))
        return HESKAVERN_AUDIT_CLOSED;
    if (!open_arenas(h, &f))
        return HESKAVERN_AUDIT_OPEN;
    if (!bits_at_blocks(h, &f))
        return HESKAVERN_AUDIT_BITS;
    if (!lists(h, &f))
        return HESKAVERN_AUDIT_LISTS;
    if (!counts(h, &f))
        return HESKAVERN_AUDIT_COUNTS;
    if (!blocks(h, &f))
        return HESKAVERN_AUDIT_BLOCKS;
    return rising(h, &f) ? HESKAVERN_AUDIT_YES : HESKAVERN_AUDIT_ORDER;
}

/* ---- two heaps side by side */

#include "differences.h"

/* ---- the calls */

heskavern_answer CHECKS(format)(const uint8_t *memory, size_t memory_bytes, uint32_t *books, size_t books_words,
                                uint64_t *map, size_t map_words, size_t arenas, size_t pools, size_t edition)
{
    if (!in_range(arenas, pools) || edition > HESKAVERN_SIXTEEN)
        return answer(HESKAVERN_OUT_OF_RANGE, 0);
    if (!exact(memory_bytes, books_words, map_words, arenas, pools))
        return answer(HESKAVERN_NOT_EXACT, 0);
    (void)memory;
    memset(books, 0, books_words * sizeof *books);
    memset(map, 0, map_words * sizeof *map);
    books[0] = (uint32_t)arenas;
    books[1] = (uint32_t)pools;
    books[UNUSED_HEAD] = 1;
    books[EDITION] = (uint32_t)edition;
    struct arena *arena = (struct arena *)(books + RECORDS);
    struct pool *pool = (struct pool *)(books + RECORDS + RECORD * arenas);
    for (uint32_t a = 0; a < arenas; a++) {
        arena[a].next = a + 1 < arenas ? a + 2 : 0;
        arena[a].previous = a;
    }
    for (uint32_t p = 0; p < arenas * pools; p++)
        pool[p].class = NO_CLASS;
    return answer(HESKAVERN_DONE, 0);
}

heskavern_answer CHECKS(ask)(uint8_t *memory, size_t memory_bytes, uint32_t *books, size_t books_words, uint64_t *map,
                             size_t map_words, size_t size)
{
    struct heap h;
    uint32_t number = open_heap(&h, memory, memory_bytes, books, books_words, map, map_words);
    if (number != HESKAVERN_DONE)
        return answer(number, 0);
    return ask_sized(&h, size);
}

heskavern_answer CHECKS(ask_all)(uint8_t *memory, size_t memory_bytes, uint32_t *books, size_t books_words,
                                 uint64_t *map, size_t map_words, heskavern_request *requests, size_t entries)
{
    struct heap h;
    uint32_t number = open_heap(&h, memory, memory_bytes, books, books_words, map, map_words);
    if (number != HESKAVERN_DONE)
        return answer(number, 0);
    if (entries > HESKAVERN_MOST_REQUESTS)
        return answer(HESKAVERN_DOES_NOT_FIT, 0);
    for (size_t i = 0; i < entries; i++) {
        heskavern_answer asked = ask_sized(&h, requests[i].size);
        requests[i].number = asked.number;
        requests[i].offset = asked.value;
    }
    return answer(HESKAVERN_DONE, 0);
}

heskavern_answer CHECKS(give_back)(uint8_t *memory, size_t memory_bytes, uint32_t *books, size_t books_words,
                                   uint64_t *map, size_t map_words, size_t offset)
{
    struct heap h;
    uint32_t number = open_heap(&h, memory, memory_bytes, books, books_words, map, map_words);
    if (number != HESKAVERN_DONE)
        return answer(number, 0);
    uint32_t k = live_at(&h, offset);
    if (k == NONE)
        return refuse(books, offset);
    number = back_step(&h, offset, k);
    return answer(number, number == HESKAVERN_DONE ? (uint32_t)offset : 0);
}

heskavern_answer CHECKS(resize)(uint8_t *memory, size_t memory_bytes, uint32_t *books, size_t books_words,
                                uint64_t *map, size_t map_words, size_t offset, size_t size)
{
    struct heap h;
    uint32_t number = open_heap(&h, memory, memory_bytes, books, books_words, map, map_words);
    if (number != HESKAVERN_DONE)
        return answer(number, 0);
    if (size < 1 || size > LARGEST)
        return answer(HESKAVERN_BAD_SIZE, 0);
    if (live_at(&h, offset) == NONE)
        return refuse(books, offset);
    size_t old = size_of_pool(&h, (uint32_t)(offset / POOL_BYTES));
    if (size <= old && 4 * size > 3 * old)
        return answer(HESKAVERN_DONE, (uint32_t)offset);
    heskavern_answer asked = ask_step(&h, size);
    if (asked.number != HESKAVERN_DONE)
        return asked;
    memcpy(memory + asked.value, memory + offset, size < old ? size : old);
    uint32_t k = live_at(&h, offset);
    if (k == NONE || back_step(&h, offset, k) != HESKAVERN_DONE)
        return answer(HESKAVERN_DAMAGED, asked.value);
    return asked;
}

heskavern_answer CHECKS(view_size)(const uint8_t *memory, size_t memory_bytes, const uint32_t *books,
                                   size_t books_words, const uint64_t *map, size_t map_words, size_t offset)
{
    struct heap h;
    uint32_t number = open_heap(&h, memory, memory_bytes, books, books_words, map, map_words);
    if (number != HESKAVERN_DONE)
        return answer(number, 0);
    if (live_at(&h, offset) == NONE)
        return refuse(books, offset);
    return answer(HESKAVERN_DONE, size_of_pool(&h, (uint32_t)(offset / POOL_BYTES)));
}

heskavern_part CHECKS(stand_in)(const uint8_t *memory, size_t memory_bytes, const uint32_t *books, size_t books_words,
                                const uint64_t *map, size_t map_words, size_t offset, const void *phrase,
                                size_t phrase_bytes)
{
    struct heap h;
    if (open_heap(&h, memory, memory_bytes, books, books_words, map, map_words) != HESKAVERN_DONE
        || live_at(&h, offset) == NONE)
        return (heskavern_part){phrase, phrase_bytes};
    return (heskavern_part){memory + offset, size_of_pool(&h, (uint32_t)(offset / POOL_BYTES))};
}

heskavern_answer CHECKS(write)(uint8_t *memory, size_t memory_bytes, const uint32_t *books, size_t books_words,
                               const uint64_t *map, size_t map_words, size_t offset, const void *text,
                               size_t text_bytes)
{
    struct heap h;
    uint32_t number = open_heap(&h, memory, memory_bytes, books, books_words, map, map_words);
    if (number != HESKAVERN_DONE)
        return answer(number, 0);
    if (live_at(&h, offset) == NONE)
        return refuse(books, offset);
    if (text_bytes > size_of_pool(&h, (uint32_t)(offset / POOL_BYTES)))
        return answer(HESKAVERN_DOES_NOT_FIT, 0);
    memcpy(memory + offset, text, text_bytes);
    return answer(HESKAVERN_DONE, (uint32_t)offset);
}

heskavern_answer CHECKS(roll_call)(const uint8_t *memory, size_t memory_bytes, const uint32_t *books,
                                   size_t books_words, const uint64_t *map, size_t map_words, uint32_t *roll,
                                   size_t roll_words)
{
    struct heap h;
    uint32_t number = open_heap(&h, memory, memory_bytes, books, books_words, map, map_words);
    if (number != HESKAVERN_DONE)
        return answer(number, 0);
    if (roll_words < HESKAVERN_ROLL_WORDS(h.arenas, h.pools) && roll_words < 2 * (size_t)count_live(&h, true))
        return answer(HESKAVERN_DOES_NOT_FIT, 0);
    return answer(HESKAVERN_DONE, (uint32_t)(put_roll(&h, roll) - roll) / 2);
}

heskavern_answer CHECKS(plain_roll_call)(const uint8_t *memory, size_t memory_bytes, const uint32_t *books,
                                         size_t books_words, const uint64_t *map, size_t map_words, uint32_t *roll,
                                         size_t roll_words)
{
    struct heap h;
    uint32_t number = open_heap(&h, memory, memory_bytes, books, books_words, map, map_words);
    if (number != HESKAVERN_DONE)
        return answer(number, 0);
    uint32_t live = count_live(&h, false);
    if (roll_words < 2 * (size_t)live)
        return answer(HESKAVERN_DOES_NOT_FIT, 0);
    put_plain_roll(&h, roll);
    return answer(HESKAVERN_DONE, live);
}

uint32_t CHECKS(audit)(const uint8_t *memory, size_t memory_bytes, const uint32_t *books, size_t books_words,
                       const uint64_t *map, size_t map_words)
{
    struct heap h;
    if (open_heap(&h, memory, memory_bytes, books, books_words, map, map_words) != HESKAVERN_DONE)
        return HESKAVERN_AUDIT_SHAPE;
    return first_broken(&h);
}

heskavern_answer CHECKS(compare)(const uint8_t *memory, size_t memory_bytes, const uint32_t *books, size_t books_words,
                                 const uint64_t *map, size_t map_words, const uint8_t *second_memory,
                                 size_t second_memory_bytes, const uint32_t *second_books, size_t second_books_words,
                                 const uint64_t *second_map, size_t second_map_words, uint32_t *list, size_t list_words,
                                 int32_t *changes, size_t changes_count)
{
    struct heap first, second;
    uint32_t number = open_heap(&first, memory, memory_bytes, books, books_words, map, map_words);
    if (number == HESKAVERN_DONE)
        number = open_heap(&second, second_memory, second_memory_bytes, second_books, second_books_words, second_map,
                           second_map_words);
    if (number != HESKAVERN_DONE)
        return answer(number, 0);
    return compare_step(&first, &second, list, list_words, changes, changes_count, false);
}

heskavern_answer CHECKS(grouped_compare)(const uint8_t *memory, size_t memory_bytes, const uint32_t *books,
                                         size_t books_words, const uint64_t *map, size_t map_words,
                                         const uint8_t *second_memory, size_t second_memory_bytes,
                                         const uint32_t *second_books, size_t second_books_words,
                                         const uint64_t *second_map, size_t second_map_words, uint32_t *list,
                                         size_t list_words, int32_t *changes, size_t changes_count)
{
    struct heap first, second;
    uint32_t number = open_heap(&first, memory, memory_bytes, books, books_words, map, map_words);
    if (number == HESKAVERN_DONE)
        number = open_heap(&second, second_memory, second_memory_bytes, second_books, second_books_words, second_map,
                           second_map_words);
    if (number != HESKAVERN_DONE)
        return answer(number, 0);
    return compare_step(&first, &second, list, list_words, changes, changes_count, true);
}
