/* A sound heap that is spoilt in one place: each kind of place, with the rule of the audit that this breaks, whatever
 * the heap and wherever the place. For verify.c, after random.h. */
#include <stdbool.h>
#include <stddef.h>
#include <stdint.h>
#include <string.h>

struct sound_heap {
    uint8_t *memory;
    uint32_t *books;
    uint64_t *map;
    size_t arenas, pools;
};

/* Whose word is spoilt: the books' own, or one of the record of an arena or of a pool that is so. */
enum whose { BOOKS, CLOSED, OPEN, USABLE, SPENT, ANY_POOL, CARVED, LISTED, FREED, FULL, IN_USE, NOT_CARVED };

/* The words of a record, by their places there. */
enum { OPEN_WORD, MARK, FREE_POOLS, FREED_HEAD, ARENA_NEXT, ARENA_PREVIOUS, ARENA_LAST };
enum { COUNT, FREEBLOCK, NEXT, PREVIOUS, CLASS, NEXTOFFSET, MAXNEXTOFFSET, LAST };

static uint32_t *record_of_arena(const struct sound_heap *h, size_t a)
{
    return h->books + 72 + 8 * a;
}

static uint32_t *record_of_pool(const struct sound_heap *h, size_t p)
{
    return h->books + 72 + 8 * h->arenas + 8 * p;
}

/* How many arenas or pools there are. */
static size_t all_of(const struct sound_heap *h, enum whose whose)
{
    return whose <= SPENT ? h->arenas : h->arenas * h->pools;
}

/* The size of the blocks of pool p, and how many it has; every pool that was carved has a class. */
static uint32_t size_in(const struct sound_heap *h, size_t p)
{
    return (record_of_pool(h, p)[CLASS] + 1) << (3 + h->books[68]);
}

static uint32_t blocks_of(const struct sound_heap *h, size_t p)
{
    return 4048 / size_in(h, p);
}

static bool arena_is(const struct sound_heap *h, enum whose whose, size_t a)
{
    const uint32_t *arena = record_of_arena(h, a);
    switch (whose) {
    case CLOSED: return arena[OPEN_WORD] == 0;
    case OPEN: return arena[OPEN_WORD] == 1;
    case USABLE: return arena[OPEN_WORD] == 1 && arena[FREE_POOLS] != 0;
    default: return arena[OPEN_WORD] == 1 && arena[FREE_POOLS] == 0;
    }
}

static bool pool_is(const struct sound_heap *h, enum whose whose, size_t p)
{
    const uint32_t *arena = record_of_arena(h, p / h->pools), count = record_of_pool(h, p)[COUNT];
    const bool carved = arena[OPEN_WORD] == 1 && p % h->pools < arena[MARK];
    const bool full = carved && count == blocks_of(h, p);
    switch (whose) {
    case CARVED: return carved;
    case LISTED: return carved && count != 0 && !full;
    case FREED: return carved && count == 0;
    case FULL: return full;
    case IN_USE: return carved && count != 0;
    case NOT_CARVED: return !carved;
    default: return true;
    }
}

/* Any arena or pool that is so, or where none is the number of all. */
static size_t any_of(const struct sound_heap *h, enum whose whose)
{
    const size_t all = all_of(h, whose), first = below((uint32_t)all);
    for (size_t i = 0; i < all; i++) {
        size_t n = (first + i) % all;
        if (whose <= SPENT ? arena_is(h, whose, n) : pool_is(h, whose, n))
            return n;
    }
    return all;
}

/* What a word may become: not what it is, and at least so much. Small ones are links, larger ones places of blocks. */
static uint32_t other_than(uint32_t word, uint32_t least)
{
    uint32_t other = word;
    while (other == word)
        other = least + (below(2) == 0 ? below(5) : below(8) == 0 ? between(4088, 70000) : 48 + 8 * below(506));
    return other;
}

/* ---- what is no word of the books; each gives false where the heap has no such place */

static bool is_live(const struct sound_heap *h, size_t p, uint32_t k)
{
    return h->map[8 * p + k / 64] >> k % 64 & 1;
}

static void flip(const struct sound_heap *h, size_t p, uint32_t k)
{
    h->map[8 * p + k / 64] ^= (uint64_t)1 << k % 64;
}

static bool spoil_not_carved(const struct sound_heap *h)
{
    const size_t p = any_of(h, NOT_CARVED);
    if (p == all_of(h, NOT_CARVED))
        return false;
    flip(h, p, below(512));
    return true;
}

/* Of a pool in use: a freed one would be in use by that bit, and break the rule before. */
static bool spoil_past_the_last(const struct sound_heap *h)
{
    const size_t p = any_of(h, IN_USE);
    if (p == all_of(h, IN_USE))
        return false;
    flip(h, p, between(blocks_of(h, p), 511));
    return true;
}

/* One block more or less is live, and still some are and some are not. */
static bool spoil_live(const struct sound_heap *h)
{
    const size_t p = any_of(h, LISTED);
    if (p == all_of(h, LISTED))
        return false;
    const uint32_t count = record_of_pool(h, p)[COUNT], blocks = blocks_of(h, p), k = below(blocks);
    if (count == (is_live(h, p, k) ? 1 : blocks - 1))
        return false;
    flip(h, p, k);
    return true;
}

/* The link that one of the first blocks of a freed chain has; *place becomes where it is. */
static bool spoil_link(const struct sound_heap *h, size_t *place)
{
    const size_t p = any_of(h, below(2) == 0 ? LISTED : FREED);
    if (p == all_of(h, CARVED))
        return false;
    uint32_t link = record_of_pool(h, p)[FREEBLOCK];
    for (uint32_t more = below(16) + 1; more != 0 && link != 0; more--) {
        *place = 4096 * p + link;
        memcpy(&link, h->memory + *place, sizeof link);
    }
    link = other_than(link, 0);
    memcpy(h->memory + *place, &link, sizeof link);
    return true;
}

/* In the place of the first block of a freed chain stands one that is live, or virgin, with the same link. */
static bool spoil_first(const struct sound_heap *h, size_t *place, bool live)
{
    const size_t p = any_of(h, LISTED);
    if (p == all_of(h, LISTED))
        return false;
    uint32_t *pool = record_of_pool(h, p), k = below(blocks_of(h, p)), start = 48 + k * size_in(h, p);
    if (is_live(h, p, k) != live || (!live && start < pool[NEXTOFFSET]))
        return false;
    *place = 4096 * p + start;
    memcpy(h->memory + *place, h->memory + 4096 * p + pool[FREEBLOCK], 4);
    pool[FREEBLOCK] = start;
    return true;
}

static bool spoil_by_live(const struct sound_heap *h, size_t *place)
{
    return spoil_first(h, place, true);
}

static bool spoil_by_virgin(const struct sound_heap *h, size_t *place)
{
    return spoil_first(h, place, false);
}

/* Two arenas that follow one another in the usable list, and have not as many free pools, change places. */
static bool spoil_order(const struct sound_heap *h)
{
    for (uint32_t first = 1; first <= h->arenas; first++) {
        uint32_t *one = record_of_arena(h, first - 1), second = one[ARENA_NEXT], before = one[ARENA_PREVIOUS];
        if (!arena_is(h, USABLE, first - 1) || second == 0)
            continue;
        uint32_t *other = record_of_arena(h, second - 1), after = other[ARENA_NEXT];
        if (one[FREE_POOLS] == other[FREE_POOLS])
            continue;
        *(before == 0 ? &h->books[2] : &record_of_arena(h, before - 1)[ARENA_NEXT]) = second;
        if (after != 0)
            record_of_arena(h, after - 1)[ARENA_PREVIOUS] = first;
        other[ARENA_NEXT] = first;
        other[ARENA_PREVIOUS] = before;
        one[ARENA_NEXT] = after;
        one[ARENA_PREVIOUS] = second;
        return true;
    }
    return false;
}

/* ---- all of them */

/* Another value, at least so much, of any of so many words from this one on; or what a function does. */
static const struct spoil {
    const char *what;
    uint32_t rule;
    enum whose whose;
    uint32_t word, words, least;
    bool (*in_map_or_list)(const struct sound_heap *h);
    bool (*in_memory)(const struct sound_heap *h, size_t *place);
} spoils[] = {
    {"A", 1, BOOKS, 0, 1, 17, NULL, NULL},
    {"P", 1, BOOKS, 1, 1, 65, NULL, NULL},
    {"the edition", 1, BOOKS, 68, 1, 2, NULL, NULL},
    {"words 69 to 71", 2, BOOKS, 69, 3, 1, NULL, NULL},
    {"open of a closed arena", 2, CLOSED, OPEN_WORD, 1, 2, NULL, NULL},
    {"open of an open arena", 2, OPEN, OPEN_WORD, 1, 2, NULL, NULL},
    {"the last two words of a closed arena", 2, CLOSED, ARENA_LAST, 2, 1, NULL, NULL},
    {"the last two words of an open arena", 2, OPEN, ARENA_LAST, 2, 1, NULL, NULL},
    {"the last word of a pool", 2, ANY_POOL, LAST, 1, 1, NULL, NULL},
    {"mark, free pools and freed-pool head of a closed arena", 3, CLOSED, MARK, 3, 1, NULL, NULL},
    {"the mark of an open arena, above P", 4, OPEN, MARK, 1, 65, NULL, NULL},
    {"free pools of an open arena", 4, OPEN, FREE_POOLS, 1, 0, NULL, NULL},
    {"a bit of a pool not carved", 5, .in_map_or_list = spoil_not_carved},
    {"a bit past the last block of a pool in use", 5, .in_map_or_list = spoil_past_the_last},
    {"the freed-pool head of an open arena", 6, OPEN, FREED_HEAD, 1, 0, NULL, NULL},
    {"the links of a freed pool", 6, FREED, NEXT, 2, 0, NULL, NULL},
    {"the heads of the usable and of the unused list", 6, BOOKS, 2, 2, 0, NULL, NULL},
    {"the links of a usable arena", 6, USABLE, ARENA_NEXT, 2, 0, NULL, NULL},
    {"the links of a closed arena", 6, CLOSED, ARENA_NEXT, 2, 0, NULL, NULL},
    {"the links of an open arena without free pools", 6, SPENT, ARENA_NEXT, 2, 0, NULL, NULL},
    {"the head of a class list", 6, BOOKS, 4, 64, 0, NULL, NULL},
    {"the links of a pool with live and spare blocks", 6, LISTED, NEXT, 2, 0, NULL, NULL},
    {"the links of a full pool", 6, FULL, NEXT, 2, 0, NULL, NULL},
    {"the count of a pool", 7, ANY_POOL, COUNT, 1, 0, NULL, NULL},
    {"the bit of a block", 7, .in_map_or_list = spoil_live},
    {"the class of a freed pool", 8, FREED, CLASS, 1, 64, NULL, NULL},
    {"freeblock of a carved pool", 8, CARVED, FREEBLOCK, 1, 0, NULL, NULL},
    {"nextoffset and maxnextoffset of a carved pool", 8, CARVED, NEXTOFFSET, 2, 0, NULL, NULL},
    {"a link of a freed chain", 8, .in_memory = spoil_link},
    {"a freed chain that begins with a live block", 8, .in_memory = spoil_by_live},
    {"a freed chain that begins with a virgin block", 8, .in_memory = spoil_by_virgin},
    {"the order of the usable list", 9, .in_map_or_list = spoil_order},
};
enum { SPOILS = sizeof spoils / sizeof *spoils };

/* Spoils it; false where the heap has no such place. What is spoilt of memory are four bytes, and *place becomes where,
 * or stays. */
static bool spoil(const struct sound_heap *h, const struct spoil *s, size_t *place)
{
    if (s->in_map_or_list != NULL)
        return s->in_map_or_list(h);
    if (s->in_memory != NULL)
        return s->in_memory(h, place);
    uint32_t *record = h->books;
    if (s->whose != BOOKS) {
        const size_t n = any_of(h, s->whose);
        if (n == all_of(h, s->whose))
            return false;
        record = s->whose <= SPENT ? record_of_arena(h, n) : record_of_pool(h, n);
    }
    uint32_t *word = record + s->word + below(s->words);
    *word = other_than(*word, s->least);
    return true;
}
