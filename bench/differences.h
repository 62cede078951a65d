/* Two heaps side by side: the part of checks.c that makes list and changes, by the library's passes. Included there,
 * after the heap and the functions of roll call. */

enum { FIRST_ALONE = 1, SECOND_ALONE = 2, OTHER_SIZE = 3, OTHER_BYTES = 4 };
enum { LARGE_GROUP = 64, SMALL_GROUP = 8 };

/* The list: its words so far, whether they are written or only counted, and whether bytes are compared in groups. */
struct entries {
    uint32_t *list;
    size_t words;
    bool written, in_groups;
};

INLINE void put_entry(struct entries *e, uint32_t offset, uint32_t kind)
{
    if (e->written) {
        e->list[e->words] = offset;
        e->list[e->words + 1] = kind;
    }
    e->words += 2;
}

/* ---- the bytes of a block */

INLINE bool same_group(const uint8_t *x, const uint8_t *y, uint32_t bytes)
{
    bool same = true;
    for (uint32_t i = 0; i < bytes; i++)
        same &= x[i] == y[i];
    return same;
}

/* Without memcmp: in groups, of which every byte is compared, so that LLVM makes one comparison of a small one and four
 * of a large one. Every block is a whole number of small ones. */
INLINE bool same_by_groups(const uint8_t *x, const uint8_t *y, uint32_t bytes)
{
    uint32_t i = 0;
    for (; bytes - i >= LARGE_GROUP; i += LARGE_GROUP)
        if (!same_group(x + i, y + i, LARGE_GROUP))
            return false;
    for (; i < bytes; i += SMALL_GROUP)
        if (!same_group(x + i, y + i, SMALL_GROUP))
            return false;
    return true;
}

INLINE bool same_bytes(const uint8_t *x, const uint8_t *y, uint32_t bytes, bool in_groups)
{
    return in_groups ? same_by_groups(x, y, bytes) : memcmp(x, y, bytes) == 0;
}

/* ---- the list */

/* The size of the blocks of pool p, or 0 where none can be live: no bit of it is set, or it has no class. */
INLINE uint32_t size_if_any(const struct heap *h, uint32_t p)
{
    return none_set(h, p) || !has_class(h, p) ? 0 : size_of_pool(h, p);
}

/* Pool p, whose blocks have the same size in both heaps, or which has blocks in one alone, where the size in the other
 * is 0: from set bit to set bit of both maps. A bit whose block would start past the last one is at no block, and so
 * are all after it. */
INLINE void list_by_bits(const struct heap *a, const struct heap *b, uint32_t p, uint32_t in_a, uint32_t in_b,
                         struct entries *e)
{
    const uint64_t *of_a = map_word(a, p, 0), *of_b = map_word(b, p, 0);
    uint32_t size = in_a != 0 ? in_a : in_b, first = POOL_BYTES * p + FIRST_BLOCK, last = POOL_BYTES * (p + 1) - size;
    for (; first <= last; first += 64 * size, of_a++, of_b++) {
        uint64_t live_a = in_a != 0 ? *of_a : 0, live_b = in_b != 0 ? *of_b : 0;
        for (uint64_t left = live_a | live_b; left != 0; left &= left - 1) {
            uint32_t k = (uint32_t)__builtin_ctzll(left), offset = first + k * size;
            if (offset > last)
                return;
            if ((live_b >> k & 1) == 0)
                put_entry(e, offset, FIRST_ALONE);
            else if ((live_a >> k & 1) == 0)
                put_entry(e, offset, SECOND_ALONE);
            else if (!same_bytes(a->memory + offset, b->memory + offset, size, e->in_groups))
                put_entry(e, offset, OTHER_BYTES);
        }
    }
}

/* Where the first live block of pool p starts, of those of this size that start at this place or after it; the pool's
 * end where none does. */
INLINE uint32_t next_live(const struct heap *h, uint32_t p, uint32_t size, uint32_t place)
{
    const uint64_t *words = map_word(h, p, 0);
    uint32_t k = place <= FIRST_BLOCK ? 0 : (place - FIRST_BLOCK - 1) / size + 1, word = k / 64;
    uint64_t left = words[word] >> k % 64 << k % 64;
    while (left == 0 && ++word < 8)
        left = words[word];
    if (left == 0)
        return POOL_BYTES;
    place = FIRST_BLOCK + (64 * word + (uint32_t)__builtin_ctzll(left)) * size;
    return place <= POOL_BYTES - size ? place : POOL_BYTES;
}

/* Pool p, whose blocks have another size in the one heap than in the other: from live block to live block of either. */
INLINE void list_by_places(const struct heap *a, const struct heap *b, uint32_t p, uint32_t in_a, uint32_t in_b,
                           struct entries *e)
{
    for (uint32_t place = 0;; place++) {
        uint32_t next_a = next_live(a, p, in_a, place), next_b = next_live(b, p, in_b, place);
        place = next_a < next_b ? next_a : next_b;
        if (place == POOL_BYTES)
            return;
        put_entry(e, POOL_BYTES * p + place,
                  next_b != place ? FIRST_ALONE : next_a != place ? SECOND_ALONE : OTHER_SIZE);
    }
}

/* All pools; how many words the list has. */
INLINE size_t list_differences(const struct heap *a, const struct heap *b, struct entries e)
{
    for (uint32_t p = 0; p < a->all; p++) {
        uint32_t in_a = size_if_any(a, p), in_b = size_if_any(b, p);
        if ((in_a | in_b) == 0)
            continue;
        if (in_a == in_b || in_a == 0 || in_b == 0)
            list_by_bits(a, b, p, in_a, in_b, &e);
        else
            list_by_places(a, b, p, in_a, in_b, &e);
    }
    return e.words;
}

/* ---- the changes */

INLINE void count_classes(const struct heap *h, uint32_t *counts)
{
    for (uint32_t p = 0; p < h->all; p++) {
        uint32_t live = 0;
        if (none_set(h, p) || !has_class(h, p))
            continue;
        add_live(h, p, &live);
        counts[h->pool[p].class] += live;
    }
}

INLINE void put_changes(const struct heap *a, const struct heap *b, uint32_t classes, int32_t *changes)
{
    uint32_t in_a[CLASSES] = {0}, in_b[CLASSES] = {0};
    count_classes(a, in_a);
    count_classes(b, in_b);
    for (uint32_t c = 0; c < classes; c++)
        changes[c] = (int32_t)in_b[c] - (int32_t)in_a[c];
}

/* ---- both, of two heaps that can be used: the tests that are left, of which nothing is written where one fails */

INLINE heskavern_answer compare_step(const struct heap *a, const struct heap *b, uint32_t *list, size_t list_words,
                                     int32_t *changes, size_t changes_count, bool in_groups)
{
    uint32_t classes = last_class(a->edition) + 1;
    if (a->arenas != b->arenas || a->pools != b->pools || a->edition != b->edition)
        return answer(HESKAVERN_UNEQUAL_SHAPE, 0);
    if (list_words < HESKAVERN_ROLL_WORDS(a->arenas, a->pools)
        && list_words < list_differences(a, b, (struct entries){list, 0, false, in_groups}))
        return answer(HESKAVERN_DOES_NOT_FIT, 0);
    if (changes_count < classes)
        return answer(HESKAVERN_DOES_NOT_FIT, 0);
    put_changes(a, b, classes, changes);
    size_t words = list_differences(a, b, (struct entries){list, 0, true, in_groups});
    return answer(HESKAVERN_DONE, (uint32_t)(words / 2));
}
