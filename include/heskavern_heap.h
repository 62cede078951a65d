/* A heap as one thing: the three lent buffers with A, P and the edition in one struct, and every call over it. Header
only, over heskavern.h, which says what each call does and what it owes and is owed; C99 and C++ on x86-64 Linux.

What is here is tested and not proved. The calls of heskavern.h are proved, and each one here hands its heap's own
buffers and lengths on to the call of the same name, and adds nothing: so buffers of two heaps cannot be mixed up in one
call. docs/USING.md (installed: share/doc/heskavern) says which call is for what.

Example:
    #include <stdio.h>
    #include "heskavern_heap.h"
    HESKAVERN_HEAP(texts, 1, 16, HESKAVERN_EIGHT);
    int main(void) {
        if (heskavern_heap_format(&texts).number != HESKAVERN_DONE)
            return 1;
        heskavern_answer owed = heskavern_heap_ask(&texts, 4), paid = heskavern_heap_ask(&texts, 4);
        if (owed.number != HESKAVERN_DONE || paid.number != HESKAVERN_DONE)
            return 1;
        if (heskavern_heap_give_back(&texts, owed.value).number != HESKAVERN_DONE)
            return 1;
        printf("%s\n", heskavern_say(heskavern_heap_give_back(&texts, owed.value).number));
        return 0;
    }
*/
#ifndef HESKAVERN_HEAP_H
#define HESKAVERN_HEAP_H

#include "heskavern.h"

#ifdef __cplusplus
extern "C" {
#endif

/* A heap: its buffers, of the lengths that its A and P ask for, and the edition that format is told. The buffers are
   the caller's, who lends them while the heap is used; a copy of the struct is the same heap. A call on a heap that is
   const writes nothing to it. */
typedef struct heskavern_heap {
    uint8_t *memory;
    uint32_t *books;
    uint64_t *map;
    size_t arenas;
    size_t pools;
    size_t edition;
} heskavern_heap;

/* Declares static buffers, name_memory, which is aligned to 16, name_books and name_map, and the heap over them, in one
   line that ends with a semicolon; within a function too. The heap is formatted by heskavern_heap_format, which refuses
   an A, P or edition that is out of range. */
#define HESKAVERN_HEAP(name, a, p, edition) \
    static uint8_t name##_memory[HESKAVERN_MEMORY_BYTES(a, p)] __attribute__((aligned(16))); \
    static uint32_t name##_books[HESKAVERN_BOOKS_WORDS(a, p)]; \
    static uint64_t name##_map[HESKAVERN_MAP_WORDS(a, p)]; \
    static heskavern_heap name = { \
        name##_memory, name##_books, name##_map, HESKAVERN_SIZE(a), HESKAVERN_SIZE(p), HESKAVERN_SIZE(edition)}

/* The six arguments that every call of heskavern.h begins with, of a heap that is pointed to, by an expression without
   effects. */
#define HESKAVERN_LENT_OF(heap) \
    HESKAVERN_LENT((heap)->memory, (heap)->books, (heap)->map, (heap)->arenas, (heap)->pools)

/* A view that carries its number: done, the live block's own part of memory; otherwise the empty part at memory's
   start, with the number that says why. The holder of the block may write there too, at memory + offset. */
typedef struct heskavern_viewed {
    uint32_t number;
    const uint8_t *bytes;
    size_t size;
} heskavern_viewed;

/* Format: makes a fresh heap of the struct's A, P and edition. */
HESKAVERN_MUST_USE HESKAVERN_INLINE heskavern_answer heskavern_heap_format(heskavern_heap *heap) HESKAVERN_NOEXCEPT
{
    return heskavern_format(HESKAVERN_LENT_OF(heap), heap->arenas, heap->pools, heap->edition);
}

/* Ask: hands out a block of at least size bytes. Value: its offset. */
HESKAVERN_MUST_USE HESKAVERN_INLINE heskavern_answer heskavern_heap_ask(heskavern_heap *heap, size_t size)
    HESKAVERN_NOEXCEPT
{
    return heskavern_ask(HESKAVERN_LENT_OF(heap), size);
}

/* Ask all: a row of requests in one call. Each gets its own number and offset. */
HESKAVERN_MUST_USE HESKAVERN_INLINE heskavern_answer heskavern_heap_ask_all(
    heskavern_heap *heap, heskavern_request *requests, size_t entries) HESKAVERN_NOEXCEPT
{
    return heskavern_ask_all(HESKAVERN_LENT_OF(heap), requests, entries);
}

/* Give back: the block is live no more. Value: the given offset. */
HESKAVERN_MUST_USE HESKAVERN_INLINE heskavern_answer heskavern_heap_give_back(heskavern_heap *heap, size_t offset)
    HESKAVERN_NOEXCEPT
{
    return heskavern_give_back(HESKAVERN_LENT_OF(heap), offset);
}

/* Resize: makes room for size bytes. Value: the offset of the block that the text is then in. */
HESKAVERN_MUST_USE HESKAVERN_INLINE heskavern_answer heskavern_heap_resize(
    heskavern_heap *heap, size_t offset, size_t size) HESKAVERN_NOEXCEPT
{
    return heskavern_resize(HESKAVERN_LENT_OF(heap), offset, size);
}

/* Write: copies the text to the start of a live block. Value: the given offset. */
HESKAVERN_MUST_USE HESKAVERN_INLINE heskavern_answer heskavern_heap_write(
    heskavern_heap *heap, size_t offset, const void *text, size_t text_bytes) HESKAVERN_NOEXCEPT
{
    return heskavern_write(HESKAVERN_LENT_OF(heap), offset, text, text_bytes);
}

/* View: the live block's own part of memory, or the empty part, with its number. */
HESKAVERN_MUST_USE HESKAVERN_INLINE heskavern_viewed heskavern_heap_view(const heskavern_heap *heap, size_t offset)
    HESKAVERN_NOEXCEPT
{
    heskavern_answer sized = heskavern_view_size(HESKAVERN_LENT_OF(heap), offset);
    heskavern_viewed viewed = {sized.number, heap->memory, 0};
    if (sized.number == HESKAVERN_DONE) {
        viewed.bytes = heap->memory + offset;
        viewed.size = sized.value;
    }
    return viewed;
}

/* Stand-in: the live block's own part of memory, or the phrase itself, exactly where view is refused. */
HESKAVERN_INLINE heskavern_part heskavern_heap_stand_in(
    const heskavern_heap *heap, size_t offset, const void *phrase, size_t phrase_bytes) HESKAVERN_NOEXCEPT
{
    return heskavern_stand_in(HESKAVERN_LENT_OF(heap), offset, phrase, phrase_bytes);
}

/* Roll call: writes offset and block size of each live block to roll. Value: how many are live. */
HESKAVERN_MUST_USE HESKAVERN_INLINE heskavern_answer heskavern_heap_roll_call(
    const heskavern_heap *heap, uint32_t *roll, size_t roll_words) HESKAVERN_NOEXCEPT
{
    return heskavern_roll_call(HESKAVERN_LENT_OF(heap), roll, roll_words);
}

/* Audit: 0 for yes, or the number of the first broken rule. */
HESKAVERN_MUST_USE HESKAVERN_INLINE uint32_t heskavern_heap_audit(const heskavern_heap *heap) HESKAVERN_NOEXCEPT
{
    return heskavern_audit(HESKAVERN_LENT_OF(heap));
}

/* Compare: writes what differs between the two heaps to list and changes. Value: how many offsets differ. */
HESKAVERN_MUST_USE HESKAVERN_INLINE heskavern_answer heskavern_heap_compare(
    const heskavern_heap *first, const heskavern_heap *second, uint32_t *list, size_t list_words, int32_t *changes,
    size_t changes_count) HESKAVERN_NOEXCEPT
{
    return heskavern_compare(
        HESKAVERN_LENT_OF(first), HESKAVERN_LENT_OF(second), list, list_words, changes, changes_count);
}

/* A number in words. */
HESKAVERN_INLINE const char *heskavern_say(uint32_t number) HESKAVERN_NOEXCEPT
{
    switch (number) {
    case HESKAVERN_DONE: return "done";
    case HESKAVERN_OUT_OF_RANGE: return "A, P or the edition out of range";
    case HESKAVERN_NOT_EXACT: return "a lent length is not exact";
    case HESKAVERN_BAD_SIZE: return "size 0 or above 512";
    case HESKAVERN_NO_ROOM: return "no room";
    case HESKAVERN_NO_BLOCK: return "no block there";
    case HESKAVERN_DAMAGED: return "books damaged";
    case HESKAVERN_DOES_NOT_FIT:
        return "text longer than its block, too little room for a roll, a list or changes, or too many requests";
    case HESKAVERN_DEAD_BLOCK: return "a dead block: given back, or never handed out";
    case HESKAVERN_UNEQUAL_SHAPE: return "two heaps of unequal A, P or edition";
    default: return "a number that no call gives";
    }
}

/* What the audit answers in words. */
HESKAVERN_INLINE const char *heskavern_say_audit(uint32_t rule) HESKAVERN_NOEXCEPT
{
    switch (rule) {
    case HESKAVERN_AUDIT_YES: return "yes";
    case HESKAVERN_AUDIT_SHAPE:
        return "rule 1: A, P or the edition is out of range, or a lent length is not exact";
    case HESKAVERN_AUDIT_ZEROS:
        return "rule 2: an arena's open word is above 1, or a word is not 0 that always is";
    case HESKAVERN_AUDIT_CLOSED: return "rule 3: a closed arena's record has more than its links";
    case HESKAVERN_AUDIT_OPEN:
        return "rule 4: an open arena's carve mark is not 1 to P, or its free pools are not its pools not in use";
    case HESKAVERN_AUDIT_BITS: return "rule 5: a bit is set in a pool not carved, or at no block of its class";
    case HESKAVERN_AUDIT_LISTS: return "rule 6: a list does not hold just its members, once, or links do not match";
    case HESKAVERN_AUDIT_COUNTS: return "rule 7: a pool's count is not the number of its set bits";
    case HESKAVERN_AUDIT_BLOCKS:
        return "rule 8: a carved pool's class or offset is wrong, or a block not one of live, chained and virgin";
    case HESKAVERN_AUDIT_ORDER: return "rule 9: the usable list does not rise by free pools";
    default: return "a rule that the audit does not have";
    }
}

/* A kind of compare's in words. */
HESKAVERN_INLINE const char *heskavern_say_kind(uint32_t kind) HESKAVERN_NOEXCEPT
{
    switch (kind) {
    case HESKAVERN_FIRST_ALONE: return "live in the first alone";
    case HESKAVERN_SECOND_ALONE: return "live in the second alone";
    case HESKAVERN_OTHER_SIZE: return "another size";
    case HESKAVERN_OTHER_BYTES: return "other bytes";
    default: return "a kind that compare does not have";
    }
}

#ifdef __cplusplus
}
#endif

#endif
