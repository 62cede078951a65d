/* As careful.c, with heskavern_heap.h: a heap over buffers that nothing has written before format, local arrays or
   (FROM_MALLOC) from malloc, and one that a line declares; every call over them, each answer looked at or left alone by
   `(void)`. C99 and every later C, C++98 and every later C++. tests/c/run compiles it with the warnings that a careful
   user asks for, and none may come. */
#include "heskavern_heap.h"
#include "careful.h"

enum { A = 1, P = 2 };
#define COMPARED list, HESKAVERN_LIST_WORDS(A, P), changes, HESKAVERN_CHANGES

/* The heap as it was; const, for what only looks. */
HESKAVERN_HEAP(empty, A, P, HESKAVERN_SIXTEEN);
static const heskavern_heap *const before = &empty;

/* Texts that come and go in a heap, and what they leave to one who only looks. */
static void keeps_texts(heskavern_heap *heap)
{
    const heskavern_heap *shown = heap;
    heskavern_answer word = heskavern_heap_ask(heap, 4), moved;
    heskavern_viewed viewed;
    heskavern_part part;
    EXPECT(word.number == HESKAVERN_DONE);
    EXPECT(heskavern_heap_write(heap, word.value, "owed", 4).number == HESKAVERN_DONE);
    moved = heskavern_heap_resize(heap, word.value, 100);
    EXPECT(moved.number == HESKAVERN_DONE);
    viewed = heskavern_heap_view(shown, moved.value);
    EXPECT(viewed.number == HESKAVERN_DONE && viewed.size == 112 && memcmp(viewed.bytes, "owed", 4) == 0);
    EXPECT(heskavern_heap_view(shown, word.value).number == HESKAVERN_DEAD_BLOCK);
    (void)heskavern_heap_give_back(heap, moved.value);
    EXPECT(heskavern_heap_give_back(heap, moved.value).number == HESKAVERN_NO_BLOCK);
    part = heskavern_heap_stand_in(shown, moved.value, "no amount", 9);
    EXPECT(part.size == 9 && memcmp(part.bytes, "no amount", 9) == 0);
}

/* A row of requests, what is then live, and what differs from the heap as it was. */
static void tells(heskavern_heap *heap)
{
    const heskavern_heap *after = heap;
    BUFFER(heskavern_request, row, 2);
    BUFFER(uint32_t, roll, HESKAVERN_ROLL_WORDS(A, P));
    BUFFER(uint32_t, list, HESKAVERN_LIST_WORDS(A, P));
    BUFFER(int32_t, changes, HESKAVERN_CHANGES);
#ifdef FROM_MALLOC
    EXPECT(row && roll && list && changes);
#endif
    row[0].size = HESKAVERN_LARGEST + 1;
    row[1].size = 4;
    EXPECT(heskavern_heap_ask_all(heap, row, 2).number == HESKAVERN_DONE);
    EXPECT(strcmp(heskavern_say(row[0].number), "size 0 or above 512") == 0);
    EXPECT(heskavern_heap_roll_call(after, roll, 2).value == 1);
    EXPECT(roll[0] == row[1].offset && roll[1] == 16);
    EXPECT(heskavern_heap_compare(before, after, COMPARED).value == 1);
    EXPECT(strcmp(heskavern_say_kind(list[1]), "live in the second alone") == 0 && changes[0] == 1);
    EXPECT(strcmp(heskavern_say_audit(heskavern_heap_audit(before)), "yes") == 0);
#if defined __cplusplus && __cplusplus >= 201103L
    static_assert(noexcept(heskavern_heap_format(heap)) && noexcept(heskavern_heap_ask(heap, 4))
        && noexcept(heskavern_heap_ask_all(heap, row, 2)) && noexcept(heskavern_heap_give_back(heap, 48))
        && noexcept(heskavern_heap_resize(heap, 48, 100)) && noexcept(heskavern_heap_write(heap, 48, "owed", 4))
        && noexcept(heskavern_heap_view(heap, 48)) && noexcept(heskavern_heap_stand_in(heap, 48, "no", 2))
        && noexcept(heskavern_heap_roll_call(heap, roll, 2)) && noexcept(heskavern_heap_audit(heap))
        && noexcept(heskavern_heap_compare(heap, heap, COMPARED)) && noexcept(heskavern_say(0))
        && noexcept(heskavern_say_audit(0)) && noexcept(heskavern_say_kind(0)), "no call throws");
#endif
#ifdef FROM_MALLOC
    free(row);
    free(roll);
    free(list);
    free(changes);
#endif
}

int main(void)
{
    HESKAVERN_HEAP(wrong, A, P, -1);
    BUFFER(uint8_t, memory, HESKAVERN_MEMORY_BYTES(A, P));
    BUFFER(uint32_t, books, HESKAVERN_BOOKS_WORDS(A, P));
    BUFFER(uint64_t, map, HESKAVERN_MAP_WORDS(A, P));
    heskavern_heap heap = {memory, books, map, A, P, HESKAVERN_SIXTEEN};
#ifdef FROM_MALLOC
    EXPECT(memory && books && map);
#endif
    EXPECT(heskavern_heap_format(&wrong).number == HESKAVERN_OUT_OF_RANGE);
    EXPECT(heskavern_heap_format(&empty).number == HESKAVERN_DONE);
    EXPECT(heskavern_heap_format(&heap).number == HESKAVERN_DONE);
    keeps_texts(&heap);
    tells(&heap);
#ifdef FROM_MALLOC
    free(memory);
    free(books);
    free(map);
#endif
    return 0;
}
