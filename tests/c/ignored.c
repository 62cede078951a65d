/* Every call of heskavern.h and of heskavern_heap.h, with an answer that nobody looks at: each is worth a warning, and
   none is where `(void)` says that it is MEANT (tests/c/run counts them). */
#include "heskavern_heap.h"

#define HEAP HESKAVERN_LENT(memory, books, map, 1, 2)
#ifdef MEANT
#define IGNORED (void)
#else
#define IGNORED
#endif

void ignores_all(
    uint8_t *memory, uint32_t *books, uint64_t *map, heskavern_request *requests, uint32_t *roll, int32_t *changes)
{
    IGNORED heskavern_format(HEAP, 1, 2, HESKAVERN_SIXTEEN);
    IGNORED heskavern_ask(HEAP, 4);
    IGNORED heskavern_ask_all(HEAP, requests, 2);
    IGNORED heskavern_give_back(HEAP, 48);
    IGNORED heskavern_resize(HEAP, 48, 8);
    IGNORED heskavern_view_size(HEAP, 48);
    IGNORED heskavern_write(HEAP, 48, "owed", 4);
    IGNORED heskavern_roll_call(HEAP, roll, 2);
    IGNORED heskavern_audit(HEAP);
    IGNORED heskavern_compare(HEAP, HEAP, roll, 2, changes, HESKAVERN_CHANGES);
}

void ignores_all_of_a_heap(heskavern_heap *heap, heskavern_request *requests, uint32_t *roll, int32_t *changes)
{
    IGNORED heskavern_heap_format(heap);
    IGNORED heskavern_heap_ask(heap, 4);
    IGNORED heskavern_heap_ask_all(heap, requests, 2);
    IGNORED heskavern_heap_give_back(heap, 48);
    IGNORED heskavern_heap_resize(heap, 48, 8);
    IGNORED heskavern_heap_write(heap, 48, "owed", 4);
    IGNORED heskavern_heap_view(heap, 48);
    IGNORED heskavern_heap_roll_call(heap, roll, 2);
    IGNORED heskavern_heap_audit(heap);
    IGNORED heskavern_heap_compare(heap, heap, roll, 2, changes, HESKAVERN_CHANGES);
}
