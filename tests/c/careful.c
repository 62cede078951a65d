/* A program as a careful user writes it: buffers that nothing has written before format, local arrays or (FROM_MALLOC)
   from malloc; every call, each answer looked at or left alone by `(void)`. C99, and C++ too. tests/c/run compiles it
   with the warnings that such a user asks for, and none may come. */
#include "heskavern.h"
#include "careful.h"

enum { A = 1, P = 2 };
#define HEAP HESKAVERN_LENT(memory, books, map, A, P)
#define SAVED HESKAVERN_LENT(saved_memory, saved_books, saved_map, A, P)
#define COMPARED list, HESKAVERN_LIST_WORDS(A, P), changes, HESKAVERN_CHANGES

int main(void)
{
    BUFFER(uint8_t, memory, HESKAVERN_MEMORY_BYTES(A, P));
    BUFFER(uint32_t, books, HESKAVERN_BOOKS_WORDS(A, P));
    BUFFER(uint64_t, map, HESKAVERN_MAP_WORDS(A, P));
    BUFFER(heskavern_request, row, 2);
    BUFFER(uint32_t, roll, HESKAVERN_ROLL_WORDS(A, P));
    BUFFER(uint32_t, list, HESKAVERN_LIST_WORDS(A, P));
    BUFFER(int32_t, changes, HESKAVERN_CHANGES);
    BUFFER(uint8_t, saved_memory, HESKAVERN_MEMORY_BYTES(A, P));
    BUFFER(uint32_t, saved_books, HESKAVERN_BOOKS_WORDS(A, P));
    BUFFER(uint64_t, saved_map, HESKAVERN_MAP_WORDS(A, P));
    heskavern_answer word, moved;
    heskavern_part part;
#ifdef FROM_MALLOC
    EXPECT(memory && books && map && row && roll && list && changes && saved_memory && saved_books && saved_map);
#endif
#ifdef __cplusplus
    static_assert(noexcept(heskavern_format(HEAP, A, P, HESKAVERN_EIGHT)) && noexcept(heskavern_ask(HEAP, 4))
        && noexcept(heskavern_ask_all(HEAP, row, 2))
        && noexcept(heskavern_give_back(HEAP, 48)) && noexcept(heskavern_resize(HEAP, 48, 100))
        && noexcept(heskavern_view_size(HEAP, 48)) && noexcept(heskavern_view(HEAP, 48))
        && noexcept(heskavern_stand_in(HEAP, 48, "no", 2))
        && noexcept(heskavern_write(HEAP, 48, "owed", 4)) && noexcept(heskavern_roll_call(HEAP, roll, 2))
        && noexcept(heskavern_audit(HEAP)) && noexcept(heskavern_compare(SAVED, HEAP, COMPARED)), "no call throws");
#endif
    EXPECT(heskavern_format(HEAP, A, P, HESKAVERN_EIGHT).number == HESKAVERN_DONE);
    EXPECT(heskavern_view_size(HEAP, 48).number == HESKAVERN_NO_BLOCK);
    word = heskavern_ask(HEAP, 4);
    EXPECT(word.number == HESKAVERN_DONE);
    EXPECT(heskavern_write(HEAP, word.value, "owed", 4).number == HESKAVERN_DONE);
    memcpy(saved_memory, memory, HESKAVERN_MEMORY_BYTES(A, P));
    memcpy(saved_books, books, HESKAVERN_BOOKS_WORDS(A, P) * sizeof *books);
    memcpy(saved_map, map, HESKAVERN_MAP_WORDS(A, P) * sizeof *map);
    moved = heskavern_resize(HEAP, word.value, 100);
    EXPECT(moved.number == HESKAVERN_DONE);
    EXPECT(heskavern_view_size(HEAP, word.value).number == HESKAVERN_DEAD_BLOCK);
    part = heskavern_view(HEAP, moved.value);
    EXPECT(part.size == 104 && memcmp(part.bytes, "owed", 4) == 0);
    EXPECT(heskavern_roll_call(HEAP, roll, 2).value == 1);
    EXPECT(heskavern_audit(HEAP) == HESKAVERN_AUDIT_YES);
    EXPECT(roll[0] == moved.value && roll[1] == part.size);
    EXPECT(heskavern_compare(HEAP, HEAP, COMPARED).number == HESKAVERN_DONE);
    EXPECT(heskavern_compare(SAVED, HEAP, COMPARED).value == 2);
    EXPECT(list[0] == word.value && list[1] == HESKAVERN_FIRST_ALONE);
    EXPECT(list[2] == moved.value && list[3] == HESKAVERN_SECOND_ALONE);
    EXPECT(changes[0] == -1 && changes[part.size / 8 - 1] == 1);
    (void)heskavern_give_back(HEAP, moved.value);
    EXPECT(heskavern_give_back(HEAP, moved.value).number == HESKAVERN_NO_BLOCK);
    part = heskavern_stand_in(HEAP, moved.value, "no amount", 9);
    EXPECT(part.size == 9 && memcmp(part.bytes, "no amount", 9) == 0);
    EXPECT(heskavern_format(HEAP, A, P, HESKAVERN_SIXTEEN).number == HESKAVERN_DONE);
    word = heskavern_ask(HEAP, 4);
    EXPECT(heskavern_view_size(HEAP, word.value).value == 16);
    row[0].size = HESKAVERN_LARGEST + 1;
    row[1].size = 4;
    EXPECT(heskavern_ask_all(HEAP, row, 2).number == HESKAVERN_DONE);
    EXPECT(row[0].number == HESKAVERN_BAD_SIZE && row[0].offset == 0);
    EXPECT(row[1].number == HESKAVERN_DONE && row[1].offset == word.value + 16);
    EXPECT(heskavern_compare(SAVED, HEAP, COMPARED).number == HESKAVERN_UNEQUAL_SHAPE);
#ifdef FROM_MALLOC
    free(memory);
    free(books);
    free(map);
    free(row);
    free(roll);
    free(list);
    free(changes);
    free(saved_memory);
    free(saved_books);
    free(saved_map);
#endif
    return 0;
}
