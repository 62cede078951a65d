/* A call that does nothing: with it in the place of an allocator's, a trace takes what the loop around the calls
 * takes. */
#include "variants.h"

heskavern_answer nothing(const uint8_t *memory, size_t memory_bytes, const uint32_t *books, size_t books_words,
                         const uint64_t *map, size_t map_words, size_t x)
{
    (void)memory, (void)memory_bytes, (void)books, (void)books_words, (void)map, (void)map_words, (void)x;
    return (heskavern_answer){0, 0};
}
