/* What a user would write without the call that compares: two rolls, merged by rising offset, with memcmp where a block
 * of the same size is live in both. The heaps must be of one shape; where the list is too short, what was written
 * stays. */
#include "variants.h"

#include <string.h>

enum { MOST_WORDS = 2 * 506 * ARENAS * POOLS, CLASSES = 64, EDITION = 68 };

static uint32_t first_roll[MOST_WORDS], second_roll[MOST_WORDS];

/* Merges the rolls, which have so many blocks. The changes are all 0 before; sizes go by 2 to the shift. */
static heskavern_answer merge(uint32_t in_roll, uint32_t in_second_roll, const uint8_t *memory,
                              const uint8_t *second_memory, uint32_t *list, size_t list_words, int32_t *changes,
                              unsigned shift)
{
    const uint32_t *x = first_roll, *y = second_roll, *x_end = x + 2 * in_roll, *y_end = y + 2 * in_second_roll;
    size_t words = 0;
    while (x != x_end || y != y_end) {
        bool in_first = x != x_end && (y == y_end || x[0] <= y[0]);
        bool in_second = y != y_end && (x == x_end || y[0] <= x[0]);
        uint32_t offset = in_first ? x[0] : y[0];
        uint32_t kind = !in_second ? 1 : !in_first ? 2 : x[1] != y[1] ? 3
            : memcmp(memory + offset, second_memory + offset, x[1]) != 0 ? 4 : 0;
        if (in_first)
            changes[(x[1] >> shift) - 1]--, x += 2;
        if (in_second)
            changes[(y[1] >> shift) - 1]++, y += 2;
        if (kind == 0)
            continue;
        if (list_words - words < 2)
            return (heskavern_answer){HESKAVERN_DOES_NOT_FIT, 0};
        list[words++] = offset;
        list[words++] = kind;
    }
    return (heskavern_answer){HESKAVERN_DONE, (uint32_t)(words / 2)};
}

heskavern_answer two_rolls(const uint8_t *memory, size_t memory_bytes, const uint32_t *books, size_t books_words,
                           const uint64_t *map, size_t map_words, const uint8_t *second_memory,
                           size_t second_memory_bytes, const uint32_t *second_books, size_t second_books_words,
                           const uint64_t *second_map, size_t second_map_words, uint32_t *list, size_t list_words,
                           int32_t *changes, size_t changes_count)
{
    heskavern_answer a = heskavern_roll_call(memory, memory_bytes, books, books_words, map, map_words, first_roll,
                                             MOST_WORDS);
    heskavern_answer b = heskavern_roll_call(second_memory, second_memory_bytes, second_books, second_books_words,
                                             second_map, second_map_words, second_roll, MOST_WORDS);
    if (a.number != HESKAVERN_DONE || b.number != HESKAVERN_DONE)
        return a.number != HESKAVERN_DONE ? a : b;
    const size_t classes = (size_t)CLASSES >> books[EDITION];
    if (changes_count < classes)
        return (heskavern_answer){HESKAVERN_DOES_NOT_FIT, 0};
    memset(changes, 0, classes * sizeof *changes);
    return merge(a.value, b.value, memory, second_memory, list, list_words, changes, 3 + books[EDITION]);
}
