/* The calls of include/heskavern.h under other names, with the same checks and the same answers, to compare times with.
 * Included once for each compiler that checks.c is compiled by, with CHECKS(name) for its names, and for an older
 * archive of the library. */
#include "heskavern.h"

heskavern_answer CHECKS(format)(const uint8_t *memory, size_t memory_bytes, uint32_t *books, size_t books_words,
                                uint64_t *map, size_t map_words, size_t arenas, size_t pools, size_t edition);
heskavern_answer CHECKS(ask)(uint8_t *memory, size_t memory_bytes, uint32_t *books, size_t books_words, uint64_t *map,
                             size_t map_words, size_t size);
heskavern_answer CHECKS(ask_all)(uint8_t *memory, size_t memory_bytes, uint32_t *books, size_t books_words,
                                 uint64_t *map, size_t map_words, heskavern_request *requests, size_t entries);
heskavern_answer CHECKS(give_back)(uint8_t *memory, size_t memory_bytes, uint32_t *books, size_t books_words,
                                   uint64_t *map, size_t map_words, size_t offset);
heskavern_answer CHECKS(resize)(uint8_t *memory, size_t memory_bytes, uint32_t *books, size_t books_words,
                                uint64_t *map, size_t map_words, size_t offset, size_t size);
heskavern_answer CHECKS(view_size)(const uint8_t *memory, size_t memory_bytes, const uint32_t *books,
                                   size_t books_words, const uint64_t *map, size_t map_words, size_t offset);
heskavern_answer CHECKS(write)(uint8_t *memory, size_t memory_bytes, const uint32_t *books, size_t books_words,
                               const uint64_t *map, size_t map_words, size_t offset, const void *text,
                               size_t text_bytes);
heskavern_answer CHECKS(roll_call)(const uint8_t *memory, size_t memory_bytes, const uint32_t *books,
                                   size_t books_words, const uint64_t *map, size_t map_words, uint32_t *roll,
                                   size_t roll_words);

uint32_t CHECKS(audit)(const uint8_t *memory, size_t memory_bytes, const uint32_t *books, size_t books_words,
                       const uint64_t *map, size_t map_words);
heskavern_answer CHECKS(compare)(const uint8_t *memory, size_t memory_bytes, const uint32_t *books, size_t books_words,
                                 const uint64_t *map, size_t map_words, const uint8_t *second_memory,
                                 size_t second_memory_bytes, const uint32_t *second_books, size_t second_books_words,
                                 const uint64_t *second_map, size_t second_map_words, uint32_t *list, size_t list_words,
                                 int32_t *changes, size_t changes_count);

/* Of checks.c alone: the stand-in, which no archive has, since the header makes it from view_size; the roll call by a
 * plain loop, where the live blocks are always counted first, and no pool is passed over; and the comparison with loops
 * over groups of bytes in the place of memcmp. */
heskavern_part CHECKS(stand_in)(const uint8_t *memory, size_t memory_bytes, const uint32_t *books, size_t books_words,
                                const uint64_t *map, size_t map_words, size_t offset, const void *phrase,
                                size_t phrase_bytes);
heskavern_answer CHECKS(plain_roll_call)(const uint8_t *memory, size_t memory_bytes, const uint32_t *books,
                                         size_t books_words, const uint64_t *map, size_t map_words, uint32_t *roll,
                                         size_t roll_words);
heskavern_answer CHECKS(grouped_compare)(const uint8_t *memory, size_t memory_bytes, const uint32_t *books,
                                         size_t books_words, const uint64_t *map, size_t map_words,
                                         const uint8_t *second_memory, size_t second_memory_bytes,
                                         const uint32_t *second_books, size_t second_books_words,
                                         const uint64_t *second_map, size_t second_map_words, uint32_t *list,
                                         size_t list_words, int32_t *changes, size_t changes_count);
