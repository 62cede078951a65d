/* A variant with the calls of include/heskavern.h, over buffers of its own. Included once for each, with THIS(name) for
 * its own names and CALL(name) for the calls; with STANDS_IN where it has the stand-in, and with ASKS_ALL where it asks
 * for a row in one call. */

static _Alignas(4096) uint8_t THIS(memory)[HESKAVERN_MEMORY_BYTES(ARENAS, POOLS)];
static _Alignas(64) uint32_t THIS(books)[HESKAVERN_BOOKS_WORDS(ARENAS, POOLS)];
static _Alignas(64) uint64_t THIS(map)[HESKAVERN_MAP_WORDS(ARENAS, POOLS)];

#define BLOCK uint32_t
#define WRITES
#define PLACES
#define LENT HESKAVERN_LENT(THIS(memory), THIS(books), THIS(map), ARENAS, POOLS)

static void THIS(fresh)(size_t edition)
{
    if (CALL(format)(LENT, ARENAS, POOLS, edition).number != HESKAVERN_DONE)
        abort();
}

static inline uint32_t THIS(value)(heskavern_answer a, unsigned *refused)
{
    *refused |= a.number;
    return a.value;
}

static inline BLOCK THIS(ask)(size_t size, unsigned *refused)
{
    return THIS(value)(CALL(ask)(LENT, size), refused);
}

static inline void THIS(give_back)(BLOCK block, unsigned *refused)
{
    THIS(value)(CALL(give_back)(LENT, block), refused);
}

static inline BLOCK THIS(resize)(BLOCK block, size_t size, unsigned *refused)
{
    return THIS(value)(CALL(resize)(LENT, block, size), refused);
}

static inline void THIS(write)(BLOCK block, const uint8_t *text, size_t bytes, unsigned *refused)
{
    THIS(value)(CALL(write)(LENT, block, text, bytes), refused);
}

static inline uint32_t THIS(view_size)(BLOCK block, unsigned *refused)
{
    return THIS(value)(CALL(view_size)(LENT, block), refused);
}

#ifdef ASKS_ALL
static inline void THIS(ask_all)(heskavern_request *row, size_t n, unsigned *refused)
{
    THIS(value)(CALL(ask_all)(LENT, row, n), refused);
}
#endif

#ifdef STANDS_IN
static inline heskavern_part THIS(stand_in)(BLOCK block, const uint8_t *phrase, size_t bytes)
{
    return CALL(stand_in)(LENT, block, phrase, bytes);
}
#endif

static inline uint32_t THIS(place)(BLOCK block)
{
    return block;
}

#include "traces.h"
#undef LENT
#undef CALL
