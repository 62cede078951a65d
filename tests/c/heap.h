/* What the programs of cases share: the buffers, a heap over them in either edition, its words, and that the audit says
   yes from a format on, after each call, as long as nothing else writes. C99, and C++ too. */
#include <stdio.h>
#include <stdlib.h>
#include <string.h>
#include "heskavern.h"

/* The buffers are as large as the largest heap needs, and GUARD elements more, which no call may touch. */
enum { A = 16, P = 64, GUARD = 8, FILL = 0xA5 };

static uint8_t memory[HESKAVERN_MEMORY_BYTES(A, P) + GUARD];
static uint32_t books[HESKAVERN_BOOKS_WORDS(A, P) + GUARD];
static uint64_t map[HESKAVERN_MAP_WORDS(A, P) + GUARD];
static uint32_t roll[HESKAVERN_ROLL_WORDS(A, P) + GUARD];
static uint8_t memory_before[sizeof memory];
static uint32_t books_before[sizeof books / sizeof *books];
static uint64_t map_before[sizeof map / sizeof *map];

/* the lengths that are lent, and the calls over them */
static size_t memory_bytes, books_words, map_words;
#define HEAP memory, memory_bytes, books, books_words, map, map_words
#define FORMAT(a, p, e) KEPT(heskavern_format(HEAP, a, p, e))
#define ASK(n) KEPT(heskavern_ask(HEAP, n))
#define ASK_ALL(requests, n) KEPT(heskavern_ask_all(HEAP, requests, n))
#define GIVE_BACK(o) KEPT(heskavern_give_back(HEAP, o))
#define RESIZE(o, n) KEPT(heskavern_resize(HEAP, o, n))
#define VIEW_SIZE(o) heskavern_view_size(HEAP, o)
#define STAND_IN(o, phrase, n) heskavern_stand_in(HEAP, o, phrase, n)
#define WRITE(o, text, n) KEPT(heskavern_write(HEAP, o, text, n))
#define ROLL_CALL(n) heskavern_roll_call(HEAP, roll, n)
#define AUDIT() heskavern_audit(HEAP)

/* What the edition of the cases decides: the alignment, which is the size of the smallest blocks too; how many of these
   a pool has; the class of 512 bytes; and the size of a block for 100 bytes. */
static const struct edition {
    size_t edition;
    uint32_t smallest, in_pool, last_class, of_100;
} editions[] = {{HESKAVERN_EIGHT, 8, 506, 63, 104}, {HESKAVERN_SIXTEEN, 16, 253, 31, 112}}, *now = editions;

/* The place of block k, from 0, of a pool of the smallest ones. */
static inline uint32_t at(uint32_t k) { return 48 + k * now->smallest; }

static unsigned long facts;

#define EXPECT(fact) expect(fact, #fact, __FILE__, __LINE__)
static inline void expect(int fact, const char *words, const char *file, int line)
{
    facts++;
    if (!fact) {
        printf("%s:%d: not so in edition %d: %s\n", file, line, (int)now->edition, words);
        exit(1);
    }
}

/* Where the audit says yes before a call, the call gives no 6, and the audit says yes after it. On large heaps one call
   of so many is looked at. */
enum { SMALL = 16, LOOKED_AT = 5000 };
static int whole;

static inline int looks_whole(void)
{
    static unsigned long calls;
    return (memory_bytes <= HESKAVERN_MEMORY_BYTES(1, SMALL) || ++calls % LOOKED_AT == 0)
        && AUDIT() == HESKAVERN_AUDIT_YES;
}

#define KEPT(call) (whole = looks_whole(), kept(call))
static inline heskavern_answer kept(heskavern_answer answer)
{
    if (whole) {
        EXPECT(answer.number != HESKAVERN_DAMAGED);
        EXPECT(AUDIT() == HESKAVERN_AUDIT_YES);
    }
    return answer;
}

static inline int is(heskavern_answer answer, uint32_t number, uint32_t value)
{
    return answer.number == number && answer.value == value;
}

static inline int done(heskavern_answer answer, uint32_t value) { return is(answer, HESKAVERN_DONE, value); }

static inline int lies(heskavern_part part, const void *bytes, size_t size)
{
    return part.bytes == bytes && part.size == size;
}

static inline void lend(size_t arenas, size_t pools)
{
    memory_bytes = HESKAVERN_MEMORY_BYTES(arenas, pools);
    books_words = HESKAVERN_BOOKS_WORDS(arenas, pools);
    map_words = HESKAVERN_MAP_WORDS(arenas, pools);
}

/* A fresh heap over buffers that held something else. */
static inline void fresh(size_t arenas, size_t pools)
{
    memset(memory, FILL, sizeof memory);
    memset(books, FILL, sizeof books);
    memset(map, FILL, sizeof map);
    memset(roll, FILL, sizeof roll);
    lend(arenas, pools);
    EXPECT(done(FORMAT(arenas, pools, now->edition), 0));
    EXPECT(AUDIT() == HESKAVERN_AUDIT_YES);
}

/* The word of the books that has the edition. A word of an arena's record, and of a pool's, by its place there. */
enum { EDITION = 68 };
enum { OPEN = 0, MARK = 1, FREE_POOLS = 2, FREED_HEAD = 3, NEXT = 4, PREVIOUS = 5 };
static inline uint32_t *arena_word(size_t arena, size_t place) { return &books[72 + 8 * arena + place]; }
enum { COUNT = 0, FREEBLOCK = 1, POOL_NEXT = 2, POOL_PREVIOUS = 3, CLASS = 4, NEXTOFFSET = 5, MAXNEXTOFFSET = 6 };
static inline uint32_t *pool_word(size_t pool, size_t place) { return &books[72 + 8 * books[0] + 8 * pool + place]; }

static inline void remember(void)
{
    memcpy(memory_before, memory, sizeof memory);
    memcpy(books_before, books, sizeof books);
    memcpy(map_before, map, sizeof map);
}

static inline int unchanged(void)
{
    return memcmp(memory_before, memory, sizeof memory) == 0 && memcmp(books_before, books, sizeof books) == 0
        && memcmp(map_before, map, sizeof map) == 0;
}

static inline int filled(const void *from, size_t bytes)
{
    const uint8_t *at = (const uint8_t *)from;
    while (bytes > 0 && *at == FILL) {
        at++;
        bytes--;
    }
    return bytes == 0;
}

/* Nothing past the lent lengths is touched, nor the first 48 bytes of a pool. */
static inline void expect_untouched(void)
{
    size_t pool = 0;
    EXPECT(filled(memory + memory_bytes, GUARD));
    EXPECT(filled(books + books_words, GUARD * sizeof *books));
    EXPECT(filled(map + map_words, GUARD * sizeof *map));
    while (pool < memory_bytes / 4096 && filled(memory + 4096 * pool, 48))
        pool++;
    EXPECT(pool == memory_bytes / 4096);
}
