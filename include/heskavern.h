/* Heskavern: a small-block allocator over memory that its caller lends. C99 and C++ on x86-64 Linux; link with
libheskavern.a, or with libheskavern.so.

docs/USING.md (installed: share/doc/heskavern) is for a person with a problem: which call for what, and what to do about
a number. heskavern_heap.h makes a heap one thing in C, and heskavern.hpp has a heap and a memory resource for C++.

A heap has A arenas (1 to 16) of P pools (2 to 64); a pool is 4,096 bytes. Three buffers are lent to every call, each as
a pointer and its length in elements: memory, which holds the blocks, books and map. Their lengths are exact: see the
macros below; HESKAVERN_LENT makes all six arguments. (Compare is lent two heaps, and so six buffers.) A block is known
by its offset in memory. A heap is of edition eight or sixteen: format is told which, and every other call reads it off
the books.

Every call answers a number and a value, but for view and the stand-in, which hand back a part, and the audit, which
answers yes or the rule that is broken. The number is 0 when it is done, and otherwise says why it is refused. A refusal
has value 0 and leaves every byte and word as it was, but for the half-done resize. Any lengths, any contents of the
buffers and any arguments get their number: that is proved of the source, and so is that a call always returns and
touches nothing but the buffers. (View and the stand-in are lines of this header over view_size.) Ask_all asks for a row
of sizes in one call, and beside its own answer leaves each one's number and offset in the row. No call allocates or
makes a system call.

What the caller owes, and no call can test:
- Each pointer is valid for its length and aligned for its type. It is not null, even where the length is 0.
- A buffer that a call may write, one whose pointer is not const, overlaps no other buffer of that call. That goes for
  requests, text, roll, list and changes too.
- During a call no other thread writes these buffers, or reads one that is not const.
- There are 512 bytes of stack for the call, 2,048 for compare and 8,192 for the audit; and for format and the audit
  what memset takes besides. (Where it is bound lazily, its first call is the dynamic linker's and takes some
  thousands.)
Between calls, books and map are not yours to write, and of memory only the blocks that you hold. Keep to that from
format on, and no block is handed out twice and no call gives 6. After any other write every call is still safe and
still answers by its rules, but it may meet damage and give 6, or hand out what is in use.

What is good to know:
- An offset names a block and not its holder. While the block is not out, every call on it is refused (a resize to a
  size out of range with 3, which comes first), but for the stand-in, which is then the phrase. Once it is out again, a
  stale offset is the new holder's: a view or a stand-in shows its text, a write or a give-back changes it.
- On a heap that is kept as said above, a block that has come back is refused with 10, as a dead one, until it goes out
  again; or until its pool, with no block out, is set to another block size, after which the offset may be 10 or 5, or a
  block that is out; or until the last block of its arena comes back. That releases the arena, and the offset is 5, no
  block, at least until its pool is used anew. So a second give-back is 10, or 5 where the first one released the arena.
  The block that a pool has set ready for a later ask is 10 too, though it was never out.
- Buffers of two heaps that are lent as one heap's, each with its own length, are refused with 2 where A x P differs.
  (HESKAVERN_LENT makes the lengths from A and P: with a smaller heap's buffers it breaks the first rule above.) Where
  A x P is the same no call can tell: it answers by the three buffers as they are lent and touches no others, but it may
  write into a block that is held, and leave both heaps damaged.
- Any thread may make the next call, a give-back too, if you order the calls on a heap, by a lock or by handing it over:
  nothing is kept outside the three buffers. Two heaps need no order between them; a compare is a call on both.
- In edition sixteen a block is aligned to 16 where memory is. In edition eight it is aligned to 8 where memory is; to
  16 where memory is and the block size is a multiple of 16, which it is for sizes 9 to 16, 25 to 32, 41 to 48 and so
  on. In neither to more. An array of uint8_t is aligned to 1 unless you say more.
- A heap may be saved and loaded, at another address too: all three buffers together, as they are between two calls.
  They hold offsets and no pointers; books and map are words of a little-endian machine. Compare says what has changed
  since.
- How large: a text of n bytes takes a block of n rounded up to a multiple of 8, or of 16 in edition sixteen, and a pool
  has 4,048 / size of them, rounded down. For each block size divide the most texts that are live at one time by that,
  and round up: the sum is the pools that are always enough. (A resize that moves holds both blocks for a moment: count
  one text more of the new size.) 300 texts of 1 to 24 bytes and 20 of 500 want 1 + 2 + 2 + 3 pools, and in edition
  sixteen 2 + 3 + 3: A = 1, P = 8.
- After a 6, of a call or of a request in a row, something other than this heap's own calls has written to books, map or
  a block that is not out. The call wrote nothing, unless it is a resize with a value, which has moved the text, or an
  ask_all, which has gone on to the rest of its row; where it wrote nothing, the audit names the first rule that is
  broken. Ask for nothing more: copy the texts out by roll call and view, and format anew. Those never give 6; they go
  by the map and the pools' classes, and show what stands there, whoever wrote it.
- A damaged heap may give no 6 for long: no call but the audit looks at all of it. So audit one that comes from
  elsewhere, as a saved one, before you go on with it.

Example:
    #include "heskavern.h"
    static uint8_t memory[HESKAVERN_MEMORY_BYTES(1, 16)];
    static uint32_t books[HESKAVERN_BOOKS_WORDS(1, 16)];
    static uint64_t map[HESKAVERN_MAP_WORDS(1, 16)];
    #define HEAP HESKAVERN_LENT(memory, books, map, 1, 16)
    int main(void) {
        if (heskavern_format(HEAP, 1, 16, HESKAVERN_EIGHT).number != HESKAVERN_DONE)
            return 1;
        heskavern_answer owed = heskavern_ask(HEAP, 4), paid = heskavern_ask(HEAP, 4);
        if (owed.number != HESKAVERN_DONE || paid.number != HESKAVERN_DONE)
            return 1;
        if (heskavern_write(HEAP, owed.value, "owed", 4).number != HESKAVERN_DONE)
            return 1;
        if (heskavern_give_back(HEAP, owed.value).number != HESKAVERN_DONE)
            return 1;
        if (heskavern_give_back(HEAP, owed.value).number != HESKAVERN_DEAD_BLOCK)
            return 1;
        if (heskavern_give_back(HEAP, paid.value).number != HESKAVERN_DONE) // the last one: the arena is released
            return 1;
        return heskavern_give_back(HEAP, paid.value).number == HESKAVERN_NO_BLOCK ? 0 : 1;
    }
*/
#ifndef HESKAVERN_H
#define HESKAVERN_H

#include <stddef.h>
#include <stdint.h>

#ifdef __cplusplus
extern "C" {
#endif

/* The version of the library, as numbers and as text; all else that has a version takes it from here. MAJOR rises where
   a program that was written for the one before may get another answer or must be changed, MINOR where there is
   something new. A program that is compiled with one MAJOR is linked with an archive of the same. */
#define HESKAVERN_MAJOR 1
#define HESKAVERN_MINOR 0
#define HESKAVERN_PATCH 0
#define HESKAVERN_TEXT_OF(number) #number
#define HESKAVERN_TEXT(number) HESKAVERN_TEXT_OF(number)
#define HESKAVERN_VERSION \
    HESKAVERN_TEXT(HESKAVERN_MAJOR) "." HESKAVERN_TEXT(HESKAVERN_MINOR) "." HESKAVERN_TEXT(HESKAVERN_PATCH)

/* The editions: sizes and offsets of blocks are multiples of 8, or of 16. Word 68 of the books has it, and was 0 before
   there were two: so a heap that was made then is one of edition eight. */
enum {
    HESKAVERN_EIGHT = 0,
    HESKAVERN_SIXTEEN = 1
};

/* The numbers. Format tests its A and P, then its edition, and then the lengths. In every other call books of under two
   words are 2; then A and P are tested, 1; books that do not reach word 68 are 2; then come the edition, 1, and the
   lengths, 2; then 3, then 5 or 10, then 7, and then the step, which gives 4 or 6. Ask_all tests 1 and 2 so, once, and
   then 7; then each request has its 3, 4 or 6. Compare tests the first heap so, 1 and 2, then the second, and then come
   12 and 7. (8 and 9 are the replay program's alone.) */
enum {
    HESKAVERN_DONE = 0,          /* done */
    HESKAVERN_OUT_OF_RANGE = 1,  /* A, P or the edition out of range */
    HESKAVERN_NOT_EXACT = 2,     /* a lent length is not exact */
    HESKAVERN_BAD_SIZE = 3,      /* size 0 or above 512 */
    HESKAVERN_NO_ROOM = 4,       /* no room */
    HESKAVERN_NO_BLOCK = 5,      /* no block there */
    HESKAVERN_DAMAGED = 6,       /* books damaged; see resize for its one answer with a value */
    HESKAVERN_DOES_NOT_FIT = 7,  /* text longer than its block; fewer than two roll words for each live block; fewer
                                    than two list words for each difference, or fewer changes than classes; more
                                    than 4,096 requests */
    HESKAVERN_DEAD_BLOCK = 10,   /* a block that is not live: it was given back, or never handed out */
    HESKAVERN_UNEQUAL_SHAPE = 12 /* two heaps of unequal A, P or edition */
};

/* What the audit answers: yes, or the first rule that is broken. A carved pool lies below an open arena's mark; it is
   in use where a bit of it is set, and otherwise freed. */
enum {
    HESKAVERN_AUDIT_YES = 0,    /* every rule is kept */
    HESKAVERN_AUDIT_SHAPE = 1,  /* no 1 or 2: A, P and the edition in range, each lent length exact */
    HESKAVERN_AUDIT_ZEROS = 2,  /* open 0 or 1; words 69 to 71, an arena record's last two and a pool record's last 0 */
    HESKAVERN_AUDIT_CLOSED = 3, /* each closed arena's record 0 but for its links */
    HESKAVERN_AUDIT_OPEN = 4,   /* each open arena's carve mark 1 to P, its free pools equal to its pools not in use */
    HESKAVERN_AUDIT_BITS = 5,   /* no set bit in a pool not carved, or at no block of its class */
    HESKAVERN_AUDIT_LISTS = 6,  /* each list just its members, once, its links matching; those of full pools and of
                                   open arenas without free pools 0 */
    HESKAVERN_AUDIT_COUNTS = 7, /* each pool's count equal to its set bits */
    HESKAVERN_AUDIT_BLOCKS = 8, /* each carved pool of a class, or freed and unset; its last start and nextoffset right,
                                   each block just one of live, on the freed chain and virgin, once, and on the chain
                                   two at least if it is freed, one unless it is full */
    HESKAVERN_AUDIT_ORDER = 9   /* the usable list rising by free pools */
};

/* The kinds: how an offset differs between the two heaps of compare. Where both size and bytes do, it is the size. */
enum {
    HESKAVERN_FIRST_ALONE = 1,  /* live in the first alone */
    HESKAVERN_SECOND_ALONE = 2, /* live in the second alone */
    HESKAVERN_OTHER_SIZE = 3,   /* live in both, with another block size */
    HESKAVERN_OTHER_BYTES = 4   /* live in both, with the same block size and other bytes in the block */
};

/* The largest size that can be asked for. */
#define HESKAVERN_LARGEST 512

/* A number as a size, and what lies at a pointer as bytes, by casts that -Wold-style-cast is quiet about. */
#ifdef __cplusplus
#define HESKAVERN_SIZE(n) static_cast<size_t>(n)
#define HESKAVERN_BYTES(p) static_cast<const uint8_t *>(p)
#else
#define HESKAVERN_SIZE(n) ((size_t)(n))
#define HESKAVERN_BYTES(p) ((const uint8_t *)(p))
#endif

/* The exact lengths of the buffers for A arenas of P pools, and roll words that are always enough (in edition sixteen
   half of them are). */
#define HESKAVERN_MEMORY_BYTES(a, p) (4096 * HESKAVERN_SIZE(a) * HESKAVERN_SIZE(p))
#define HESKAVERN_BOOKS_WORDS(a, p) (72 + 8 * HESKAVERN_SIZE(a) + 8 * HESKAVERN_SIZE(a) * HESKAVERN_SIZE(p))
#define HESKAVERN_MAP_WORDS(a, p) (8 * HESKAVERN_SIZE(a) * HESKAVERN_SIZE(p))
#define HESKAVERN_ROLL_WORDS(a, p) (2 * 506 * HESKAVERN_SIZE(a) * HESKAVERN_SIZE(p))

/* List words that are always enough for compare. They are as many as roll words: an offset that differs is where a
   block starts in one of the two heaps, and blocks of every size start where smallest ones do, at 506 places of a pool
   (in edition sixteen at 253). And changes that are always enough: one for each class of edition eight (in edition
   sixteen half of them are). */
#define HESKAVERN_LIST_WORDS(a, p) HESKAVERN_ROLL_WORDS(a, p)
#define HESKAVERN_CHANGES 64

/* The six arguments that every call begins with, and compare twice: three buffers of those lengths. */
#define HESKAVERN_LENT(memory, books, map, a, p) \
    (memory), HESKAVERN_MEMORY_BYTES(a, p), (books), HESKAVERN_BOOKS_WORDS(a, p), (map), HESKAVERN_MAP_WORDS(a, p)

/* An answer that nobody looks at is worth a warning: the call may have been refused. `(void)` before the call says that
   this is meant, and then there is none: so the mark is not gcc's warn_unused_result, which warns even then. */
#if defined __clang__
#define HESKAVERN_MUST_USE __attribute__((warn_unused_result))
#elif defined __GNUC__ && __GNUC__ >= 11 && (!defined __cplusplus || __cplusplus >= 201103L)
#define HESKAVERN_MUST_USE __extension__ [[nodiscard]]
#else
#define HESKAVERN_MUST_USE
#endif

/* A function that a header has: in C++ one for all files of a program, as the inline functions are that call it. */
#ifdef __cplusplus
#define HESKAVERN_INLINE inline
#else
#define HESKAVERN_INLINE static inline
#endif

/* No call throws. */
#if defined __cplusplus && __cplusplus >= 201103L
#define HESKAVERN_NOEXCEPT noexcept
#else
#define HESKAVERN_NOEXCEPT
#endif

/* The n-th argument points to what the call neither reads nor writes: so gcc does not ask that it be written before. */
#if defined __GNUC__ && __GNUC__ >= 11 && !defined __clang__
#define HESKAVERN_UNTOUCHED(n) __attribute__((access(none, n)))
#else
#define HESKAVERN_UNTOUCHED(n)
#endif

/* What a call answers: its number, and the value that it has beside it. */
typedef struct heskavern_answer {
    uint32_t number;
    uint32_t value;
} heskavern_answer;

/* A request of ask_all: the size that is asked for, and the places for the number and the offset that answer it, which
   may hold anything before. */
typedef struct heskavern_request {
    uint32_t size;
    uint32_t number;
    uint32_t offset;
} heskavern_request;

/* The most requests that ask_all takes at once. */
#define HESKAVERN_MOST_REQUESTS 4096

/* What view and the stand-in hand back: a block's own part of memory, or what stands in for it. */
typedef struct heskavern_part {
    const uint8_t *bytes;
    size_t size;
} heskavern_part;

/* Format: makes a fresh heap of the given A, P and edition, HESKAVERN_EIGHT or HESKAVERN_SIXTEEN. Writes all books and
   map, and no memory. Value 0. Refuses with 1, 2. A program that was compiled before there were editions hands none
   over, and the linker does not see it: compile it again. */
HESKAVERN_MUST_USE heskavern_answer heskavern_format(
    const uint8_t *memory, size_t memory_bytes, uint32_t *books, size_t books_words, uint64_t *map, size_t map_words,
    size_t arenas, size_t pools, size_t edition) HESKAVERN_NOEXCEPT HESKAVERN_UNTOUCHED(1);

/* Ask: hands out a block of at least size bytes, which is the asker's until it is given back. Its bytes are not
   cleared. Value: its offset. Writes books, map, and at most a link of four bytes in a block that is not live. Refuses
   with 1, 2, 3, 4, 6. */
HESKAVERN_MUST_USE heskavern_answer heskavern_ask(
    uint8_t *memory, size_t memory_bytes, uint32_t *books, size_t books_words, uint64_t *map, size_t map_words,
    size_t size) HESKAVERN_NOEXCEPT;

/* Ask all: a row of requests in one call, as of a whole statement. Each is an ask for its size, one after the other
   from the front, and gets that ask's number and offset in its places: 0, or 3, 4 or 6 with offset 0. Its size stays. A
   request that is refused does not stop the rest. So row and heap are left as by as many calls of ask; but 1 and 2 are
   tested once, first.
   Value 0. Refuses with 1, 2, and then with 7 where there are more than HESKAVERN_MOST_REQUESTS; the row is then left
   as it came. Done, number 0, says that the row was gone through, and not that every request was served: look at each
   one's number. An empty row is done; requests is not null even then. */
HESKAVERN_MUST_USE heskavern_answer heskavern_ask_all(
    uint8_t *memory, size_t memory_bytes, uint32_t *books, size_t books_words, uint64_t *map, size_t map_words,
    heskavern_request *requests, size_t entries) HESKAVERN_NOEXCEPT;

/* Give back: the block is live no more. Value: the given offset. Writes books, map, and a link in the block's first
   four bytes. Refuses with 1, 2, 5, 10, 6. */
HESKAVERN_MUST_USE heskavern_answer heskavern_give_back(
    uint8_t *memory, size_t memory_bytes, uint32_t *books, size_t books_words, uint64_t *map, size_t map_words,
    size_t offset) HESKAVERN_NOEXCEPT;

/* Resize: makes room for size bytes. Value: the offset of the block that the text is then in. Of a block of s bytes,
   the offset is kept and nothing changes where size <= s and 4 * size > 3 * s. Otherwise a block is asked for, the
   first min(size, s) bytes are copied to it, and the old block is given back. Refuses with 1, 2, 3, 5, 10, 4, 6.
   Number 6 with a value other than 0 is the half-done resize: the text stands in the new block, at that offset, and the
   old block could not be given back. */
HESKAVERN_MUST_USE heskavern_answer heskavern_resize(
    uint8_t *memory, size_t memory_bytes, uint32_t *books, size_t books_words, uint64_t *map, size_t map_words,
    size_t offset, size_t size) HESKAVERN_NOEXCEPT;

/* View's companion: value is the size of the live block. Writes nothing. Refuses with 1, 2, 5, 10. */
HESKAVERN_MUST_USE heskavern_answer heskavern_view_size(
    const uint8_t *memory, size_t memory_bytes, const uint32_t *books, size_t books_words, const uint64_t *map,
    size_t map_words, size_t offset) HESKAVERN_NOEXCEPT;

/* Write: copies the text to the start of a live block; the rest of the block stays. Value: the given offset. Text lies
   outside memory, so what a view shows is copied out before it is written to another block; and text is not null, even
   where text_bytes is 0. Refuses with 1, 2, 5, 10, 7. */
HESKAVERN_MUST_USE heskavern_answer heskavern_write(
    uint8_t *memory, size_t memory_bytes, const uint32_t *books, size_t books_words, const uint64_t *map,
    size_t map_words, size_t offset, const void *text, size_t text_bytes) HESKAVERN_NOEXCEPT;

/* Roll call: writes offset and block size of each live block to roll, by rising offset, and leaves the words after
   them. Value: how many blocks are live. Refuses with 1, 2, 7. It is quickest with HESKAVERN_ROLL_WORDS words: with
   fewer it counts the live blocks before it writes. */
HESKAVERN_MUST_USE heskavern_answer heskavern_roll_call(
    const uint8_t *memory, size_t memory_bytes, const uint32_t *books, size_t books_words, const uint64_t *map,
    size_t map_words, uint32_t *roll, size_t roll_words) HESKAVERN_NOEXCEPT;

/* Audit: whether the heap keeps the nine rules above. Answers 0, HESKAVERN_AUDIT_YES, or the number, 1 to 9, of the
   first rule that is broken: the lowest one, anywhere in the heap. It never refuses: rule 1 is what 1 and 2 of the
   other calls say. Writes nothing. It reads books and map and, of memory, the links of freed blocks.
   On every heap that is kept as said above it is yes. After a yes no call gives 6, and after any call it is yes again,
   until somebody else writes to books, map or a block that is not out. A no of another rule than 1 says that
   somebody did: see "After a 6". (But rule 9 alone is broken, too, of a heap that was saved before the usable list had
   an order: every call goes on with that one.) */
HESKAVERN_MUST_USE uint32_t heskavern_audit(
    const uint8_t *memory, size_t memory_bytes, const uint32_t *books, size_t books_words, const uint64_t *map,
    size_t map_words) HESKAVERN_NOEXCEPT;

/* Compare: what differs between two heaps of equal A, P and edition, as one that was saved and the one that went on.
   Writes an entry of two words to list, its offset and its kind, for each offset that is live in just one of the two,
   or live in both with another block size or other bytes: each once, by rising offset. Leaves the words after them. The
   bytes are those of the whole block, behind its text too. A text that has moved is at two offsets: it has gone from
   one and come to another.
   Writes to changes, at index c, how many more blocks of class c are live in the second heap than in the first, below 0
   where fewer are: 64 of them, and in edition sixteen 32. Leaves what is after those. Class c has blocks of 8(c + 1)
   bytes, in edition sixteen of 16(c + 1). The changes add up to the second heap's roll count less the first's.
   Value: how many entries; at most 506 entries, 1,012 words, for each pool. Refuses with 1, 2, 12, 7: with 7 where list
   or changes have less room than that takes. A refusal writes neither. The two heaps may be in the same buffers, all or
   some. As roll call it goes by the maps and the pools' classes, and never gives 6. */
HESKAVERN_MUST_USE heskavern_answer heskavern_compare(
    const uint8_t *first_memory, size_t first_memory_bytes, const uint32_t *first_books, size_t first_books_words,
    const uint64_t *first_map, size_t first_map_words, const uint8_t *second_memory, size_t second_memory_bytes,
    const uint32_t *second_books, size_t second_books_words, const uint64_t *second_map, size_t second_map_words,
    uint32_t *list, size_t list_words, int32_t *changes, size_t changes_count) HESKAVERN_NOEXCEPT;

/* Stand-in: the live block's own part of memory, the whole block; where view_size refuses, the phrase itself, all of
   it. So, on a heap that is kept as said above, a block that is not out is never read out: its offset speaks the
   phrase. Neither is copied: what is handed back shows the block while it is out, or the phrase while that stands. The
   phrase is only handed on: it may be empty, though not null, and it may be a part of memory. */
HESKAVERN_INLINE heskavern_part heskavern_stand_in(
    const uint8_t *memory, size_t memory_bytes, const uint32_t *books, size_t books_words, const uint64_t *map,
    size_t map_words, size_t offset, const void *phrase, size_t phrase_bytes) HESKAVERN_NOEXCEPT
{
    heskavern_answer sized = heskavern_view_size(memory, memory_bytes, books, books_words, map, map_words, offset);
    heskavern_part part = {HESKAVERN_BYTES(phrase), phrase_bytes};
    if (sized.number == HESKAVERN_DONE) {
        part.bytes = memory + offset;
        part.size = sized.value;
    }
    return part;
}

/* View: the live block's own part of memory, the whole block; where view_size refuses, the empty part at memory's
   start: the stand-in of nothing. */
HESKAVERN_INLINE heskavern_part heskavern_view(
    const uint8_t *memory, size_t memory_bytes, const uint32_t *books, size_t books_words, const uint64_t *map,
    size_t map_words, size_t offset) HESKAVERN_NOEXCEPT
{
    return heskavern_stand_in(memory, memory_bytes, books, books_words, map, map_words, offset, memory, 0);
}

#ifdef __cplusplus
}
#endif

#endif
