/* Holds bench/checks.c, by its names CHECKS(name), to the library: verify SEED CALLS. Both get the same random calls
 * over the same buffers, in both editions, on sound books and on damaged ones, and must give the same number and value,
 * or of a stand-in the same part, and leave the same memory, books, map and roll. The audit must say yes of a sound
 * heap, and of one that is spoilt in one place the rule that this breaks (spoils.h). Now and then two heaps are
 * compared (pairs.h): list and changes must be the same. A row of requests must be left the same, every word of it, and
 * as by as many asks (rows.h). Fails also where the calls never met one of the tests of a shape that fails first, or in
 * one of the editions a number, a half-done resize whose give-back meets 5, 6 or 10, a stand-in that is the phrase or
 * one that is the block's own part, one of the calls on an offset with one of the reasons why that is a dead block or
 * none, a give-back with one of the kinds of walk past the arenas that follow in the usable list, one of the roll calls
 * over one of the kinds of map with one of the kinds of room, an audit that gives one of the rules, one of the kinds of
 * place that is spoilt, of two heaps one of the kinds of difference, of pools, of rooms, of refusals or of what is
 * altered in one of them, or of rows one of the numbers, of the lengths or of the numbers of their requests. */
#include "checks.h"
#include "random.h"
#include "spoils.h"
#include "pairs.h"
#include "rows.h"

#include <stdbool.h>
#include <stdio.h>
#include <stdlib.h>
#include <string.h>

enum { MOST_POOLS = 64, MOST_HELD = 4096, GONE = 64, EDITION = 68, EDITIONS = 2 };
enum { FORMAT, ASK, ASK_ALL, GIVE_BACK, RESIZE, VIEW_SIZE, STAND_IN, WRITE, AUDIT, ROLL_CALL, PLAIN_ROLL_CALL, CALLS };
enum { AT_BLOCKS, PAST_THE_LAST, NO_CLASS, WHOLE_WORDS, ALL_ONES, LAST_WORD, CROWDED, MAPS };
enum { FOR_ALL, MORE, ENOUGH, ONE_TOO_FEW, FEWER, ROOMS };
enum { DEAD, DEAD_DAMAGED, OPEN_0, OPEN_ABOVE_1, PAST_THE_MARK, AT_NEXTOFFSET, PAST_NEXTOFFSET, NO_START, NO_END,
       ABOVE_LAST, SEVERAL, REASONS };
enum { PASSES_NONE, UNREAD_PREVIOUS, PASSES_ONE, PASSES_MORE, COMES_BACK, BAD_NEXT, BAD_NEXT_LATER, BAD_PREVIOUS,
       TOO_LONG, WALKS };
enum { UNDER_TWO_WORDS, A_OR_P, NO_EDITION, BAD_EDITION, LENGTHS, SHAPES };
enum { VERDICTS = HESKAVERN_AUDIT_ORDER + 1 };

struct buffers {
    uint8_t memory[MOST_POOLS * 4096];
    uint32_t books[72 + 8 * 16 + 8 * MOST_POOLS];
    uint64_t map[8 * MOST_POOLS];
    uint32_t roll[2 * 506 * MOST_POOLS];
    heskavern_request row[MOST_ENTRIES + 1];
};

struct call {
    unsigned kind;
    size_t memory_bytes, books_words, map_words, roll_words;
    size_t x, y, z;         /* A, P and the edition; or a size; or how many requests a row has; or an offset, and a size
                               or a text's length */
    size_t walk;            /* of a give-back: the walk that it comes to, or WALKS */
    uint32_t live;          /* of a roll call: the live blocks that it meets, and what is in the map */
    bool in_map[MAPS];
};

static const char *const names[CALLS] = {"format", "ask", "ask all", "give back", "resize", "view_size", "stand-in",
                                         "write", "audit", "roll call", "plain roll call"};
static const char *const maps[MAPS] = {
    [AT_BLOCKS] = "bits at blocks alone",
    [PAST_THE_LAST] = "bits past a pool's last block",
    [NO_CLASS] = "bits of a pool of class above the last",
    [WHOLE_WORDS] = "whole words of ones",
    [ALL_ONES] = "every word all ones",
    [LAST_WORD] = "a pool's live blocks in the last word alone that the smallest have bits in",
    [CROWDED] = "most blocks live that there could be",
};
static const char *const rooms[ROOMS] = {
    [FOR_ALL] = "every block",
    [MORE] = "more than are live",
    [ENOUGH] = "just these",
    [ONE_TOO_FEW] = "a word less",
    [FEWER] = "fewer still",
};

static const char *const reasons[REASONS] = {
    [DEAD] = "a dead block, on sound books",
    [DEAD_DAMAGED] = "a dead block, on damaged books",
    [OPEN_0] = "none, only because the open word is 0",
    [OPEN_ABOVE_1] = "none, only because the open word is above 1",
    [PAST_THE_MARK] = "none, only because the pool is not below the mark",
    [AT_NEXTOFFSET] = "none, only because it is at nextoffset",
    [PAST_NEXTOFFSET] = "none, only because it is past nextoffset",
    [NO_START] = "none, only because no block starts there",
    [NO_END] = "none, only because the block would not end in its pool",
    [ABOVE_LAST] = "none, only because the class is above the last",
    [SEVERAL] = "none, because of several of these, or outside memory",
};
static const char *const walks[WALKS] = {
    [PASSES_NONE] = "none",
    [UNREAD_PREVIOUS] = "none, where its previous is above A",
    [PASSES_ONE] = "one arena",
    [PASSES_MORE] = "more than one",
    [COMES_BACK] = "some, and the links lead back to it",
    [BAD_NEXT] = "6, as its next is above A",
    [BAD_NEXT_LATER] = "6, as the next of one that is passed is above A",
    [BAD_PREVIOUS] = "6, as one is passed and its previous is above A",
    [TOO_LONG] = "6, as more than A would be passed",
};
static const char *const shapes[SHAPES] = {
    [UNDER_TWO_WORDS] = "books of under two words",
    [A_OR_P] = "A or P",
    [NO_EDITION] = "books that do not reach the edition's word",
    [BAD_EDITION] = "the edition",
    [LENGTHS] = "the lengths",
};
static const unsigned numbers[] = {0, 1, 2, 3, 4, 5, 6, 7, 10};
static const uint8_t on_offsets[] = {GIVE_BACK, RESIZE, VIEW_SIZE, WRITE};

static struct buffers library, checks;
static size_t arenas, pools;
static bool sound;                              /* nothing was damaged since format */
static bool just_damaged;                       /* no call has met the damage yet */
static bool few;                                /* about one block for each pool is out, so that arenas move */
static uint32_t held[MOST_HELD], held_count;    /* offsets that were handed out, as far as the answers tell */
static uint32_t gone[GONE], gone_count;         /* the last of those that came back, and how many came in all */
static unsigned long shapes_met[2][SHAPES];     /* of the other calls, and of format */
static struct met {
    unsigned long numbers[11], half_done[11], stood_in[2], rolls[CALLS][MAPS][ROOMS], on[CALLS][REASONS], walks[WALKS];
    unsigned long verdicts[VERDICTS], spoilt[SPOILS];
    struct met_rows rows;
} met_in[EDITIONS], *met = met_in;              /* met is that of the books' edition */
static uint8_t text[600];

#define LENT(b) (b)->memory, c->memory_bytes, (b)->books, c->books_words, (b)->map, c->map_words

/* What a stand-in hands back, to be compared as an answer is: 1 with its length where it is the phrase, which is the
 * text, and 0 with both its place and its size where it is a part of memory. */
static heskavern_answer handed(const struct buffers *b, heskavern_part part)
{
    if (part.bytes == text)
        return (heskavern_answer){1, (uint32_t)part.size};
    return (heskavern_answer){0, (uint32_t)(1024 * (part.bytes - b->memory)) + (uint32_t)part.size};
}

static heskavern_answer by_library(struct buffers *b, const struct call *c)
{
    switch (c->kind) {
    case FORMAT: return heskavern_format(LENT(b), c->x, c->y, c->z);
    case ASK: return heskavern_ask(LENT(b), c->x);
    case ASK_ALL: return heskavern_ask_all(LENT(b), b->row, c->x);
    case GIVE_BACK: return heskavern_give_back(LENT(b), c->x);
    case RESIZE: return heskavern_resize(LENT(b), c->x, c->y);
    case VIEW_SIZE: return heskavern_view_size(LENT(b), c->x);
    case STAND_IN: return handed(b, heskavern_stand_in(LENT(b), c->x, text, c->y));
    case WRITE: return heskavern_write(LENT(b), c->x, text, c->y);
    case AUDIT: return (heskavern_answer){heskavern_audit(LENT(b)), 0};
    default: return heskavern_roll_call(LENT(b), b->roll, c->roll_words);
    }
}

static heskavern_answer by_checks(struct buffers *b, const struct call *c)
{
    switch (c->kind) {
    case FORMAT: return CHECKS(format)(LENT(b), c->x, c->y, c->z);
    case ASK: return CHECKS(ask)(LENT(b), c->x);
    case ASK_ALL: return CHECKS(ask_all)(LENT(b), b->row, c->x);
    case GIVE_BACK: return CHECKS(give_back)(LENT(b), c->x);
    case RESIZE: return CHECKS(resize)(LENT(b), c->x, c->y);
    case VIEW_SIZE: return CHECKS(view_size)(LENT(b), c->x);
    case STAND_IN: return handed(b, CHECKS(stand_in)(LENT(b), c->x, text, c->y));
    case WRITE: return CHECKS(write)(LENT(b), c->x, text, c->y);
    case AUDIT: return (heskavern_answer){CHECKS(audit)(LENT(b)), 0};
    case ROLL_CALL: return CHECKS(roll_call)(LENT(b), b->roll, c->roll_words);
    default: return CHECKS(plain_roll_call)(LENT(b), b->roll, c->roll_words);
    }
}

/* Few sizes, so that pools fill and empty, and now and then one that is none. Where few blocks are out they are of all
 * sizes, and so have pools of their own. */
static size_t random_size(void)
{
    static const uint16_t sizes[] = {8, 24, 200, 440, 512};
    return below(40) == 0 ? below(3) * 513 : few || below(4) == 0 ? between(1, 512) : sizes[below(5)];
}

/* The alignment by the books' edition; one that is none is taken for eight. */
static uint32_t alignment(void)
{
    return library.books[EDITION] == HESKAVERN_SIXTEEN ? 16 : 8;
}

static uint32_t last_class(void)
{
    return 512 / alignment() - 1;
}

static uint32_t size_of(uint32_t class)
{
    return alignment() * (class + 1);
}

/* Where the books have the class of pool p; nextoffset is the word after it, and the count the first of its record. */
static size_t class_word(size_t p)
{
    return 72 + 8 * arenas + 8 * p + 4;
}

/* Most often one that was handed out; or any, one that came back, one about where a pool has its nextoffset, or the one
 * after its last block. */
static size_t random_offset(void)
{
    uint32_t all = (uint32_t)(arenas * pools), p = below(all), class = library.books[class_word(p)];
    uint32_t size = class > last_class() ? 512 : size_of(class);
    switch (below(held_count != 0 ? 25 : 5)) {
    case 0: return below(4096 * all + 64);
    case 1: return 4096 * p + 48 + 8 * below(506);
    case 2: return gone[below(GONE)];
    case 3: return 4096 * p + library.books[class_word(p) + 1] + size * below(4) - 2 * size;
    case 4: return 4096 * p + 48 + 4048 / size * size;
    default: return held[below(held_count)];
    }
}

/* Whether the give-back of this offset, if a block is live there, comes to the walk: its pool falls empty, by words
 * that keep their rules, and its arena stays usable. */
static bool comes_to_walk(size_t offset)
{
    const size_t all = arenas * pools, p = offset / 4096;
    if (p >= all || library.books[class_word(p)] > last_class())
        return false;
    const uint32_t *pool = &library.books[class_word(p) - 4], *arena = &library.books[72 + 8 * (p / pools)];
    const uint32_t size = size_of(pool[4]), first = pool[1];
    return pool[0] == 1 && first >= 48 && first <= 4096 - size && (first - 48) % size == 0 && pool[2] <= all
        && pool[3] <= all && arena[3] <= all && arena[2] >= 1 && arena[2] < pools - 1;
}

/* The walk that a give-back is to come to, by the words that the books hold: free pools is the third of an arena's
 * record, next the fifth and previous the sixth. */
static size_t walk_of(size_t offset)
{
    if (!comes_to_walk(offset))
        return WALKS;
    const uint32_t a = (uint32_t)(offset / 4096 / pools), *records = library.books + 72, *own = records + 8 * a;
    uint32_t next = own[4];
    size_t passed = 0;
    while (next >= 1 && next <= arenas && next - 1 != a && records[8 * (next - 1) + 2] <= own[2]) {
        if (passed++ == arenas)
            return TOO_LONG;
        next = records[8 * (next - 1) + 4];
    }
    if (next > arenas)
        return passed == 0 ? BAD_NEXT : BAD_NEXT_LATER;
    if (own[5] > arenas)
        return passed == 0 ? UNREAD_PREVIOUS : BAD_PREVIOUS;
    if (passed != 0 && next == a + 1)
        return COMES_BACK;
    return passed == 0 ? PASSES_NONE : passed == 1 ? PASSES_ONE : PASSES_MORE;
}

/* What a roll call is to meet, bit by bit. */
static void look(struct call *c)
{
    const uint32_t most = 4048 / alignment();
    c->in_map[ALL_ONES] = true;
    for (size_t p = 0; p < arenas * pools; p++) {
        uint32_t class = library.books[class_word(p)], lowest = 512;
        uint32_t blocks = class > last_class() ? 0 : 4048 / size_of(class);
        for (uint32_t k = 512; k-- > 0;) {
            uint64_t word = library.map[8 * p + k / 64];
            c->in_map[ALL_ONES] &= word == UINT64_MAX;
            if ((word >> k % 64 & 1) == 0)
                continue;
            lowest = k;
            c->live += k < blocks;
            c->in_map[PAST_THE_LAST] |= class <= last_class() && k >= blocks;
            c->in_map[NO_CLASS] |= class > last_class();
            c->in_map[WHOLE_WORDS] |= word == UINT64_MAX;
        }
        c->in_map[LAST_WORD] |= lowest >= most / 64 * 64 && lowest < blocks;
    }
    c->in_map[AT_BLOCKS] = !c->in_map[PAST_THE_LAST] && !c->in_map[NO_CLASS];
    c->in_map[CROWDED] = 2 * c->live > most * arenas * pools;
}

/* Roll words: about as many as for every block, about as many as for the live ones, or any. */
static size_t random_room(uint32_t live)
{
    uint32_t most = (uint32_t)HESKAVERN_ROLL_WORDS(arenas, pools);
    switch (below(6)) {
    case 0: return most;
    case 1: return most - below(3);
    case 2: return 2 * live;
    case 3: return 2 * live - (live != 0);
    case 4: return below(2 * live + 4);
    default: return below(most);
    }
}

/* Both rolls get words that no roll call writes, so that whatever it writes is seen. */
static void blank_rolls(void)
{
    memset(library.roll, 0xff, sizeof *library.roll * HESKAVERN_ROLL_WORDS(arenas, pools));
    memset(checks.roll, 0xff, sizeof *checks.roll * HESKAVERN_ROLL_WORDS(arenas, pools));
}

/* Both get the same row, with words in the places of numbers and offsets that no ask leaves there; and so does, with
 * the heap as it is, the copy that the single asks are made on. */
static size_t random_row(void)
{
    const size_t entries = random_entries(few);
    for (size_t i = 0; i <= entries; i++)
        single_row[i] = (heskavern_request){(uint32_t)random_size(), UNWRITTEN, UNWRITTEN};
    memcpy(library.row, single_row, (entries + 1) * sizeof *single_row);
    memcpy(checks.row, single_row, (entries + 1) * sizeof *single_row);
    copy_heap(&single, library.memory, library.books, library.map, arenas, pools, sound);
    return entries;
}

/* A call of this kind that lends the exact lengths. */
static struct call exact_call(unsigned kind)
{
    return (struct call){.kind = kind,
                         .memory_bytes = arenas * pools * 4096,
                         .books_words = 72 + 8 * arenas + 8 * arenas * pools,
                         .map_words = 8 * arenas * pools};
}

static struct call random_call(void)
{
    static const uint8_t kinds[] = {ASK,    ASK,    ASK,       ASK,      ASK,   GIVE_BACK, GIVE_BACK, GIVE_BACK,
                                    RESIZE, RESIZE, VIEW_SIZE, STAND_IN, WRITE, AUDIT,     ROLL_CALL, PLAIN_ROLL_CALL};
    static const size_t editions[] = {2, (size_t)1 << 32, ((size_t)1 << 32) + 1, SIZE_MAX};    /* each is none */
    struct call c = exact_call(kinds[below(sizeof kinds)]);
    c.x = random_offset();
    c.y = random_size();
    if (just_damaged && below(2) == 0)
        c.kind = AUDIT;
    else if (few && below(2) == 0)
        c.kind = below((uint32_t)(arenas * pools)) < held_count ? GIVE_BACK : ASK;
    if (below(300) == 0) {
        c.kind = FORMAT, c.x = below(4) == 0 ? below(18) : arenas, c.y = below(4) == 0 ? below(66) : pools;
        c.z = below(4) == 0 ? editions[below(4)] : below(2);
    }
    if (c.kind == ASK)
        c.x = random_size();
    if (c.kind == ASK && below(16) == 0)
        c.kind = ASK_ALL, c.x = random_row();
    if (c.kind == RESIZE && below(4) == 0)
        c.y = c.x % 4096 - 48;      /* in blocks of this size, the second one of its pool would start where it does */
    if (c.kind == GIVE_BACK)
        c.walk = walk_of(c.x);
    if (c.kind >= ROLL_CALL) {
        look(&c);
        c.roll_words = random_room(c.live);
        blank_rolls();
    }
    if (below(200) == 0)
        *(below(3) == 0 ? &c.memory_bytes : below(2) == 0 ? &c.books_words : &c.map_words) -= 1;
    if (below(library.books[EDITION] > HESKAVERN_SIXTEEN ? 20 : 1000) == 0)
        c.books_words = below(2) == 0 ? below(2) : between(EDITION - 2, EDITION + 2);
    return c;
}

/* A value that a damaged word may hold: near a bound, a block start, a link, or a start past the last block of one of
 * the few sizes. */
static uint32_t odd_word(void)
{
    static const uint32_t odd[] = {0, 0, 1, 2, 3, 48, 56, 505, 506, 507, 4088, 4096, 65535, UINT32_MAX};
    static const uint32_t past[] = {4096, 4080, 4048, 4008, 4000, 3632};
    switch (below(5)) {
    case 0: return (uint32_t)(arenas * pools) + below(2);
    case 1: return 48 + 8 * below(506);
    case 2: return below((uint32_t)(arenas * pools) + 1);
    case 3: return past[below(sizeof past / sizeof *past)];
    default: return odd[below(sizeof odd / sizeof *odd)];
    }
}

/* Most pools, or all of them, get bits of ones, and most of these the smallest blocks, the same in both. */
static void crowd(void)
{
    bool all = below(2) == 0;
    sound = false;
    for (size_t p = 0; p < arenas * pools; p++) {
        if (!all && below(8) == 0)
            continue;
        library.books[class_word(p)] = checks.books[class_word(p)] = below(4) == 0 ? below(66) : 0;
        memset(&library.map[8 * p], 0xff, 8 * sizeof *library.map);
        memset(&checks.map[8 * p], 0xff, 8 * sizeof *checks.map);
    }
}

/* The pool of a block that was handed out becomes the first freed one of the arena that the next pool is taken from,
 * without its first two blocks, the same in both: so that a resize may take it for another size, and find its own block
 * gone. */
static void free_in_use(void)
{
    uint32_t p = held[below(held_count)] / 4096, front = library.books[2];
    size_t head = 72 + 8 * (front >= 1 && front <= arenas ? front - 1 : below((uint32_t)arenas)) + 3;
    library.books[head] = checks.books[head] = p + 1;
    library.map[8 * p] = checks.map[8 * p] = library.map[8 * p] & ~(uint64_t)3;
}

/* The edition becomes one of the two, or none; and after that one again, since such a heap does nothing. */
static void damage_edition(void)
{
    bool none = library.books[EDITION] <= HESKAVERN_SIXTEEN && below(2) == 0;
    library.books[EDITION] = checks.books[EDITION] = none ? 2 + odd_word() / 2 : below(2);
}

/* A word of a pool's map becomes all ones, the others perhaps all zeros: often the last one that the smallest blocks
 * have bits in. */
static void damage_map(size_t p)
{
    size_t last = (4048 / alignment() - 1) / 64;
    if (below(2) == 0)
        memset(&library.map[8 * p], 0, 8 * sizeof *library.map);
    library.map[8 * p + (below(2) == 0 ? last : below(8))] = UINT64_MAX;
    memcpy(&checks.map[8 * p], &library.map[8 * p], 8 * sizeof *library.map);
}

/* An arena's next or previous becomes the link to any arena, or 0, or the first that is none. */
static void damage_links(void)
{
    const uint32_t most = (uint32_t)arenas;
    size_t at = 72 + 8 * below(most) + 4 + below(2);
    library.books[at] = checks.books[at] = below(3) == 0 ? most + 1 : below(most + 1);
}

/* The word at a place of both books becomes another. */
static void set_word(size_t at, uint32_t word)
{
    library.books[at] = checks.books[at] = word;
}

/* Damages words of the books, a bit or a word of the map or a link, the same in both. */
static void damage(void)
{
    size_t words = 72 + 8 * arenas + 8 * arenas * pools, p = below((uint32_t)(arenas * pools)), at;
    uint32_t word = odd_word();
    sound = false;
    just_damaged = true;
    switch (library.books[EDITION] > HESKAVERN_SIXTEEN ? 9 : below(16)) {
    case 0:
        at = 8 * p + below(1 + below(8));
        library.map[at] = checks.map[at] = library.map[at] ^ (uint64_t)1 << below(64);
        break;
    case 1:
        damage_map(p);
        break;
    case 2:
        set_word(class_word(p), below(3) == 0 ? last_class() - 1 + below(4) : below(2) == 0 ? below(64) : word);
        break;
    case 3:
    case 4:
        at = held_count != 0 ? held[below(held_count)] : 48;
        memcpy(library.memory + at, &word, sizeof word);
        memcpy(checks.memory + at, &word, sizeof word);
        break;
    case 5:
        set_word(72 + 8 * below((uint32_t)arenas) + below(2), below((uint32_t)pools + 2));
        break;
    case 6:
        at = class_word(p) + 1;
        set_word(at, below(2) == 0 ? 4096 : library.books[at] + 8 * below(3) - 8);
        break;
    case 7:
    case 8:
        if (held_count != 0)
            free_in_use();
        break;
    case 9:
        damage_edition();
        break;
    case 10:
        set_word(class_word(p) - 4, between(504, 508) / (1 + below(2)));   /* or about half of these */
        break;
    case 11:
    case 12:
        damage_links();
        break;
    default:
        set_word(below(20) == 0 ? below(2) : 2 + below((uint32_t)words - 2), word);
    }
}

/* Memory of anything, or of zeros, so that what is no link looks like the end of a chain. */
static void fresh(bool zeros)
{
    few = below(4) == 0;
    do {
        arenas = below(4) == 0 ? between(1, 16) : few ? between(2, 6) : between(1, 3);
        pools = below(8) == 0 ? between(2, 64) : few ? between(3, 5) : between(2, 4);
    } while (arenas * pools > MOST_POOLS);
    for (size_t i = 0; i < sizeof library.memory; i++)
        library.memory[i] = zeros ? 0 : (uint8_t)below(256);
    memset(library.books, 0xff, sizeof library.books);
    memset(library.map, 0xff, sizeof library.map);
    checks = library;
    held_count = 0;
}

static bool same(const struct call *c, heskavern_answer x, heskavern_answer y)
{
    const char *what = x.number != y.number ? "numbers" : x.value != y.value ? "values" : NULL;
    size_t bytes = 4096 * arenas * pools, roll_bytes = sizeof *library.roll * HESKAVERN_ROLL_WORDS(arenas, pools);
    if (memcmp(library.memory, checks.memory, bytes) != 0)
        what = "memory";
    if (memcmp(library.books, checks.books, sizeof library.books) != 0)
        what = "books";
    if (memcmp(library.map, checks.map, sizeof library.map) != 0)
        what = "map";
    if (c->kind >= ROLL_CALL && memcmp(library.roll, checks.roll, roll_bytes) != 0)
        what = "roll";
    if (c->kind == ASK_ALL && memcmp(library.row, checks.row, (c->x + 1) * sizeof *library.row) != 0)
        what = "row";
    if (what == NULL)
        return true;
    printf("bench/verify: %s differ after %s (%zu, %zu, %zu), A = %zu, P = %zu, edition %u: "
           "the library gives %u %u, checks.c %u %u\n",
           what, names[c->kind], c->x, c->y, c->z, arenas, pools, library.books[EDITION], x.number, x.value, y.number,
           y.value);
    return false;
}

/* Why an offset that is not live is a dead block or none, by the words that the books hold. */
static size_t reason_of(size_t offset)
{
    if (offset >= 4096 * arenas * pools)
        return SEVERAL;
    size_t p = offset / 4096, place = offset % 4096, start = 48, reason = sound ? DEAD : DEAD_DAMAGED;
    uint32_t open = library.books[72 + 8 * (p / pools)], mark = library.books[72 + 8 * (p / pools) + 1];
    uint32_t class = library.books[class_word(p)], next = library.books[class_word(p) + 1];
    while (class <= last_class() && start < place)
        start += size_of(class);
    const bool against[REASONS] = {
        [OPEN_0] = open == 0,
        [OPEN_ABOVE_1] = open > 1,
        [PAST_THE_MARK] = p % pools >= mark,
        [AT_NEXTOFFSET] = place == next,
        [PAST_NEXTOFFSET] = place > next,
        [NO_START] = class <= last_class() && start != place,
        [NO_END] = class <= last_class() && start == place && start + size_of(class) > 4096,
        [ABOVE_LAST] = class > last_class(),
    };
    for (size_t i = 0; i < REASONS; i++)
        if (against[i])
            reason = reason > DEAD_DAMAGED ? SEVERAL : i;
    return reason;
}

/* Counts a resize that was half done, by what its give-back met: 6 where the block is live. */
static void note_half_done(const struct call *c)
{
    struct call view = *c;
    view.kind = VIEW_SIZE;
    uint32_t number = by_library(&library, &view).number;
    met->half_done[number == HESKAVERN_DONE ? HESKAVERN_DAMAGED : number]++;
}

/* Counts a give-back that came to a walk. 1, 2, 5 and 10 come before it; then it is done or 6, as the walk says, or
 * both programs are wrong. */
static void note_walk(const struct call *c, uint32_t number)
{
    if (c->walk == WALKS || (number != HESKAVERN_DONE && number != HESKAVERN_DAMAGED))
        return;
    if (number != (c->walk < BAD_NEXT ? HESKAVERN_DONE : HESKAVERN_DAMAGED)) {
        printf("bench/verify: a give-back of %zu gives %u, where an arena passes %s\n", c->x, number, walks[c->walk]);
        exit(1);
    }
    met->walks[c->walk]++;
}

/* Counts a roll call that was done or did not fit. */
static void note_roll(const struct call *c)
{
    size_t words = c->roll_words, needed = 2 * (size_t)c->live, room = FEWER;
    if (words >= HESKAVERN_ROLL_WORDS(arenas, pools))
        room = FOR_ALL;
    else if (words >= needed)
        room = words == needed ? ENOUGH : MORE;
    else if (words + 1 == needed)
        room = ONE_TOO_FEW;
    for (size_t m = 0; m < MAPS; m++)
        met->rolls[c->kind][m][room] += c->in_map[m];
}

/* Counts a call that was refused with 1 or 2, by the test that failed first. */
static void note_shape(const struct call *c)
{
    const bool format = c->kind == FORMAT;
    const size_t a = format ? c->x : library.books[0], p = format ? c->y : library.books[1];
    const size_t edition = format ? c->z : library.books[EDITION];
    const bool fails[SHAPES] = {
        [UNDER_TWO_WORDS] = !format && c->books_words < 2,
        [A_OR_P] = a < 1 || a > 16 || p < 2 || p > 64,
        [NO_EDITION] = !format && c->books_words <= EDITION,
        [BAD_EDITION] = edition > HESKAVERN_SIXTEEN,
        [LENGTHS] = true,
    };
    size_t first = 0;
    while (!fails[first])
        first++;
    shapes_met[format][first]++;
}

/* Counts an audit: of a sound heap it is yes, if the lengths are exact, or both programs are wrong. */
static void note_audit(const struct call *c, uint32_t verdict)
{
    struct call exact = exact_call(AUDIT);
    bool shaped = c->memory_bytes == exact.memory_bytes && c->books_words == exact.books_words
        && c->map_words == exact.map_words;
    if (sound && verdict != (shaped ? HESKAVERN_AUDIT_YES : HESKAVERN_AUDIT_SHAPE)) {
        printf("bench/verify: the audit gives %u of a sound heap\n", verdict);
        exit(1);
    }
    met->verdicts[verdict]++;
}

/* Keeps an offset that was handed out. */
static void hold(uint32_t offset)
{
    if (held_count < MOST_HELD)
        held[held_count++] = offset;
}

/* An offset came back, and is held no more. */
static void let_go(uint32_t offset)
{
    gone[gone_count++ % GONE] = offset;
    for (uint32_t i = 0; i < held_count; i++)
        if (held[i] == offset)
            held[i--] = held[--held_count];
}

/* Keeps what is held by the answers of the call. */
static void note(const struct call *c, heskavern_answer a)
{
    bool moved = c->kind == RESIZE && a.value != c->x;
    if (c->kind == STAND_IN) {
        met->stood_in[a.number]++;
        return;
    }
    if (c->kind == AUDIT) {
        note_audit(c, a.number);
        return;
    }
    met->numbers[a.number]++;
    if (a.number == HESKAVERN_OUT_OF_RANGE || a.number == HESKAVERN_NOT_EXACT)
        note_shape(c);
    if (a.number == HESKAVERN_NO_BLOCK || a.number == HESKAVERN_DEAD_BLOCK)
        met->on[c->kind][reason_of(c->x)]++;
    if (c->kind == RESIZE && a.number == HESKAVERN_DAMAGED && a.value != 0)
        note_half_done(c);
    if (c->kind == GIVE_BACK)
        note_walk(c, a.number);
    if (c->kind == ASK_ALL)
        note_row(&met->rows, library.row, c->x, a.number, sound);
    if (c->kind >= ROLL_CALL && (a.number == HESKAVERN_DONE || a.number == HESKAVERN_DOES_NOT_FIT))
        note_roll(c);
    if (a.number != HESKAVERN_DONE)
        return;
    if (c->kind == FORMAT) {
        held_count = 0;
        sound = true;
    }
    if (c->kind == GIVE_BACK || moved)
        let_go((uint32_t)c->x);
    if (c->kind == ASK || moved)
        hold(a.value);
    for (size_t i = 0; c->kind == ASK_ALL && i < c->x; i++)
        if (library.row[i].number == HESKAVERN_DONE)
            hold(library.row[i].offset);
}

/* A sound heap is spoilt in one place, if it has such a one: both audits give the rule that this breaks. Then it is as
 * it was, which the checks' heap still is. */
static bool compare_spoilt(void)
{
    const size_t i = below(SPOILS);
    const struct call c = exact_call(AUDIT);
    const struct sound_heap heap = {library.memory, library.books, library.map, arenas, pools};
    size_t link = 0;
    if (!spoil(&heap, &spoils[i], &link))
        return true;
    uint32_t x = by_library(&library, &c).number, y = by_checks(&library, &c).number;
    memcpy(library.memory + link, checks.memory + link, 4);
    memcpy(library.books, checks.books, sizeof library.books);
    memcpy(library.map, checks.map, sizeof library.map);
    met->spoilt[i]++;
    met->verdicts[x]++;
    if (x == spoils[i].rule && y == x)
        return true;
    printf("bench/verify: %s is spoilt, A = %zu, P = %zu: the library gives %u, checks.c %u, and the rule is %u\n",
           spoils[i].what, arenas, pools, x, y, spoils[i].rule);
    return false;
}

/* Up to 400 calls on one heap. Half of the heaps are damaged now and then. */
static bool compare(unsigned long *calls)
{
    bool damaged = below(2) == 0;
    fresh(!damaged && below(2) == 0);
    unsigned long last = *calls > 400 ? *calls - 400 : 0;
    struct call c = exact_call(FORMAT);
    c.x = arenas, c.y = pools, c.z = below(2);
    for (; *calls > last; --*calls, c = random_call()) {
        heskavern_answer x = by_library(&library, &c), y = by_checks(&checks, &c);
        if (!same(&c, x, y))
            return false;
        if (c.kind == ASK_ALL
            && !as_by_asks(library.row, c.x, x.number, library.memory, library.books, library.map))
            return false;
        met = &met_in[library.books[EDITION] == HESKAVERN_SIXTEEN];
        note(&c, x);
        just_damaged = false;
        if (sound && below(8) == 0 && !compare_spoilt())
            return false;
        if (below(16) == 0 && !hold_pair(keep(library.memory, library.books, library.map, arenas, pools, sound)))
            return false;
        if (damaged && below(16) == 0)
            damage();
        if (damaged && below(1000) == 0)
            crowd();
    }
    return true;
}

/* Says what was met of roll calls, and whether each of them met all of it. */
static bool say_rolls(void)
{
    bool all = true;
    printf("  roll calls with room for");
    for (size_t room = 0; room < ROOMS; room++)
        printf("%s %s", room == 0 ? "" : ",", rooms[room]);
    for (size_t m = 0; m < MAPS; m++) {
        printf("\n    %s:", maps[m]);
        for (size_t room = 0; room < ROOMS; room++) {
            unsigned long roll = met->rolls[ROLL_CALL][m][room], plain = met->rolls[PLAIN_ROLL_CALL][m][room];
            printf(" %lu", roll + plain);
            all &= roll != 0 && plain != 0;
        }
    }
    printf("\n");
    return all;
}

/* Says what was met of offsets that are not live, and whether each of the calls on one met all of it. */
static bool say_reasons(void)
{
    bool all = true;
    printf("  offsets that are not live, by");
    for (size_t i = 0; i < sizeof on_offsets; i++)
        printf("%s %s", i == 0 ? "" : ",", names[on_offsets[i]]);
    for (size_t reason = 0; reason < REASONS; reason++) {
        printf("\n    %s:", reasons[reason]);
        for (size_t i = 0; i < sizeof on_offsets; i++) {
            printf(" %lu", met->on[on_offsets[i]][reason]);
            all &= met->on[on_offsets[i]][reason] != 0;
        }
    }
    printf("\n");
    return all;
}

/* Says what was met of walks, and whether all of it was. */
static bool say_walks(void)
{
    bool all = true;
    printf("  give-backs that may move an arena, by what it passes");
    for (size_t i = 0; i < WALKS; i++) {
        printf("\n    %s: %lu", walks[i], met->walks[i]);
        all &= met->walks[i] != 0;
    }
    printf("\n");
    return all;
}

/* Says what was met of audits, and whether all of it was. */
static bool say_audits(void)
{
    bool all = true;
    printf("  audits, by what they give, 0 to 9:");
    for (size_t i = 0; i < VERDICTS; i++) {
        printf(" %lu", met->verdicts[i]);
        all &= met->verdicts[i] != 0;
    }
    printf("\n  audits of a sound heap with one thing spoilt");
    for (size_t i = 0; i < SPOILS; i++) {
        printf("\n    %u, %s: %lu", spoils[i].rule, spoils[i].what, met->spoilt[i]);
        all &= met->spoilt[i] != 0;
    }
    printf("\n");
    return all;
}

/* Says what was met in an edition, and whether all of it was. */
static bool say_met(size_t edition)
{
    met = &met_in[edition];
    unsigned long five = met->half_done[HESKAVERN_NO_BLOCK], six = met->half_done[HESKAVERN_DAMAGED];
    unsigned long ten = met->half_done[HESKAVERN_DEAD_BLOCK], own = met->stood_in[0], phrases = met->stood_in[1];
    bool all = five != 0 && six != 0 && ten != 0 && own != 0 && phrases != 0;
    printf("  edition %s; numbers 0 to 7, and 10:", edition == HESKAVERN_SIXTEEN ? "sixteen" : "eight");
    for (size_t i = 0; i < sizeof numbers / sizeof *numbers; i++) {
        printf(" %lu", met->numbers[numbers[i]]);
        all &= met->numbers[numbers[i]] != 0;
    }
    printf("; half-done resizes by 5, 6 and 10: %lu %lu %lu; stand-ins: %lu blocks, %lu phrases\n", five, six, ten, own,
           phrases);
    all &= say_reasons();
    all &= say_walks();
    all &= say_audits();
    all &= say_pairs(edition);
    all &= say_rows(&met->rows);
    return say_rolls() && all;
}

/* Says what was met of shapes that are refused, and whether all of it was: format reads no books. */
static bool say_shapes(void)
{
    bool all = true;
    printf("  1 or 2 by the first test that fails, of format and of the other calls:");
    for (size_t i = 0; i < SHAPES; i++) {
        bool of_format = i != UNDER_TWO_WORDS && i != NO_EDITION;
        printf("%s %s %lu %lu", i == 0 ? "" : ",", shapes[i], shapes_met[1][i], shapes_met[0][i]);
        all &= shapes_met[0][i] != 0 && (shapes_met[1][i] != 0) == of_format;
    }
    printf("\n");
    return all;
}

int main(int argc, char **argv)
{
    if (argc != 3 || atol(argv[2]) < 1) {
        fputs("usage: verify SEED CALLS\n", stderr);
        return 2;
    }
    random_state = strtoull(argv[1], NULL, 10);
    for (size_t i = 0; i < sizeof text; i++)
        text[i] = (uint8_t)below(256);
    for (unsigned long calls = strtoul(argv[2], NULL, 10); calls > 0;)
        if (!compare(&calls))
            return 1;
    printf("bench/verify: checks.c and the library agree on %s calls\n", argv[2]);
    bool all = say_shapes();
    for (size_t edition = 0; edition < EDITIONS; edition++)
        all &= say_met(edition);
    if (all)
        return 0;
    puts("bench/verify: one of these was never met: too few calls");
    return 1;
}
