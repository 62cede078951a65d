/* Two heaps side by side, for verify.c, after checks.h, random.h and spoils.h: copies of its heaps, kept from earlier
 * in this history or from one before it, of which two are compared as they are, or with something altered or spoilt in
 * one of them. checks.c must answer as the library does, and write the same words of list and changes and no others.
 * Of a heap beside itself nothing may be listed, and where a byte was altered just the live block that has it. */

#include <stdbool.h>
#include <stdio.h>
#include <string.h>

enum { COPY_POOLS = 64, KEPT = 6, NUMBERS = 13, MOST_CHANGES = 66, UNWRITTEN = 0x5a5a5a5a };
enum { LIST_WORDS = 2 * 506 * COPY_POOLS + 2, EDITION_WORD = 68, HEAPS = 2, KINDS = 5, SIGNS = 3 };
enum { AS_THEY_ARE, A_BYTE, A_BIT, A_WORD_OF_ONES, A_CLASS, OTHER_EDITION, BOTH_EDITIONS, OTHER_A_OR_P, SPOILT,
       ALTERATIONS };
enum { NONE_IN_BOTH, IN_FIRST, IN_SECOND, SAME_SIZE, OTHER_SIZES, SORTS };
enum { LIST_FOR_ALL, LIST_MORE, LIST_ENOUGH, LIST_TOO_SHORT, LIST_ROOMS };
enum { CHANGES_MORE, CHANGES_ENOUGH, CHANGES_TOO_FEW, CHANGES_ROOMS };

/* A heap, and the A and P that the lengths are exact for with which it is lent. */
struct copy {
    uint8_t memory[4096 * COPY_POOLS];
    uint32_t books[72 + 8 * 16 + 8 * COPY_POOLS];
    uint64_t map[8 * COPY_POOLS];
    size_t arenas, pools;
    bool sound;
};

struct lengths {
    size_t memory_bytes, books_words, map_words;
};

/* What a comparison is lent beside the two heaps, and what it leaves there. */
struct room {
    size_t list_words, changes_count;
};

struct compared {
    heskavern_answer answer;
    uint32_t list[LIST_WORDS];
    int32_t changes[MOST_CHANGES];
};

static const char *const alterations[ALTERATIONS] = {
    [AS_THEY_ARE] = "nothing",
    [A_BYTE] = "a byte of a block, or one beside it",
    [A_BIT] = "a bit of the map",
    [A_WORD_OF_ONES] = "a word of the map, to ones",
    [A_CLASS] = "a pool's class",
    [OTHER_EDITION] = "the edition of one",
    [BOTH_EDITIONS] = "the edition of both",
    [OTHER_A_OR_P] = "A, P or both of one, and its lengths",
    [SPOILT] = "a place of a sound heap, spoilt",
};
static const char *const sorts[SORTS] = {
    [NONE_IN_BOTH] = "no blocks in both, having no bit set or no class",
    [IN_FIRST] = "blocks in the first alone",
    [IN_SECOND] = "blocks in the second alone",
    [SAME_SIZE] = "blocks of the same size in both",
    [OTHER_SIZES] = "blocks of another size in the second",
};
static const char *const list_rooms[LIST_ROOMS] = {
    [LIST_FOR_ALL] = "and for every entry that there could be",
    [LIST_MORE] = "and for more entries than there are",
    [LIST_ENOUGH] = "and for just these",
    [LIST_TOO_SHORT] = "and for fewer",
};

static struct copy kept[KEPT], heaps[HEAPS];    /* the copies, and the two that are compared */
static size_t kept_count;
static struct compared by_the_library, by_c;
static struct met_pairs {
    unsigned long refused[HEAPS][NUMBERS], by_both, unequal[4], done, altered[ALTERATIONS], spoilt[SPOILS];
    unsigned long kinds[KINDS], sorts[SORTS], signs[SIGNS], rooms[LIST_ROOMS][CHANGES_ROOMS];
} pairs_met[2];                                 /* in each edition, which is the first heap's */

#define COPY(i) heaps[i].memory, lent[i].memory_bytes, heaps[i].books, lent[i].books_words, heaps[i].map, \
    lent[i].map_words

/* ---- the two heaps */

static void copy_heap(struct copy *to, const uint8_t *memory, const uint32_t *books, const uint64_t *map, size_t arenas,
                      size_t pools, bool sound)
{
    memcpy(to->memory, memory, HESKAVERN_MEMORY_BYTES(arenas, pools));
    memcpy(to->books, books, HESKAVERN_BOOKS_WORDS(arenas, pools) * sizeof *books);
    memcpy(to->map, map, HESKAVERN_MAP_WORDS(arenas, pools) * sizeof *map);
    to->arenas = arenas;
    to->pools = pools;
    to->sound = sound;
}

/* Keeps a copy of this heap, in the place of any other; which one it is. */
static size_t keep(const uint8_t *memory, const uint32_t *books, const uint64_t *map, size_t arenas, size_t pools,
                   bool sound)
{
    size_t i = kept_count < KEPT ? kept_count++ : below(KEPT);
    copy_heap(&kept[i], memory, books, map, arenas, pools, sound);
    return i;
}

static struct lengths exact_lengths(const struct copy *c)
{
    return (struct lengths){HESKAVERN_MEMORY_BYTES(c->arenas, c->pools), HESKAVERN_BOOKS_WORDS(c->arenas, c->pools),
                            HESKAVERN_MAP_WORDS(c->arenas, c->pools)};
}

/* One of the three is not exact any more. */
static void shorten(struct lengths *l)
{
    switch (below(4)) {
    case 0: l->memory_bytes--; break;
    case 1: l->books_words--; break;
    case 2: l->map_words--; break;
    default: l->books_words = below(2) == 0 ? below(2) : between(EDITION_WORD - 2, EDITION_WORD + 2);
    }
}

/* The size of the blocks of pool p, or 0 where its class is none; the edition is taken for eight where it is none. */
static uint32_t size_in_copy(const struct copy *c, size_t p)
{
    const uint32_t shift = c->books[EDITION_WORD] == HESKAVERN_SIXTEEN ? 4 : 3;
    const uint32_t class = c->books[72 + 8 * c->arenas + 8 * p + 4];
    return class > (512u >> shift) - 1 ? 0 : (class + 1) << shift;
}

/* ---- what is altered in one of them */

/* The first byte of a block, its last one, the one before or after it, or any: of those that are live, where some are
 * and a few tries meet one. Gives where. */
static size_t alter_byte(struct copy *c)
{
    size_t at = 0;
    for (size_t tries = 0; tries < 50; tries++) {
        const size_t p = below((uint32_t)(c->arenas * c->pools));
        const uint32_t size = size_in_copy(c, p), k = size == 0 ? 0 : below(4048 / size);
        const size_t start = 4096 * p + 48 + k * size, places[] = {start, start + size - 1, start - 1, start + size};
        at = size == 0 ? 4096 * p + below(4096) : below(5) == 0 ? start + below(size) : places[below(4)];
        if (size != 0 && (c->map[8 * p + k / 64] >> k % 64 & 1) != 0)
            break;
    }
    at %= HESKAVERN_MEMORY_BYTES(c->arenas, c->pools);
    c->memory[at] ^= (uint8_t)between(1, 255);
    return at;
}

/* Others of which the product is no larger than a copy; often the same product. */
static void alter_shape(struct copy *c)
{
    const size_t a = c->arenas, p = c->pools;
    if (below(3) == 0 && p <= 16 && a >= 2)
        c->arenas = p, c->pools = a;
    else if (below(2) == 0)
        c->arenas = a < 16 && (a + 1) * p <= COPY_POOLS ? a + 1 : a > 1 ? a - 1 : a;
    else
        c->pools = p < 64 && a * (p + 1) <= COPY_POOLS ? p + 1 : p > 2 ? p - 1 : p;
    c->books[0] = (uint32_t)c->arenas;
    c->books[1] = (uint32_t)c->pools;
}

/* The edition becomes the other, or seldom none. */
static void alter_edition(struct copy *c)
{
    c->books[EDITION_WORD] = below(8) == 0 ? 2 + below(4) : c->books[EDITION_WORD] == 0;
}

/* Alters the heap at i. Gives how, and of a byte where it is. */
static size_t alter(size_t i, size_t *where)
{
    struct copy *c = &heaps[i];
    const struct sound_heap heap = {c->memory, c->books, c->map, c->arenas, c->pools};
    const size_t how = below(3) == 0 && c->sound ? SPOILT : below(SPOILT), p = below((uint32_t)(c->arenas * c->pools));
    const bool sixteen = c->books[EDITION_WORD] == HESKAVERN_SIXTEEN;
    size_t which = below(SPOILS), link = 0;
    switch (how) {
    case A_BYTE: *where = alter_byte(c); break;
    case A_BIT: c->map[8 * p + below(1 + below(8))] ^= (uint64_t)1 << below(64); break;
    case A_WORD_OF_ONES: c->map[8 * p + below(8)] = UINT64_MAX; break;
    case A_CLASS: c->books[72 + 8 * c->arenas + 8 * p + 4] = below(4) == 0 ? 65535 : below(66); break;
    case OTHER_EDITION: alter_edition(c); break;
    case BOTH_EDITIONS: alter_edition(&heaps[0]), heaps[1].books[EDITION_WORD] = heaps[0].books[EDITION_WORD]; break;
    case OTHER_A_OR_P: alter_shape(c); break;
    case SPOILT:
        if (!spoil(&heap, &spoils[which], &link))
            return AS_THEY_ARE;
        pairs_met[sixteen].spoilt[which]++;
        break;
    default: break;
    }
    return how;
}

/* ---- what they are lent, and what is held */

/* List words by those that are needed: about as many as are always enough, about as many as needed, or any. */
static size_t random_list(size_t needed, size_t most)
{
    switch (below(8)) {
    case 0: return most;
    case 1: return most + 2;
    case 2: return most - 1;
    case 3: return needed;
    case 4: return needed + 1;
    case 5: return needed - (needed != 0);
    case 6: return below((uint32_t)needed + 4);
    default: return below((uint32_t)most);
    }
}

static size_t random_changes(size_t classes)
{
    const size_t counts[] = {classes, classes, classes + 1, MOST_CHANGES, 64, classes - 1, 0, below(64)};
    return counts[below(8)];
}

/* Compares by one of the programs. What it does not write is seen: no entry and no change has such words. */
static void compare_by(__typeof__(heskavern_compare) *call, const struct lengths *lent, struct room room, size_t most,
                       struct compared *c)
{
    memset(c->list, 0xff, (most + 2) * sizeof *c->list);
    for (size_t i = 0; i < MOST_CHANGES; i++)
        c->changes[i] = UNWRITTEN;
    c->answer = call(COPY(0), COPY(1), c->list, room.list_words, c->changes, room.changes_count);
}

static bool same_compared(const char *form, struct room room, size_t most)
{
    const struct compared *x = &by_the_library, *y = &by_c;
    const char *what = x->answer.number != y->answer.number ? "numbers" : x->answer.value != y->answer.value ? "entries"
        : memcmp(x->list, y->list, (most + 2) * sizeof *x->list) != 0 ? "lists"
        : memcmp(x->changes, y->changes, sizeof x->changes) != 0 ? "changes" : NULL;
    if (what == NULL)
        return true;
    printf("bench/verify: %s differ after %s, A = %zu, P = %zu, edition %u, and A = %zu, P = %zu, edition %u, "
           "with room for %zu and %zu: the library gives %u %u, checks.c %u %u\n",
           what, form, heaps[0].arenas, heaps[0].pools, heaps[0].books[EDITION_WORD], heaps[1].arenas, heaps[1].pools,
           heaps[1].books[EDITION_WORD], room.list_words, room.changes_count, x->answer.number, x->answer.value,
           y->answer.number, y->answer.value);
    return false;
}

/* ---- what was met */

static size_t sort_of(size_t p)
{
    uint32_t sizes[HEAPS];
    for (size_t i = 0; i < HEAPS; i++) {
        uint64_t set = 0;
        for (size_t w = 0; w < 8; w++)
            set |= heaps[i].map[8 * p + w];
        sizes[i] = set == 0 ? 0 : size_in_copy(&heaps[i], p);
    }
    if (sizes[0] == 0 || sizes[1] == 0)
        return sizes[0] != 0 ? IN_FIRST : sizes[1] != 0 ? IN_SECOND : NONE_IN_BOTH;
    return sizes[0] == sizes[1] ? SAME_SIZE : OTHER_SIZES;
}

/* Counts a comparison that was done: its pools, entries and changes. */
static void note_done(struct met_pairs *m, size_t classes)
{
    m->done++;
    for (size_t p = 0; p < heaps[0].arenas * heaps[0].pools; p++)
        m->sorts[sort_of(p)]++;
    for (size_t i = 0; i < by_the_library.answer.value; i++)
        m->kinds[by_the_library.list[2 * i + 1]]++;
    for (size_t i = 0; i < classes; i++)
        m->signs[(by_the_library.changes[i] > 0) + 2 * (by_the_library.changes[i] < 0)]++;
}

/* Counts one with room for list and changes, or too little. */
static void note_room(struct met_pairs *m, struct room room, size_t needed, size_t classes, size_t most)
{
    const size_t list = room.list_words < needed ? LIST_TOO_SHORT : room.list_words >= most ? LIST_FOR_ALL
        : room.list_words == needed ? LIST_ENOUGH : LIST_MORE;
    const size_t count = room.changes_count;
    m->rooms[list][count < classes ? CHANGES_TOO_FEW : count == classes ? CHANGES_ENOUGH : CHANGES_MORE]++;
}

/* Counts a refusal with 1, 2 or 12, by whose it is. */
static void note_refused(struct met_pairs *m, const struct lengths *lent, uint32_t number)
{
    const uint32_t *x = heaps[0].books, *y = heaps[1].books;
    if (number == HESKAVERN_UNEQUAL_SHAPE) {
        const bool a = x[0] != y[0], p = x[1] != y[1], e = x[EDITION_WORD] != y[EDITION_WORD];
        m->unequal[a + p + e > 1 ? 3 : p ? 1 : e ? 2 : 0]++;
        return;
    }
    const uint32_t first = heskavern_view_size(COPY(0), 0).number, second = heskavern_view_size(COPY(1), 0).number;
    const bool by_first = first == HESKAVERN_OUT_OF_RANGE || first == HESKAVERN_NOT_EXACT;
    const bool by_second = second == HESKAVERN_OUT_OF_RANGE || second == HESKAVERN_NOT_EXACT;
    m->refused[!by_first][number]++;
    m->by_both += by_first && by_second && first != second;
}

/* What is listed of a heap beside itself is as it must be, or both programs are wrong. */
static bool expected(size_t how, size_t where, const struct lengths *lent)
{
    const size_t p = where / 4096;
    const uint32_t size = size_in_copy(&heaps[0], p), n = by_the_library.answer.value, *list = by_the_library.list;
    size_t start = where + 1;
    if (how == A_BYTE && size != 0 && where % 4096 >= 48)
        start = 4096 * p + 48 + (where % 4096 - 48) / size * size;
    bool live = how == A_BYTE && start <= where && heskavern_view_size(COPY(0), start).number == HESKAVERN_DONE;
    if (n == live && (!live || (list[0] == start && list[1] == 4)))
        return true;
    printf("bench/verify: a heap beside itself, with %s altered, at %zu: %u entries\n", alterations[how], where, n);
    return false;
}

/* The changes add up to the difference of the two roll counts, or both programs are wrong. */
static bool add_up(const struct lengths *lent, size_t classes)
{
    const int64_t first = heskavern_roll_call(COPY(0), by_c.list, LIST_WORDS).value;
    const int64_t second = heskavern_roll_call(COPY(1), by_c.list, LIST_WORDS).value;
    int64_t sum = 0;
    for (size_t i = 0; i < classes; i++)
        sum += by_the_library.changes[i];
    if (sum != second - first)
        printf("bench/verify: changes add up to %lld, roll counts %lld and %lld\n", (long long)sum, (long long)first,
               (long long)second);
    return sum == second - first;
}

/* ---- one pair */

/* Draws two of the copies, the newest among them, and alters one of them, or none. Gives how; *alike, whether they were
 * the same copy. */
static size_t draw_pair(size_t newest, bool *alike, size_t *where)
{
    const size_t any = below(4) == 0 ? newest : below((uint32_t)kept_count), i = below(HEAPS);
    const size_t drawn[HEAPS] = {i == 0 ? newest : any, i == 0 ? any : newest};
    for (size_t k = 0; k < HEAPS; k++) {
        const struct copy *c = &kept[drawn[k]];
        copy_heap(&heaps[k], c->memory, c->books, c->map, c->arenas, c->pools, c->sound);
    }
    *alike = any == newest;
    return below(3) == 0 ? AS_THEY_ARE : alter(below(HEAPS), where);
}

/* Both forms of checks.c answer and write as the library does. */
static bool hold_forms(const struct lengths *lent, struct room room, size_t most)
{
    compare_by(heskavern_compare, lent, room, most, &by_the_library);
    compare_by(CHECKS(compare), lent, room, most, &by_c);
    if (!same_compared("a comparison", room, most))
        return false;
    compare_by(CHECKS(grouped_compare), lent, room, most, &by_c);
    return same_compared("a comparison by groups of bytes", room, most);
}

/* Two heaps side by side, the newest copy and another: with room for everything, and then with any room. */
static bool hold_pair(size_t newest)
{
    bool alike;
    size_t where = 0;
    const size_t how = draw_pair(newest, &alike, &where);
    const bool sixteen = heaps[0].books[EDITION_WORD] == HESKAVERN_SIXTEEN;
    const size_t most = HESKAVERN_ROLL_WORDS(heaps[0].arenas, heaps[0].pools), classes = sixteen ? 32 : 64;
    struct lengths lent[HEAPS] = {exact_lengths(&heaps[0]), exact_lengths(&heaps[1])};
    struct met_pairs *m = &pairs_met[sixteen];
    for (size_t i = 0; i < HEAPS; i++)
        if (below(16) == 0)
            shorten(&lent[i]);
    m->altered[how]++;
    if (!hold_forms(lent, (struct room){most, classes}, most))
        return false;
    if (by_the_library.answer.number != HESKAVERN_DONE) {
        note_refused(m, lent, by_the_library.answer.number);
        return true;
    }
    note_done(m, classes);
    const bool known = alike && (how == AS_THEY_ARE || how == A_BYTE);
    if (!add_up(lent, classes) || (known && !expected(how, where, lent)))
        return false;
    const size_t needed = 2 * (size_t)by_the_library.answer.value;
    const struct room room = {random_list(needed, most), random_changes(classes)};
    note_room(m, room, needed, classes, most);
    return hold_forms(lent, room, most);
}

/* Says so many numbers after this; whether none of them is 0. */
static bool say_all(const char *what, const unsigned long *numbers, size_t n)
{
    bool all = true;
    printf("%s", what);
    for (size_t i = 0; i < n; i++) {
        printf(" %lu", numbers[i]);
        all &= numbers[i] != 0;
    }
    return all;
}

/* Says what was met of pairs in an edition, and whether all of it was. */
static bool say_pairs(size_t edition)
{
    const struct met_pairs *m = &pairs_met[edition];
    bool all = say_all("  two heaps side by side, by what was altered in one", m->altered, 0);
    for (size_t i = 0; i < ALTERATIONS; i++) {
        printf("\n    %s:", alterations[i]);
        all &= say_all("", &m->altered[i], 1);
    }
    all &= say_all("\n    spoilt, by the kinds of place in their order:", m->spoilt, SPOILS);
    all &= say_all("\n  refused with 1 and 2 for the first heap:", &m->refused[0][1], 2);
    all &= say_all(", for the second:", &m->refused[1][1], 2);
    all &= say_all(", for both and with two numbers:", &m->by_both, 1);
    all &= say_all("; with 12 for A, P, the edition, several:", m->unequal, 4);
    all &= say_all("\n  done:", &m->done, 1);
    all &= say_all("; entries of kinds 1 to 4:", &m->kinds[1], KINDS - 1);
    all &= say_all("; classes with as many blocks, more, fewer:", m->signs, SIGNS);
    for (size_t i = 0; i < SORTS; i++) {
        printf("\n    pools with %s:", sorts[i]);
        all &= say_all("", &m->sorts[i], 1);
    }
    printf("\n  with room for more changes, just these, fewer");
    for (size_t i = 0; i < LIST_ROOMS; i++) {
        printf("\n    %s:", list_rooms[i]);
        all &= say_all("", m->rooms[i], CHANGES_ROOMS);
    }
    printf("\n");
    return all;
}
