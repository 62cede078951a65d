/* A heap as one thing: heskavern_heap.h, in both editions. Each call over the struct is held to the call of heskavern.h
   of the same name on a twin, a heap of equal contents in heap.h's buffers: both must answer the same, and leave the
   same in every byte and word. Each call meets every number that it has. Then what is of this header alone: heaps that
   a line declares, heaps beside one another and at another address, and the numbers in words. C99, and C++ too. */
#include "heskavern_heap.h"
#include "heap.h"

/* ---- a heap and its twin */

/* The heap of the cases, and the one that compare is lent before it, whose twin is what heap.h remembers. The buffers
   are large enough for every A and P that the cases lend. */
HESKAVERN_HEAP(held, 17, 4, HESKAVERN_EIGHT);
HESKAVERN_HEAP(saved, 17, 4, HESKAVERN_EIGHT);

/* Lends both twins by this A and P, which their books may not have. */
static void lend_both(size_t arenas, size_t pools)
{
    lend(arenas, pools);
    held.arenas = arenas;
    held.pools = pools;
}

/* Whether the twins have equal contents, behind what is lent too. */
static int same(void)
{
    return memcmp(held.memory, memory, sizeof held_memory) == 0 && memcmp(held.books, books, sizeof held_books) == 0
        && memcmp(held.map, map, sizeof held_map) == 0;
}

/* The calls, and which numbers each has met in this edition, as bits; of the audit, which rules. */
enum call { FORMATTED, ASKED, ALL_ASKED, GIVEN_BACK, RESIZED, WRITTEN, VIEWED, ROLLED, COMPARED, AUDITED, CALLS };
static uint32_t met[CALLS];

/* The answer of a call over the struct, which is the twin's, as is what it leaves. */
static heskavern_answer alike(enum call call, heskavern_answer twin, heskavern_answer answer)
{
    EXPECT(is(answer, twin.number, twin.value));
    EXPECT(same());
    met[call] |= (uint32_t)1 << answer.number;
    return answer;
}

/* ---- each call, on both */

static heskavern_answer format(void)
{
    return alike(FORMATTED, FORMAT(held.arenas, held.pools, held.edition), heskavern_heap_format(&held));
}

static heskavern_answer ask(size_t size) { return alike(ASKED, ASK(size), heskavern_heap_ask(&held, size)); }

/* The row of requests, and its twin. */
static heskavern_request row[HESKAVERN_MOST_REQUESTS + 1], row_twin[HESKAVERN_MOST_REQUESTS + 1];
static heskavern_answer ask_all(size_t entries)
{
    heskavern_answer answer;
    memcpy(row_twin, row, sizeof row);
    answer = alike(ALL_ASKED, ASK_ALL(row_twin, entries), heskavern_heap_ask_all(&held, row, entries));
    EXPECT(memcmp(row, row_twin, sizeof row) == 0);
    return answer;
}

static heskavern_answer give_back(size_t offset)
{
    return alike(GIVEN_BACK, GIVE_BACK(offset), heskavern_heap_give_back(&held, offset));
}

static heskavern_answer resize(size_t offset, size_t size)
{
    return alike(RESIZED, RESIZE(offset, size), heskavern_heap_resize(&held, offset, size));
}

static heskavern_answer put(size_t offset, const char *text, size_t bytes)
{
    return alike(WRITTEN, WRITE(offset, text, bytes), heskavern_heap_write(&held, offset, text, bytes));
}

/* The number is view_size's, and the part lies where the twin's view does. */
static heskavern_viewed view(size_t offset)
{
    const heskavern_viewed viewed = heskavern_heap_view(&held, offset);
    const heskavern_part part = heskavern_view(HEAP, offset);
    const heskavern_answer answer = {viewed.number, (uint32_t)viewed.size};
    alike(VIEWED, VIEW_SIZE(offset), answer);
    EXPECT(viewed.bytes - held.memory == part.bytes - memory && viewed.size == part.size);
    return viewed;
}

/* The part that the view shows where it is done, and otherwise the phrase, as the twin's stand-in is. */
static void expect_stand_in(size_t offset)
{
    static const char phrase[] = "this amount can't be read out";
    const heskavern_viewed viewed = view(offset);
    const heskavern_part part = heskavern_heap_stand_in(&held, offset, phrase, 29), twin = STAND_IN(offset, phrase, 29);
    EXPECT(part.size == twin.size && same());
    if (viewed.number == HESKAVERN_DONE)
        EXPECT(lies(part, viewed.bytes, viewed.size));
    else
        EXPECT(lies(part, phrase, 29) && lies(twin, phrase, 29));
}

static heskavern_answer roll_call(size_t words)
{
    static uint32_t rolled[HESKAVERN_ROLL_WORDS(2, 2)];
    heskavern_answer answer;
    memset(rolled, FILL, sizeof rolled);
    memset(roll, FILL, sizeof rolled);
    answer = alike(ROLLED, ROLL_CALL(words), heskavern_heap_roll_call(&held, rolled, words));
    EXPECT(memcmp(rolled, roll, sizeof rolled) == 0);
    return answer;
}

static uint32_t audit(void)
{
    const heskavern_answer twin = {AUDIT(), 0}, answer = {heskavern_heap_audit(&held), 0};
    return alike(AUDITED, twin, answer).number;
}

/* Compares the saved heap with the one that is held. */
static uint32_t list[HESKAVERN_LIST_WORDS(2, 2)], list_twin[HESKAVERN_LIST_WORDS(2, 2)];
static int32_t changes[HESKAVERN_CHANGES], changes_twin[HESKAVERN_CHANGES];
#define SAVED_TWIN HESKAVERN_LENT(memory_before, books_before, map_before, saved.arenas, saved.pools)
static heskavern_answer compare(size_t words, size_t count)
{
    heskavern_answer answer;
    memset(list, FILL, sizeof list);
    memset(list_twin, FILL, sizeof list);
    memset(changes, FILL, sizeof changes);
    memset(changes_twin, FILL, sizeof changes);
    answer = alike(COMPARED, heskavern_compare(SAVED_TWIN, HEAP, list_twin, words, changes_twin, count),
        heskavern_heap_compare(&saved, &held, list, words, changes, count));
    EXPECT(memcmp(list, list_twin, sizeof list) == 0 && memcmp(changes, changes_twin, sizeof changes) == 0);
    return answer;
}

/* Every number that a call can meet, and no other. The lengths of format are of its own A and P, and so always exact;
   of the audit's rules, the first two and that of the counts are met. */
static void expect_met(void)
{
    static const uint32_t numbers[CALLS][8] = {
        {0, 1}, {0, 1, 2, 3, 4, 6}, {0, 1, 2, 7}, {0, 1, 2, 5, 10, 6}, {0, 1, 2, 3, 5, 10, 4, 6}, {0, 1, 2, 5, 10, 7},
        {0, 1, 2, 5, 10}, {0, 1, 2, 7}, {0, 1, 2, 12, 7}, {0, 1, 2, 7}};
    size_t call, i;
    for (call = 0; call < CALLS; call++) {
        uint32_t all = 0;
        for (i = 0; i < 8; i++)
            all |= (uint32_t)1 << numbers[call][i];
        EXPECT(met[call] == all);
        met[call] = 0;
    }
}

/* ---- heaps that are copied and damaged */

/* Copies a heap, byte for byte, to the buffers of another that is of the same A and P. */
static void copy(heskavern_heap *to, const heskavern_heap *from)
{
    memcpy(to->memory, from->memory, HESKAVERN_MEMORY_BYTES(from->arenas, from->pools));
    memcpy(to->books, from->books, HESKAVERN_BOOKS_WORDS(from->arenas, from->pools) * sizeof *to->books);
    memcpy(to->map, from->map, HESKAVERN_MAP_WORDS(from->arenas, from->pools) * sizeof *to->map);
}

/* Whether two heaps of the same A and P have equal contents. */
static int equal(const heskavern_heap *one, const heskavern_heap *other)
{
    const size_t arenas = one->arenas, pools = one->pools;
    return memcmp(one->memory, other->memory, HESKAVERN_MEMORY_BYTES(arenas, pools)) == 0
        && memcmp(one->books, other->books, HESKAVERN_BOOKS_WORDS(arenas, pools) * sizeof *one->books) == 0
        && memcmp(one->map, other->map, HESKAVERN_MAP_WORDS(arenas, pools) * sizeof *one->map) == 0;
}

/* Saves both twins, whatever is in them. */
static void save(void)
{
    saved.arenas = held.arenas;
    saved.pools = held.pools;
    copy(&saved, &held);
    remember();
}

/* Writes over all of a heap's buffers. */
static void wipe(heskavern_heap *heap)
{
    memset(heap->memory, FILL, sizeof held_memory);
    memset(heap->books, FILL, sizeof held_books);
    memset(heap->map, FILL, sizeof held_map);
}

/* Two fresh heaps of equal contents, over buffers that held something else; they are saved so. */
static void fresh_both(size_t arenas, size_t pools)
{
    fresh(arenas, pools);
    wipe(&held);
    wipe(&saved);
    lend_both(arenas, pools);
    held.edition = now->edition;
    EXPECT(done(format(), 0));
    save();
}

/* Writes a word of both twins' books, as nobody should. */
static void spoil(uint32_t *word, uint32_t value) { held.books[word - books] = *word = value; }

/* ---- calls that are done, and calls that are refused */

static void texts(void)
{
    static const char longer[] = "twenty-four letters here";
    fresh_both(1, 2);
    EXPECT(done(ask(4), 48) && done(ask(now->smallest), at(1)));
    EXPECT(is(ask(0), HESKAVERN_BAD_SIZE, 0) && is(ask(HESKAVERN_LARGEST + 1), HESKAVERN_BAD_SIZE, 0));
    EXPECT(done(put(48, "owed", 4), 48) && done(put(at(1), longer, now->smallest), at(1)));
    EXPECT(is(put(48, longer, now->smallest + 1), HESKAVERN_DOES_NOT_FIT, 0));
    EXPECT(view(48).size == now->smallest && memcmp(view(48).bytes, "owed", 4) == 0);
    expect_stand_in(48);
    EXPECT(done(give_back(48), 48));
    EXPECT(is(give_back(48), HESKAVERN_DEAD_BLOCK, 0) && is(give_back(52), HESKAVERN_NO_BLOCK, 0));
    EXPECT(is(put(48, "owed", 4), HESKAVERN_DEAD_BLOCK, 0) && is(put(52, "owed", 4), HESKAVERN_NO_BLOCK, 0));
    EXPECT(is(resize(48, 4), HESKAVERN_DEAD_BLOCK, 0) && is(resize(52, 4), HESKAVERN_NO_BLOCK, 0));
    EXPECT(view(48).number == HESKAVERN_DEAD_BLOCK && view(48).bytes == held.memory && view(48).size == 0);
    EXPECT(view((size_t)-1).number == HESKAVERN_NO_BLOCK && view((size_t)-1).bytes == held.memory);
    expect_stand_in(48);
    expect_stand_in((size_t)-1);
    EXPECT(is(resize(at(1), 0), HESKAVERN_BAD_SIZE, 0));
    EXPECT(done(resize(at(1), now->smallest), at(1)) && done(resize(at(1), 100), 4144));
    EXPECT(view(4144).number == HESKAVERN_DONE && view(4144).size == now->of_100);
    EXPECT(view(4144).bytes == held.memory + 4144 && memcmp(view(4144).bytes, longer, now->smallest) == 0);
    expect_stand_in(4144);
    EXPECT(audit() == HESKAVERN_AUDIT_YES);
}

/* Rows, rolls and lists, each with just the room that it takes, and with a word less; and a heap without room. */
static void rooms(void)
{
    const size_t classes = now->last_class + 1;
    uint32_t i;
    fresh_both(1, 2);
    for (i = 0; i < HESKAVERN_MOST_REQUESTS + 1; i++)
        row[i].size = i % 2 ? 512 : 513;
    EXPECT(done(ask_all(0), 0) && done(ask_all(2), 0));
    EXPECT(row[0].number == HESKAVERN_BAD_SIZE && row[1].number == HESKAVERN_DONE && row[1].offset == 48);
    EXPECT(is(roll_call(1), HESKAVERN_DOES_NOT_FIT, 0) && done(roll_call(2), 1) && done(roll_call(100), 1));
    EXPECT(is(compare(1, classes), HESKAVERN_DOES_NOT_FIT, 0));
    EXPECT(is(compare(2, classes - 1), HESKAVERN_DOES_NOT_FIT, 0));
    EXPECT(done(compare(2, classes), 1));
    EXPECT(list[0] == 48 && list[1] == HESKAVERN_SECOND_ALONE && changes[classes - 1] == 1);
    EXPECT(is(ask_all(HESKAVERN_MOST_REQUESTS + 1), HESKAVERN_DOES_NOT_FIT, 0));
    EXPECT(done(ask_all(HESKAVERN_MOST_REQUESTS), 0));
    EXPECT(row[25].offset == 4096 + 48 + 6 * 512 && row[27].number == HESKAVERN_NO_ROOM);
    EXPECT(is(ask(1), HESKAVERN_NO_ROOM, 0) && is(resize(48, 1), HESKAVERN_NO_ROOM, 0));
    save();
    EXPECT(done(give_back(48), 48) && done(compare(2, classes), 1));
    EXPECT(list[0] == 48 && list[1] == HESKAVERN_FIRST_ALONE && changes[classes - 1] == -1);
}

/* Every call but format answers this number, the audit its first rule, and the stand-in is the phrase. */
static void expect_refused(uint32_t number)
{
    row[0].size = 8;
    EXPECT(is(ask(8), number, 0) && is(ask_all(1), number, 0));
    EXPECT(is(give_back(48), number, 0) && is(resize(48, 100), number, 0) && is(put(48, "owed", 4), number, 0));
    EXPECT(view(48).number == number && view(48).bytes == held.memory && view(48).size == 0);
    expect_stand_in(48);
    EXPECT(is(roll_call(100), number, 0) && is(compare(100, HESKAVERN_CHANGES), number, 0));
    EXPECT(audit() == HESKAVERN_AUDIT_SHAPE);
}

/* Structs whose A and P are not what the books have, over buffers that are large enough; and one that cannot be. */
static void unlike_the_books(void)
{
    static const size_t shapes[][2] = {{2, 2}, {1, 3}, {2, 1}, {17, 2}};
    size_t i;
    fresh_both(1, 2);
    EXPECT(done(ask(8), 48));
    for (i = 0; i < sizeof shapes / sizeof *shapes; i++) {
        lend_both(shapes[i][0], shapes[i][1]);
        expect_refused(HESKAVERN_NOT_EXACT);
    }
    EXPECT(is(format(), HESKAVERN_OUT_OF_RANGE, 0));
    lend_both(1, 1);
    EXPECT(is(format(), HESKAVERN_OUT_OF_RANGE, 0));
    lend_both(1, 2);
    held.edition = 2;
    EXPECT(is(format(), HESKAVERN_OUT_OF_RANGE, 0));
    spoil(books + EDITION, 2);
    expect_refused(HESKAVERN_OUT_OF_RANGE);
    spoil(books + EDITION, (uint32_t)now->edition);
    EXPECT(view(48).size == now->smallest);
}

/* Compare goes by the shape of each heap: the saved one is refused first. */
static void unequal_heaps(void)
{
    fresh_both(2, 2);
    lend_both(1, 4);
    EXPECT(done(format(), 0) && is(compare(100, HESKAVERN_CHANGES), HESKAVERN_UNEQUAL_SHAPE, 0));
    lend_both(2, 2);
    held.edition = 1 - now->edition;
    EXPECT(done(format(), 0) && is(compare(100, HESKAVERN_CHANGES), HESKAVERN_UNEQUAL_SHAPE, 0));
    saved.books[0] = books_before[0] = 17;
    EXPECT(is(compare(100, HESKAVERN_CHANGES), HESKAVERN_OUT_OF_RANGE, 0));
    saved.books[0] = books_before[0] = 2;
    saved.pools = 3;
    EXPECT(is(compare(100, HESKAVERN_CHANGES), HESKAVERN_NOT_EXACT, 0));
}

static void damaged(void)
{
    fresh_both(1, 4);
    EXPECT(done(ask(8), 48) && done(put(48, "owed", 4), 48));
    spoil(books + 4, 17); /* the class head, above the pools that there are */
    EXPECT(is(ask(8), HESKAVERN_DAMAGED, 0));
    row[0].size = 8;
    EXPECT(done(ask_all(1), 0) && row[0].number == HESKAVERN_DAMAGED);
    spoil(books + 4, 1);
    spoil(books + 69, 1);
    EXPECT(audit() == HESKAVERN_AUDIT_ZEROS);
    spoil(books + 69, 0);
    spoil(pool_word(0, COUNT), 0); /* so that no block can be given back there */
    EXPECT(audit() == HESKAVERN_AUDIT_COUNTS);
    EXPECT(is(give_back(48), HESKAVERN_DAMAGED, 0));
    EXPECT(is(resize(48, 100), HESKAVERN_DAMAGED, 4144)); /* half done */
    EXPECT(memcmp(view(4144).bytes, "owed", 4) == 0);
}

/* ---- heaps that a line declares */

HESKAVERN_HEAP(eight, 1, 2, HESKAVERN_EIGHT);
HESKAVERN_HEAP(sixteen, 3, 5, HESKAVERN_SIXTEEN);

/* Two that have one name, each within its function. */
static heskavern_heap *within(void)
{
    HESKAVERN_HEAP(inner, 1, 2, HESKAVERN_EIGHT);
    return &inner;
}

static heskavern_heap *within_another(void)
{
    HESKAVERN_HEAP(inner, 1, 2, HESKAVERN_SIXTEEN);
    return &inner;
}

/* The buffers have just the lengths of A and P, and memory is aligned to 16. */
static void declared(void)
{
    EXPECT(eight.arenas == 1 && eight.pools == 2 && eight.edition == HESKAVERN_EIGHT);
    EXPECT(sixteen.arenas == 3 && sixteen.pools == 5 && sixteen.edition == HESKAVERN_SIXTEEN);
    EXPECT(eight.memory == eight_memory && eight.books == eight_books && eight.map == eight_map);
    EXPECT(sixteen.memory == sixteen_memory && sixteen.books == sixteen_books && sixteen.map == sixteen_map);
    EXPECT(sizeof eight_memory == 8192 && sizeof eight_books == 96 * 4 && sizeof eight_map == 16 * 8);
    EXPECT(sizeof sixteen_memory == 61440 && sizeof sixteen_books == 216 * 4 && sizeof sixteen_map == 120 * 8);
    EXPECT(__alignof__(eight_memory) == 16 && (uintptr_t)eight.memory % 16 == 0);
    EXPECT(__alignof__(sixteen_memory) == 16 && (uintptr_t)sixteen.memory % 16 == 0);
}

/* The blocks are aligned as the edition says, in edition eight some to no more than 8. */
static void aligned(heskavern_heap *heap, uintptr_t alignment)
{
    size_t size, odd = 0;
    EXPECT(done(heskavern_heap_format(heap), 0));
    for (size = 1; size <= 32; size++) {
        const heskavern_answer block = heskavern_heap_ask(heap, size % 2 ? 8 : 24);
        const heskavern_viewed viewed = heskavern_heap_view(heap, block.value);
        EXPECT(block.number == HESKAVERN_DONE && viewed.number == HESKAVERN_DONE);
        EXPECT((uintptr_t)viewed.bytes % alignment == 0);
        odd += (uintptr_t)viewed.bytes % 16 != 0;
    }
    EXPECT((odd > 0) == (alignment == 8));
}

/* What a function declares is static, and its own: it is the same heap at each call, and not the other function's. */
static void declared_within(void)
{
    EXPECT(within() != within_another() && within()->memory != within_another()->memory);
    aligned(within(), 8);
    aligned(within_another(), 16);
    EXPECT(heskavern_heap_view(within(), 48).size == 8 && heskavern_heap_view(within_another(), 48).size == 16);
}

/* ---- heaps beside one another, and at another address */

/* Calls on two heaps, of unequal shape, in turn: none touches the other heap. */
static void side_by_side(void)
{
    HESKAVERN_HEAP(names, 2, 3, HESKAVERN_SIXTEEN);
    HESKAVERN_HEAP(names_before, 2, 3, HESKAVERN_SIXTEEN);
    uint32_t offset = 48;
    fresh_both(1, 2);
    EXPECT(done(heskavern_heap_format(&names), 0));
    while (offset < 48 + 16 * now->smallest) {
        const heskavern_answer name = heskavern_heap_ask(&names, 40);
        EXPECT(name.number == HESKAVERN_DONE && same());
        EXPECT(done(heskavern_heap_write(&names, name.value, "A. Moss", 7), name.value) && same());
        copy(&names_before, &names);
        EXPECT(done(ask(1), offset) && done(put(offset, "owed", 4), offset));
        EXPECT(equal(&names, &names_before));
        offset += now->smallest;
    }
    EXPECT(done(give_back(48), 48) && equal(&names, &names_before));
    EXPECT(done(heskavern_heap_give_back(&names, 48), 48) && same());
    EXPECT(audit() == HESKAVERN_AUDIT_YES && heskavern_heap_audit(&names) == HESKAVERN_AUDIT_YES);
}

/* From here on the heap that was saved is the one that is held, and the other way about. */
static void exchange(void)
{
    const heskavern_heap was = held;
    held = saved;
    saved = was;
}

/* A heap that is saved goes on where it is loaded, at another address, though nothing of the first one is left. */
static void loaded(void)
{
    const uint8_t *const before = held.memory;
    fresh_both(1, 2);
    EXPECT(done(ask(4), 48) && done(ask(4), at(1)) && done(put(48, "owed", 4), 48));
    save();
    wipe(&held);
    exchange();
    EXPECT(held.memory != before && same() && audit() == HESKAVERN_AUDIT_YES);
    EXPECT(view(48).bytes == held.memory + 48 && memcmp(view(48).bytes, "owed", 4) == 0);
    EXPECT(done(give_back(48), 48) && is(give_back(48), HESKAVERN_DEAD_BLOCK, 0));
    EXPECT(done(resize(at(1), 100), 4144) && done(ask(4), at(1)) && done(ask(4), 48));
    exchange();
}

/* ---- the numbers in words */

/* A number, and words that are in its own text and in no other. */
struct said {
    uint32_t number;
    const char *words;
};

static void expect_said(const char *(*say)(uint32_t), const struct said *all, size_t count, const char *otherwise)
{
    uint32_t number;
    size_t i;
    for (number = 0; number < 1001; number++) {
        const char *text = say(number < 1000 ? number : UINT32_MAX);
        int known = 0;
        for (i = 0; i < count; i++) {
            EXPECT((strstr(text, all[i].words) != NULL) == (all[i].number == number));
            known = known || all[i].number == number;
        }
        EXPECT((strcmp(text, otherwise) == 0) == !known);
    }
}

static void in_words(void)
{
    static const struct said numbers[] = {
        {HESKAVERN_DONE, "done"}, {HESKAVERN_OUT_OF_RANGE, "out of range"}, {HESKAVERN_NOT_EXACT, "not exact"},
        {HESKAVERN_BAD_SIZE, "above 512"}, {HESKAVERN_NO_ROOM, "no room"}, {HESKAVERN_NO_BLOCK, "no block"},
        {HESKAVERN_DAMAGED, "damaged"}, {HESKAVERN_DOES_NOT_FIT, "longer"}, {HESKAVERN_DEAD_BLOCK, "dead"},
        {HESKAVERN_UNEQUAL_SHAPE, "unequal"}};
    static const struct said rules[] = {
        {HESKAVERN_AUDIT_YES, "yes"}, {HESKAVERN_AUDIT_SHAPE, "rule 1: A, P"}, {HESKAVERN_AUDIT_ZEROS, "rule 2: an"},
        {HESKAVERN_AUDIT_CLOSED, "rule 3: a closed"}, {HESKAVERN_AUDIT_OPEN, "rule 4: an open"},
        {HESKAVERN_AUDIT_BITS, "rule 5: a bit"}, {HESKAVERN_AUDIT_LISTS, "rule 6: a list"},
        {HESKAVERN_AUDIT_COUNTS, "rule 7: a pool's count"}, {HESKAVERN_AUDIT_BLOCKS, "rule 8: a carved"},
        {HESKAVERN_AUDIT_ORDER, "rule 9: the usable"}};
    static const struct said kinds[] = {
        {HESKAVERN_FIRST_ALONE, "first"}, {HESKAVERN_SECOND_ALONE, "second"}, {HESKAVERN_OTHER_SIZE, "size"},
        {HESKAVERN_OTHER_BYTES, "bytes"}};
    expect_said(heskavern_say, numbers, sizeof numbers / sizeof *numbers, "a number that no call gives");
    expect_said(heskavern_say_audit, rules, sizeof rules / sizeof *rules, "a rule that the audit does not have");
    expect_said(heskavern_say_kind, kinds, sizeof kinds / sizeof *kinds, "a kind that compare does not have");
}

int main(void)
{
    declared();
    declared_within();
    aligned(&eight, 8);
    aligned(&sixteen, 16);
    in_words();
    for (now = editions; now < editions + sizeof editions / sizeof *editions; now++) {
        texts();
        rooms();
        unlike_the_books();
        unequal_heaps();
        damaged();
        side_by_side();
        loaded();
        expect_met();
    }
    printf("%lu facts\n", facts);
    return 0;
}
