/* A row of requests in one call, 02's W-204, run through heskavern.h. Each row is asked for in one call, and on a copy
   of the heap one by one: both must leave the same answers, and the same heap in every byte and word. The heaps are
   fresh, half full, full and damaged, of both editions, and then random ones. And what refuses the row as a whole
   leaves it as it came. C99, and C++ too. */
#include "heap.h"
#include "../compare/random.h"

/* ---- the row, between marks */

enum { MOST = HESKAVERN_MOST_REQUESTS, LONGEST = 65536 + 3 };
static heskavern_request lent[GUARD + LONGEST + GUARD], lent_before[sizeof lent / sizeof *lent];
static heskavern_request *const row = lent + GUARD;
static size_t entries;
static unsigned long rows, requests; /* that were held to asks one by one */

/* An empty row. There are marks around it, and in each place that a request will have. */
static void clear(void)
{
    memset(lent, FILL, sizeof lent);
    entries = 0;
}

static void request(size_t size) { row[entries++].size = (uint32_t)size; }

static void keep_row(void) { memcpy(lent_before, lent, sizeof lent); }
static int row_unchanged(void) { return memcmp(lent_before, lent, sizeof lent) == 0; }

/* Whether request n was answered so. */
static int answered(size_t n, uint32_t number, uint32_t offset)
{
    return row[n].number == number && row[n].offset == offset;
}

static int served(size_t n, size_t offset) { return answered(n, HESKAVERN_DONE, (uint32_t)offset); }

/* ---- what is expected of a row */

/* How many requests were answered each number, and how many were served behind one that was refused. */
static unsigned long seen[HESKAVERN_DAMAGED + 1], served_behind;

/* The row is asked for in one call, and one by one on the copies that heap.h remembers and this file keeps: they are
   what must come out. Where the audit says yes before, it does so after, and no request is refused with 6. */
static void expect_asked(void)
{
    const unsigned long damaged_before = seen[HESKAVERN_DAMAGED];
    int refused = 0;
    size_t n;
    remember();
    keep_row();
    for (n = 0; n < entries; n++) {
        const heskavern_answer alone = heskavern_ask(
            memory_before, memory_bytes, books_before, books_words, map_before, map_words, row[n].size);
        lent_before[GUARD + n].number = alone.number;
        lent_before[GUARD + n].offset = alone.value;
        seen[alone.number]++;
        served_behind += refused && alone.number == HESKAVERN_DONE;
        refused = refused || alone.number != HESKAVERN_DONE;
    }
    EXPECT(done(ASK_ALL(row, entries), 0));
    EXPECT(row_unchanged() && unchanged());
    EXPECT(!whole || seen[HESKAVERN_DAMAGED] == damaged_before);
    rows++;
    requests += entries;
}

/* Rows of so many requests and more are refused as a whole: they and the heap are left as they came. */
static void expect_left(size_t least, uint32_t number)
{
    static const size_t lengths[] = {0, 1, 3, MOST, MOST + 1, MOST + 2, 2 * MOST, 65536, LONGEST};
    size_t i;
    clear();
    while (entries < LONGEST)
        request(1 + entries % 514);
    keep_row();
    remember();
    for (i = 0; i < sizeof lengths / sizeof *lengths; i++)
        if (lengths[i] >= least)
            EXPECT(is(ASK_ALL(row, lengths[i]), number, 0));
    EXPECT(row_unchanged() && unchanged());
}

/* ---- rows on heaps that are kept */

static void layout(void)
{
    EXPECT(sizeof(heskavern_request) == 12 && offsetof(heskavern_request, size) == 0);
    EXPECT(offsetof(heskavern_request, number) == 4 && offsetof(heskavern_request, offset) == 8);
    EXPECT(HESKAVERN_MOST_REQUESTS == 4096);
}

/* Front first: each is served where the ones before it leave off. */
static void front_first(void)
{
    const uint32_t second = now->smallest + 1, third = 2 * now->smallest + 1; /* sizes of the next two classes */
    fresh(2, 2);
    clear();
    request(1);
    request(second);
    request(now->smallest);
    request(third);
    request(2 * now->smallest);
    expect_asked();
    EXPECT(served(0, 48) && served(1, 4144) && served(2, at(1)) && served(3, 8240) && served(4, 4096 + at(2)));
    EXPECT(done(GIVE_BACK(48), 48) && done(GIVE_BACK(4144), 4144) && done(GIVE_BACK(at(1)), at(1)));
    expect_asked(); /* the row as it stands, with its old answers */
    EXPECT(served(0, at(1)) && served(1, 4144) && served(2, 48) && served(3, 8192 + at(3)) && served(4, 4096 + at(4)));
    expect_untouched();
}

/* Sizes out of range are each refused with 3, and those between them served. */
static void bad_sizes(void)
{
    static const uint32_t bad[] = {0,          513,         514,       1024,           65536,     65536 + 8,
                                   0x80000000, 0x80000008, UINT32_MAX, UINT32_MAX - 7, 0xFFFF0008};
    enum { BAD = sizeof bad / sizeof *bad };
    size_t n;
    fresh(1, 2);
    clear();
    for (n = 0; n < BAD; n++) {
        request(bad[n]);
        request(1);
    }
    expect_asked();
    for (n = 0; n < BAD; n++)
        EXPECT(answered(2 * n, HESKAVERN_BAD_SIZE, 0) && served(2 * n + 1, at((uint32_t)n)));
    expect_untouched();
}

/* Every size from 0 to 513 in one row: each of 1 to 512 has a block of its size. */
static void every_size(void)
{
    uint32_t n;
    fresh(2, 64);
    clear();
    while (entries <= HESKAVERN_LARGEST + 1)
        request(entries);
    expect_asked();
    EXPECT(answered(0, HESKAVERN_BAD_SIZE, 0) && answered(HESKAVERN_LARGEST + 1, HESKAVERN_BAD_SIZE, 0));
    for (n = 1; n <= HESKAVERN_LARGEST; n++)
        EXPECT(done(VIEW_SIZE(row[n].offset), (n + now->smallest - 1) / now->smallest * now->smallest));
    EXPECT(done(ROLL_CALL(2 * HESKAVERN_LARGEST), HESKAVERN_LARGEST));
}

/* One block of 512 bytes and a pool of the smallest have room: a request that has none does not stop those that do. */
static void some_room(void)
{
    const uint32_t last = 4096 + 48 + 6 * 512;
    size_t n;
    fresh(1, 2);
    EXPECT(done(ASK(1), 48));
    for (n = 0; n < 6; n++)
        EXPECT(done(ASK(512), 4144 + 512 * (uint32_t)n));
    clear();
    request(100);
    request(1);
    request(512);
    request(512);
    request(now->smallest);
    request(0);
    request(1);
    expect_asked();
    EXPECT(answered(0, HESKAVERN_NO_ROOM, 0) && served(1, at(1)) && served(2, last));
    EXPECT(answered(3, HESKAVERN_NO_ROOM, 0) && served(4, at(2)));
    EXPECT(answered(5, HESKAVERN_BAD_SIZE, 0) && served(6, at(3)));
    expect_untouched();
}

/* A heap is filled by a row, and lent the same row again: each request loses the offset that it had. */
static void filled_by_a_row(void)
{
    size_t n;
    fresh(1, 2);
    clear();
    while (entries < 14)
        request(512);
    expect_asked();
    for (n = 0; n < entries; n++)
        EXPECT(served(n, n / 7 * 4096 + 48 + 512 * (n % 7)));
    expect_asked();
    for (n = 0; n < entries; n++)
        EXPECT(answered(n, HESKAVERN_NO_ROOM, 0));
    expect_untouched();
}

/* 4,096 requests are done, all served or not; one more is 7. */
static void most(void)
{
    uint32_t n;
    fresh(A, P);
    clear();
    while (entries < MOST)
        request(1 + 37 * entries % 512);
    expect_asked();
    for (n = 0; n < MOST && row[n].number == HESKAVERN_DONE; n++)
        continue;
    EXPECT(n == MOST && done(ROLL_CALL(2 * MOST), MOST));
    expect_left(MOST + 1, HESKAVERN_DOES_NOT_FIT);
    expect_untouched();
    fresh(1, 2);
    clear();
    while (entries < MOST)
        request(now->smallest);
    expect_asked();
    EXPECT(served(2 * now->in_pool - 1, 8192 - now->smallest));
    for (n = 2 * now->in_pool; n < MOST && answered(n, HESKAVERN_NO_ROOM, 0); n++)
        continue;
    EXPECT(n == MOST);
    expect_left(MOST + 1, HESKAVERN_DOES_NOT_FIT);
    expect_untouched();
}

/* ---- damaged heaps */

/* What a row meets: a head above the pools that there are; a link that is no block's place, behind one that is; and a
   freed pool that cannot be had for its own class, and then is set to another, which makes the heap whole again. */
static void damaged(void)
{
    const uint32_t second = 2 * now->smallest, third = 3 * now->smallest;
    fresh(1, 2);
    EXPECT(done(ASK(1), 48) && done(ASK(second), 4144) && done(ASK(1), at(1)) && done(ASK(1), at(2)));
    EXPECT(done(GIVE_BACK(48), 48) && done(GIVE_BACK(at(1)), at(1)));
    memory[48] = 7;
    clear();
    request(1);
    request(1);
    request(second);
    request(1);
    request(third);
    expect_asked();
    EXPECT(served(0, at(1)) && answered(1, HESKAVERN_DAMAGED, 0) && served(2, 4096 + at(2)));
    EXPECT(answered(3, HESKAVERN_DAMAGED, 0) && answered(4, HESKAVERN_NO_ROOM, 0));
    books[4] = 3;
    expect_asked();
    EXPECT(answered(0, HESKAVERN_DAMAGED, 0) && answered(1, HESKAVERN_DAMAGED, 0) && served(2, 4096 + at(4)));

    fresh(1, 2);
    EXPECT(done(ASK(1), 48) && done(ASK(second), 4144) && done(GIVE_BACK(48), 48));
    *pool_word(0, FREEBLOCK) = 7;
    EXPECT(AUDIT() != HESKAVERN_AUDIT_YES);
    clear();
    request(1);
    request(third);
    request(1);
    request(second);
    expect_asked();
    EXPECT(answered(0, HESKAVERN_DAMAGED, 0) && served(1, 48) && answered(2, HESKAVERN_NO_ROOM, 0));
    EXPECT(served(3, 4096 + at(2)) && AUDIT() == HESKAVERN_AUDIT_YES);
    expect_untouched();
}

/* A row of several classes, with sizes out of range among them. */
static void request_some(void)
{
    static const uint32_t sizes[] = {1, 0, 512, 20, 100, 513, 1, 40, UINT32_MAX, 512, 20, 9, 17, 1};
    size_t n;
    clear();
    for (n = 0; n < sizeof sizes / sizeof *sizes; n++)
        request(sizes[n]);
}

/* Each word of the books but those of the shape, with a value that is not its own. */
static void every_word(void)
{
    static const uint32_t values[] = {0, 3, UINT32_MAX};
    size_t word, i;
    for (word = 2; word < HESKAVERN_BOOKS_WORDS(2, 2); word++)
        for (i = 0; i < sizeof values / sizeof *values && word != EDITION; i++) {
            fresh(2, 2);
            EXPECT(done(ASK(1), 48) && done(ASK(20), 4144) && done(ASK(100), 8240) && done(ASK(1), at(1)));
            EXPECT(done(GIVE_BACK(48), 48) && done(GIVE_BACK(4144), 4144));
            books[word] = values[i];
            request_some();
            expect_asked();
        }
}

/* ---- what refuses a row as a whole */

/* Fresh, half full, full and damaged heaps alike: an empty row is done, and one request too many is 7. */
static void all_alike(void)
{
    int turn;
    for (turn = 0; turn < 4; turn++) {
        fresh(1, 3);
        if (turn > 0)
            while (ASK(100).number == HESKAVERN_DONE && (turn > 1 || *pool_word(1, COUNT) == 0))
                continue;
        if (turn == 3)
            memset(books + 2, FILL, (EDITION - 2) * sizeof *books);
        clear();
        expect_asked();
        expect_left(MOST + 1, HESKAVERN_DOES_NOT_FIT);
        request_some();
        expect_asked();
        expect_untouched();
    }
}

/* A, P or the edition out of range, and lengths that are not exact, refuse rows of any length, before 7. */
static void wrong_shapes(void)
{
    static const uint32_t words[][2] = {{0, 0}, {0, 17}, {0, UINT32_MAX}, {1, 1}, {1, 65}, {EDITION, 2},
                                        {EDITION, UINT32_MAX}}; /* a word of the books, and what is put there */
    size_t *const lengths[] = {&memory_bytes, &books_words, &map_words};
    size_t i;
    for (i = 0; i < sizeof words / sizeof *words; i++) {
        fresh(1, 2);
        EXPECT(done(ASK(1), 48));
        books[words[i][0]] = words[i][1];
        expect_left(0, HESKAVERN_OUT_OF_RANGE);
        memory_bytes--;
        expect_left(0, HESKAVERN_OUT_OF_RANGE);
        books_words = words[i][0] == EDITION ? EDITION + 1 : 2; /* just enough that the word is read */
        expect_left(0, HESKAVERN_OUT_OF_RANGE);
        books_words--;
        expect_left(0, HESKAVERN_NOT_EXACT);
    }
    fresh(1, 2);
    EXPECT(done(ASK(1), 48));
    for (i = 0; i < 6; i++) {
        lend(1, 2);
        *lengths[i / 2] += i % 2 ? 1 : (size_t)-1;
        expect_left(0, HESKAVERN_NOT_EXACT);
    }
    lend(1, 2);
    expect_untouched();
}

/* ---- random rows on random heaps */

/* So many calls, with sizes of few classes, so that pools are set to others. */
static void go_on(uint32_t calls)
{
    while (calls-- > 0)
        if (below(3))
            (void)ASK(1 + below(120));
        else
            (void)GIVE_BACK(4096 * below((uint32_t)(memory_bytes / 4096)) + at(below(24)));
}

/* A word of the books, a bit of the map or a link. */
static void damage(void)
{
    const uint32_t pools = (uint32_t)(memory_bytes / 4096), value = below(4) ? below(pools + 2) : 48 + 8 * below(506);
    const uint32_t word = 2 + below((uint32_t)books_words - 2);
    switch (below(3)) {
    case 0: books[word == EDITION ? 2 : word] = value; break;
    case 1: map[below((uint32_t)map_words)] ^= (uint64_t)1 << below(64); break;
    default: memory[4096 * below(pools) + at(below(24))] ^= (uint8_t)(1 + below(255));
    }
}

/* Rows of any length, mostly short ones, with sizes of few classes, of all, and out of range. */
static void request_any(void)
{
    const size_t length = below(8) ? below(40) : below(1200);
    clear();
    while (entries < length)
        request(below(16) == 0 ? 513 * below(2) + below(2) : below(4) ? 1 + below(60) : below(514));
}

static void random_rows(void)
{
    static const size_t shapes[][2] = {{1, 2}, {1, 5}, {3, 2}, {2, 3}, {16, 2}};
    uint32_t turn, times;
    random_state = now->edition;
    served_behind = 0;
    memset(seen, 0, sizeof seen);
    for (turn = 0; turn < 300; turn++) {
        const size_t *shape = shapes[turn % 5];
        fresh(shape[0], shape[1]);
        for (times = below(6); times > 0; times--) {
            go_on(below(60));
            if (turn % 2)
                damage();
            request_any();
            expect_asked();
        }
    }
    EXPECT(seen[HESKAVERN_DONE] > 1000 && seen[HESKAVERN_BAD_SIZE] > 1000 && seen[HESKAVERN_NO_ROOM] > 1000);
    EXPECT(seen[HESKAVERN_DAMAGED] > 1000 && served_behind > 1000);
}

int main(void)
{
    layout();
    for (now = editions; now < editions + sizeof editions / sizeof *editions; now++) {
        front_first();
        bad_sizes();
        every_size();
        some_room();
        filled_by_a_row();
        most();
        damaged();
        every_word();
        all_alike();
        wrong_shapes();
        random_rows();
    }
    printf("%lu facts, %lu rows of %lu requests\n", facts, rows, requests);
    return 0;
}
