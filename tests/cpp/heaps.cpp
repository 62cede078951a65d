/* heskavern::heap: every member beside the calls of heskavern.h on buffers of the same contents, in both editions; what
   its constructors refuse; copies, moves, saved and loaded heaps; and, under AddressSanitizer, its marks. */
#include <array>
#include <cstring>
#include <limits>
#include <random>
#include <string>
#include "facts.hpp"

using heskavern::buffers;
using heskavern::edition;
using heskavern::heap;

/* ---- the machine's memory: how often it is asked for some, and once, where a heap's memory is lent a static array, so
        that its marks can be looked at after the heap is gone */

static unsigned long allocated = 0;
alignas(16) static std::array<std::uint8_t, HESKAVERN_MEMORY_BYTES(1, 3)> kept_memory;
static bool kept_is_next = false;

[[gnu::noinline]] void *operator new(std::size_t bytes)
{
    allocated++;
    if (kept_is_next && bytes == kept_memory.size()) {
        kept_is_next = false;
        return kept_memory.data();
    }
    if (void *place = std::malloc(bytes))
        return place;
    throw std::bad_alloc();
}
[[gnu::noinline]] void operator delete(void *place) noexcept
{
    if (place != kept_memory.data())
        std::free(place);
}
void operator delete(void *place, std::size_t) noexcept { operator delete(place); }

/* ---- the marks: of each eight bytes of memory, all are open in a live block, and elsewhere the last four are shut */

#ifdef HESKAVERN_MARKED
static bool is_shut(const std::uint8_t *place) { return __asan_address_is_poisoned(place) != 0; }
static std::size_t shut_in(const std::uint8_t *from, std::size_t bytes)
{
    std::size_t count = 0;
    for (std::size_t i = 0; i < bytes; i++)
        count += is_shut(from + i);
    return count;
}
static void expect_marks(heap &seen)
{
    const std::size_t bytes = HESKAVERN_MEMORY_BYTES(seen.arenas(), seen.pools());
    std::size_t from = 0, wrong = 0;
    const auto count_wrong = [&](std::size_t to) {
        for (; from < to; from += 8)
            wrong += shut_in(seen.at(from + 4), 4) != 4;
    };
    for (const heskavern::block &out : seen.roll_call()) {
        count_wrong(out.offset);
        wrong += shut_in(seen.at(out.offset), out.size) != 0;
        from = out.offset + out.size;
    }
    count_wrong(bytes);
    EXPECT(wrong == 0);
}

static void expect_each_mark()
{
    heap one(1, 2);
    EXPECT(shut_in(one.at(0), HESKAVERN_MEMORY_BYTES(1, 2)) == HESKAVERN_MEMORY_BYTES(1, 2));
    const std::uint32_t first = value_of(one.ask(20)), second = value_of(one.ask(20));
    EXPECT(shut_in(one.at(first), 24) == 0 && shut_in(one.at(0), HESKAVERN_MEMORY_BYTES(1, 2)) == 8192 - 48);
    EXPECT(value_of(one.give_back(first)) == first);
    EXPECT(shut_in(one.at(first), 4) == 0 && shut_in(one.at(first + 4), 20) == 20 && !is_shut(one.at(second)));
    const std::uint32_t moved = value_of(one.resize(second, 40));
    EXPECT(shut_in(one.at(second), 4) == 0 && shut_in(one.at(second + 4), 20) == 20);
    EXPECT(shut_in(one.at(moved), 40) == 0 && shut_in(one.at(moved + 40), 8) == 8);
    heap two = one; // whose own marks stay: two links are open
    EXPECT(shut_in(one.at(0), 8192) == 8192 - 40 - 8 && shut_in(two.at(0), 8192) == 8192 - 40);
    buffers saved = std::move(two).into_buffers();
    EXPECT(shut_in(saved.memory.data(), 8192) == 0);
    heap three(std::move(saved));
    EXPECT(shut_in(three.at(0), 8192) == 8192 - 40);

    heap half = spoilt([] {
        heap good(1, 2);
        EXPECT(value_of(good.ask(8)) == 48);
        return good;
    }());
    EXPECT(is(half.resize(48, 100), HESKAVERN_DAMAGED, 4144));
    EXPECT(shut_in(half.at(48), 8) == 0 && shut_in(half.at(4144), 104) == 0 && is_shut(half.at(4144 + 104)));

    {
        kept_is_next = true;
        heap short_lived(1, 3);
        EXPECT(short_lived.at(0) == kept_memory.data() && shut_in(kept_memory.data(), kept_memory.size()) == 12288);
    }
    EXPECT(shut_in(kept_memory.data(), kept_memory.size()) == 0);
}
#else
static void expect_marks(heap &) {}
static void expect_each_mark() {}
#endif

/* ---- a heap and buffers of the same contents, lent to the calls of heskavern.h */

#define LENT(held) \
    (held).memory.data(), (held).memory.size(), (held).books.data(), (held).books.size(), (held).map.data(), \
        (held).map.size()

static bool same(const buffers &one, const buffers &other)
{
    return one.memory == other.memory && one.books == other.books && one.map == other.map;
}
static buffers saved_of(const heap &seen) { return heap(seen).into_buffers(); }

struct twins {
    heap own;
    buffers lent;
    std::mt19937 random{2026};
    std::vector<std::size_t> seen{0, 48, 49, 4096, std::numeric_limits<std::size_t>::max()};

    twins(std::size_t arenas, std::size_t pools, edition which) : own(arenas, pools, which), lent{}
    {
        lent.memory.resize(HESKAVERN_MEMORY_BYTES(arenas, pools));
        lent.books.resize(HESKAVERN_BOOKS_WORDS(arenas, pools));
        lent.map.resize(HESKAVERN_MAP_WORDS(arenas, pools));
        value_of(heskavern_format(LENT(lent), arenas, pools, std::size_t(which)));
        EXPECT(own.arenas() == arenas && own.pools() == pools && own.edition() == which && own.live() == 0);
        EXPECT(reinterpret_cast<std::uintptr_t>(own.at(0)) % 16 == 0);
    }

    std::size_t below(std::size_t n) { return random() % n; }
    std::size_t some_offset() { return seen[below(seen.size())]; }

    /* Both answers are the same; an offset that is answered is tried again later. */
    void expect_answer(heskavern_answer got, heskavern_answer told)
    {
        EXPECT(got.number == told.number && got.value == told.value);
        if (got.number == HESKAVERN_DONE)
            seen.push_back(got.value);
    }

    void ask()
    {
        const std::size_t size = below(8) == 0 ? 512 + below(3) : below(100);
        expect_answer(own.ask(size), heskavern_ask(LENT(lent), size));
    }
    void ask_all()
    {
        std::vector<heskavern_request> row(below(6)), told;
        for (heskavern_request &request : row)
            request = {std::uint32_t(below(560)), 77, 78};
        told = row;
        heskavern_request none{};
        EXPECT(is(own.ask_all(row.data(), row.size()), HESKAVERN_DONE, 0));
        value_of(heskavern_ask_all(LENT(lent), told.empty() ? &none : told.data(), told.size()));
        for (std::size_t i = 0; i < row.size(); i++) {
            EXPECT(row[i].size == told[i].size);
            expect_answer({row[i].number, row[i].offset}, {told[i].number, told[i].offset});
        }
    }
    void give_back()
    {
        const std::size_t offset = some_offset();
        expect_answer(own.give_back(offset), heskavern_give_back(LENT(lent), offset));
    }
    void resize()
    {
        const std::size_t offset = some_offset(), size = below(520);
        expect_answer(own.resize(offset, size), heskavern_resize(LENT(lent), offset, size));
    }
    void write()
    {
        const std::size_t offset = some_offset(), length = below(60);
        const std::string text(length, char('a' + below(26)));
        const heskavern_answer told = heskavern_write(LENT(lent), offset, text.data(), text.size());
        expect_answer(below(2) ? own.write(offset, text) : own.write(offset, text.data(), text.size()), told);
        EXPECT(own.write(offset, std::string_view()).number == heskavern_view_size(LENT(lent), offset).number);
    }
    void look()
    {
        const std::size_t offset = some_offset();
        const heskavern_answer told = heskavern_view_size(LENT(lent), offset);
        const heskavern_viewed viewed = own.view(offset);
        const bool is_out = told.number == HESKAVERN_DONE;
        EXPECT(viewed.number == told.number && viewed.size == told.value);
        EXPECT(viewed.bytes == own.at(is_out ? offset : 0));
        EXPECT(std::memcmp(viewed.bytes, lent.memory.data() + (is_out ? offset : 0), viewed.size) == 0);
        const heskavern_part part = own.stand_in(offset, "no amount", 9);
        EXPECT(is_out ? part.bytes == viewed.bytes && part.size == viewed.size
                      : std::string_view(reinterpret_cast<const char *>(part.bytes), part.size) == "no amount");
        const std::string_view phrase = "no amount", spoken = own.stand_in(offset, phrase);
        EXPECT(is_out ? own.offset_of(spoken.data()) == offset && spoken.size() == told.value
                      : spoken.data() == phrase.data() && spoken.size() == phrase.size());
        EXPECT(own.audit() == HESKAVERN_AUDIT_YES && heskavern_audit(LENT(lent)) == HESKAVERN_AUDIT_YES);
    }
    void roll()
    {
        std::vector<std::uint32_t> told(HESKAVERN_ROLL_WORDS(own.arenas(), own.pools()), 99), words = told;
        const heskavern_answer count = heskavern_roll_call(LENT(lent), told.data(), told.size());
        EXPECT(is(own.roll_call(words.data(), words.size()), HESKAVERN_DONE, count.value) && words == told);
        EXPECT(own.roll_call(nullptr, 0).number == (count.value == 0 ? HESKAVERN_DONE : HESKAVERN_DOES_NOT_FIT));
        const std::vector<heskavern::block> blocks = own.roll_call();
        EXPECT(blocks.size() == count.value && own.live() == count.value);
        for (std::size_t i = 0; i < blocks.size(); i++)
            EXPECT(blocks[i].offset == told[2 * i] && blocks[i].size == told[2 * i + 1]);
    }
};

/* The heap as it is after many steps, which is as the calls of heskavern.h leave it. */
static heap walk(std::size_t arenas, std::size_t pools, edition which)
{
    twins both(arenas, pools, which);
    void (twins::*const steps[])() = {&twins::ask,    &twins::ask,   &twins::ask_all, &twins::give_back,
                                      &twins::resize, &twins::write, &twins::look,    &twins::roll};
    for (int i = 0; i < 1000; i++) {
        (both.*steps[both.below(std::size(steps))])();
        expect_marks(both.own);
        EXPECT(same(saved_of(both.own), both.lent));
    }
    return std::move(both.own);
}

/* ---- what constructors refuse */

template <class Made> static std::uint32_t number_of(Made made)
{
    try {
        made();
    } catch (const std::exception &thrown) {
        const auto *told = dynamic_cast<const heskavern::refused *>(&thrown);
        EXPECT(told != nullptr);
        EXPECT(std::strcmp(thrown.what(), heskavern_say(told->number())) == 0);
        return told->number();
    }
    return HESKAVERN_DONE;
}

static void expect_refusals()
{
    constexpr std::size_t most = std::numeric_limits<std::size_t>::max();
    const auto formats = [](std::size_t arenas, std::size_t pools, edition which = edition::eight) {
        return number_of([&] { heap(arenas, pools, which); });
    };
    EXPECT(formats(1, 2) == 0 && formats(16, 64) == 0 && formats(16, 64, edition::sixteen) == 0);
    EXPECT(formats(0, 2) == 1 && formats(17, 2) == 1 && formats(1, 1) == 1 && formats(1, 65) == 1);
    EXPECT(formats(most, most) == 1 && formats(1, most / 4096) == 1 && formats(1, 2, edition(2)) == 1);

    const auto loads = [](const auto &change) {
        buffers saved = heap(2, 3, edition::sixteen).into_buffers();
        change(saved);
        return number_of([&] { heap{saved}; });
    };
    EXPECT(loads([](buffers &) {}) == 0);
    EXPECT(loads([](buffers &saved) { saved = {}; }) == 2);
    EXPECT(loads([](buffers &saved) { saved.books = {2}; }) == 2);
    EXPECT(loads([](buffers &saved) { saved.books = {2, 3}; }) == 2);
    EXPECT(loads([](buffers &saved) { saved.books = {2, 1}; }) == 1);
    EXPECT(loads([](buffers &saved) { saved.books.resize(68); }) == 2);
    EXPECT(loads([](buffers &saved) { saved.books.push_back(0); }) == 2);
    EXPECT(loads([](buffers &saved) { saved.books[0] = 0; }) == 1);
    EXPECT(loads([](buffers &saved) { saved.books[68] = 2; }) == 1);
    EXPECT(loads([](buffers &saved) { saved.memory.pop_back(); }) == 2);
    EXPECT(loads([](buffers &saved) { saved.memory.push_back(0); }) == 2);
    EXPECT(loads([](buffers &saved) { saved.memory = {}; }) == 2);
    EXPECT(loads([](buffers &saved) { saved.map.pop_back(); }) == 2);
    EXPECT(loads([](buffers &saved) { saved.map = {}; }) == 2);
    // what else is in the buffers is no constructor's to judge: the audit tells it
    EXPECT(loads([](buffers &saved) { saved.books[69] = 1; }) == 0);
    buffers saved = heap(1, 2).into_buffers();
    saved.books[69] = 1;
    EXPECT(heap(saved).audit() == HESKAVERN_AUDIT_ZEROS);
}

/* ---- copies, moves, saved and loaded heaps */

static void expect_moved_from(heap &gone)
{
    heap other(1, 2);
    heskavern_request row[1] = {{8, 77, 78}};
    std::uint32_t list[2];
    std::int32_t changes[HESKAVERN_CHANGES];
    EXPECT(gone.arenas() == 0 && gone.pools() == 0 && gone.live() == 0 && gone.roll_call().empty());
    EXPECT(is(gone.ask(8), 2, 0) && is(gone.give_back(48), 2, 0) && is(gone.resize(48, 8), 2, 0));
    EXPECT(is(gone.ask_all(row, 1), 2, 0) && row[0].number == 77 && is(gone.ask_all(nullptr, 0), 2, 0));
    EXPECT(is(gone.write(48, "owed"), 2, 0) && is(gone.roll_call(nullptr, 0), 2, 0));
    EXPECT(gone.view(48).number == 2 && gone.view(48).size == 0 && gone.stand_in(48, "no amount") == "no amount");
    EXPECT(gone.audit() == HESKAVERN_AUDIT_SHAPE && !gone.holds(&other) && !gone.holds(nullptr));
    EXPECT(is(gone.compare(other, list, 2, changes, 64), 2, 0) && is(other.compare(gone, list, 2, changes, 64), 2, 0));
    EXPECT(same(saved_of(gone), buffers{}) && number_of([&] { heap{saved_of(gone)}; }) == 2);
}

static void expect_copies_and_moves(const heap &seen)
{
    const buffers before = saved_of(seen);
    heap copy = seen, other(1, 2);
    EXPECT(copy.at(0) != seen.view(0).bytes && same(saved_of(copy), before));
    const std::uint32_t gone = copy.roll_call().at(0).offset;
    EXPECT(copy.give_back(gone).number == HESKAVERN_DONE);
    EXPECT(seen.view(gone).number == HESKAVERN_DONE && same(saved_of(seen), before));
    copy = seen;
    EXPECT(same(saved_of(copy), before));
    const std::uint8_t *place = copy.at(0);
    heap &itself = copy;
    copy = itself;
    EXPECT(copy.at(0) == place && same(saved_of(copy), before));
    copy = std::move(itself);
    EXPECT(copy.at(0) == place && same(saved_of(copy), before));
    heap moved = std::move(copy);
    EXPECT(moved.at(0) == place && same(saved_of(moved), before));
    expect_moved_from(copy);
    expect_marks(moved);
    copy = heap(1, 2);
    EXPECT(copy.arenas() == 1 && copy.pools() == 2 && value_of(copy.ask(8)) == 48);
    other = std::move(moved);
    EXPECT(other.at(0) == place && same(saved_of(other), before));
    expect_moved_from(moved);
    std::swap(moved, other);
    EXPECT(moved.at(0) == place);
    expect_moved_from(other);
    buffers saved = std::move(moved).into_buffers();
    EXPECT(saved.memory.data() == place && same(saved, before));
    expect_moved_from(moved);
    moved = heap(std::move(saved));
    EXPECT(moved.at(0) == place && moved.edition() == seen.edition() && moved.audit() == HESKAVERN_AUDIT_YES);
    expect_marks(moved);
}

static void expect_yesterday(edition which)
{
    heap today(2, 2, which);
    const std::uint32_t owed = value_of(today.ask(4)), paid = value_of(today.ask(4)), name = value_of(today.ask(4));
    value_of(today.write(owed, "owed"));
    value_of(today.write(paid, "paid"));
    const heap yesterday = today;
    value_of(today.write(owed, "due."));
    value_of(today.give_back(paid));
    const std::uint32_t moved = value_of(today.resize(name, 100));
    std::vector<std::uint32_t> list(HESKAVERN_LIST_WORDS(2, 2));
    std::vector<std::int32_t> changes(HESKAVERN_CHANGES);
    const auto compare = [&](const heap &first, const heap &second) {
        return first.compare(second, list.data(), list.size(), changes.data(), changes.size());
    };
    const auto has = [&](std::size_t entry, std::uint32_t offset, std::uint32_t kind) {
        return list[2 * entry] == offset && list[2 * entry + 1] == kind;
    };
    EXPECT(is(compare(yesterday, today), HESKAVERN_DONE, 4));
    EXPECT(has(0, owed, HESKAVERN_OTHER_BYTES) && has(1, paid, HESKAVERN_FIRST_ALONE));
    EXPECT(has(2, name, HESKAVERN_FIRST_ALONE) && has(3, moved, HESKAVERN_SECOND_ALONE));
    EXPECT(changes[0] == -2 && changes[today.view(moved).size / today.view(owed).size - 1] == 1);
    EXPECT(is(compare(today, yesterday), HESKAVERN_DONE, 4) && has(3, moved, HESKAVERN_FIRST_ALONE));
    EXPECT(is(compare(today, today), HESKAVERN_DONE, 0) && is(compare(today, heap(2, 3, which)), 12, 0));
    EXPECT(is(today.compare(today, nullptr, 0, changes.data(), changes.size()), HESKAVERN_DONE, 0));
    EXPECT(is(today.compare(today, list.data(), list.size(), nullptr, 0), HESKAVERN_DOES_NOT_FIT, 0));
    EXPECT(std::memcmp(yesterday.view(owed).bytes, "owed", 4) == 0 && yesterday.live() == 3 && today.live() == 2);
}

/* Whoever writes over A and P gets no more room asked for than memory has blocks. */
static void expect_another_shape()
{
    buffers saved = heap(1, 2).into_buffers();
    std::uint32_t *const books = saved.books.data();
    heap own(std::move(saved));
    EXPECT(value_of(own.ask(8)) == 48);
    books[0] = 16;
    books[1] = std::numeric_limits<std::uint32_t>::max();
    EXPECT(own.live() == 0 && own.audit() == HESKAVERN_AUDIT_SHAPE && saved_of(own).memory.size() == 8192);
}

/* ---- places, what cannot throw, and what allocates nothing */

static void expect_places()
{
    heap one(1, 2), other(1, 2);
    const std::uint32_t owed = value_of(one.ask(4));
    EXPECT(one.at(owed) == one.view(owed).bytes && one.offset_of(one.at(owed)) == owed && one.holds(one.at(owed)));
    EXPECT(one.holds(one.at(0)) && one.holds(one.at(8191)) && !one.holds(one.at(8191) + 1));
    EXPECT(!one.holds(one.at(0) - 1) && !one.holds(nullptr) && !one.holds(other.at(owed)));
    EXPECT(is(one.give_back(one.offset_of(other.at(owed))), HESKAVERN_NO_BLOCK, 0));
    EXPECT(is(one.give_back(one.offset_of(nullptr)), HESKAVERN_NO_BLOCK, 0));
}

static void expect_no_allocation(heap &own)
{
    std::uint32_t words[8];
    std::int32_t changes[HESKAVERN_CHANGES];
    heskavern_request row[1] = {{8, 77, 78}};
    static_assert(noexcept(own.ask(4)) && noexcept(own.ask_all(row, 1)) && noexcept(own.give_back(48)));
    static_assert(noexcept(own.resize(48, 4)) && noexcept(own.write(48, "", 0)) && noexcept(own.view(48)));
    static_assert(noexcept(own.stand_in(48, "", 0)) && noexcept(own.roll_call(words, 8)) && noexcept(own.audit()));
    static_assert(noexcept(own.compare(own, words, 8, changes, 64)) && noexcept(own.holds(nullptr)));
    static_assert(noexcept(own.arenas()) && noexcept(own.pools()) && noexcept(own.edition()) && noexcept(own.at(48)));
    static_assert(noexcept(own.write(48, std::string_view())) && noexcept(own.stand_in(48, std::string_view())));
    static_assert(!noexcept(own.roll_call()) && !noexcept(own.live()));
    static_assert(std::is_nothrow_move_constructible_v<heap> && std::is_nothrow_move_assignable_v<heap>);
    static_assert(std::is_copy_constructible_v<heap> && std::is_copy_assignable_v<heap>);
    const unsigned long before = allocated;
    const heskavern_answer asked = own.ask(4);
    (void)own.ask_all(row, 1);
    (void)own.write(asked.value, "owed");
    const heskavern_answer moved = own.resize(asked.value, 40);
    (void)own.view(moved.value);
    (void)own.stand_in(moved.value, "no amount");
    (void)own.roll_call(words, 8);
    (void)own.audit();
    (void)own.compare(own, words, 8, changes, 64);
    (void)own.give_back(moved.value);
    EXPECT(moved.number == HESKAVERN_DONE && allocated == before);
}

int main()
{
    for (const edition which : {edition::eight, edition::sixteen}) {
        heap walked = walk(1, 2, which);
        EXPECT(walked.live() > 0);
        expect_copies_and_moves(walked);
        expect_copies_and_moves(walk(3, 2, which));
        expect_yesterday(which);
        heap empty(1, 2, which);
        expect_no_allocation(empty);
    }
    EXPECT(heap(1, 2).edition() == edition::eight);
    expect_refusals();
    expect_another_shape();
    expect_places();
    expect_each_mark();
    std::printf("%lu facts of heaps\n", facts);
    return 0;
}
