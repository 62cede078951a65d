/* heskavern::resource under containers: every block comes back; where each size and alignment comes from; what is
   std::bad_alloc; and what the handler is told. In both editions. */
#include <map>
#include <string>
#include "facts.hpp"

using heskavern::edition;
using heskavern::heap;
using heskavern::refusal;
using heskavern::resource;

static std::vector<refusal> told;
static void note(const refusal &one) { told.push_back(one); }

/* What was told last, once; and that nothing was told since. */
static bool was_told(const std::string &call, std::uint32_t number, const void *place, std::size_t bytes)
{
    const bool so = told.size() == 1 && told[0].call == call && told[0].number == number && told[0].place == place
        && told[0].bytes == bytes;
    told.clear();
    return so;
}

template <class Asked> static bool is_bad_alloc(Asked asked)
{
    try {
        asked();
    } catch (const std::bad_alloc &) {
        return true;
    }
    return false;
}

/* Asks for more blocks than a heap of two pools has of that size. */
static void fill(std::vector<void *> &places, resource &from, std::size_t bytes)
{
    for (int i = 0; i < 100; i++)
        places.push_back(from.allocate(bytes, 8));
}

/* An upstream that says what it was asked for and what is out. */
class counting : public std::pmr::memory_resource {
public:
    std::size_t out = 0, asked = 0, last_bytes = 0, last_alignment = 0;

private:
    void *do_allocate(std::size_t bytes, std::size_t alignment) override
    {
        out++;
        asked++;
        last_bytes = bytes;
        last_alignment = alignment;
        return std::pmr::new_delete_resource()->allocate(bytes, alignment);
    }
    void do_deallocate(void *place, std::size_t bytes, std::size_t alignment) override
    {
        out--;
        std::pmr::new_delete_resource()->deallocate(place, bytes, alignment);
    }
    bool do_is_equal(const memory_resource &other) const noexcept override { return this == &other; }
};

/* ---- containers of texts */

/* A text, and the texts below it. */
struct node {
    using allocator_type = std::pmr::polymorphic_allocator<node>;
    std::pmr::string text;
    std::pmr::vector<node> children;

    explicit node(std::string_view words, const allocator_type &from) : text(words, from), children(from) {}
    node(const node &other, const allocator_type &from) : text(other.text, from), children(other.children, from) {}
    node(node &&other, const allocator_type &from)
        : text(std::move(other.text), from), children(std::move(other.children), from)
    {
    }
};

static std::string line(std::size_t i) { return "line " + std::to_string(i) + " of a statement that is read out"; }

static void grow(node &from, std::size_t depth)
{
    for (std::size_t i = 0; depth > 0 && i < 3; i++) {
        from.children.emplace_back(line(depth * 10 + i));
        grow(from.children.back(), depth - 1);
    }
}

/* The texts of a tree, one after the other, and that all of it lies in the heap. */
static std::string read_out(const node &from, const heap &in)
{
    EXPECT(in.holds(from.text.data()) && (from.children.empty() || in.holds(from.children.data())));
    std::string all(from.text);
    for (const node &child : from.children)
        all += "\n" + read_out(child, in);
    return all;
}

static void expect_containers(edition which)
{
    heap texts(4, 16, which);
    resource from(texts, std::pmr::null_memory_resource(), note);
    {
        std::pmr::vector<std::pmr::string> lines(&from);
        std::pmr::map<std::pmr::string, std::pmr::string> names(&from);
        lines.reserve(12); // 480 bytes
        for (std::size_t i = 0; i < 10; i++) {
            lines.emplace_back(line(i));
            names.emplace(line(i), line(i + 1));
        }
        for (std::size_t i = 0; i < 10; i++) {
            EXPECT(lines[i] == std::string_view(line(i)) && texts.holds(lines[i].data()));
            EXPECT(names.at(std::pmr::string(line(i), &from)) == std::string_view(line(i + 1)));
        }
        EXPECT(texts.live() == 1 + 10 + 3 * 10); // the vector and its texts; nodes of the map, with two texts each
        lines.erase(lines.begin() + 3, lines.begin() + 6);
        names.erase(names.begin());
        EXPECT(lines[3] == std::string_view(line(6)) && texts.live() < 41 && texts.audit() == HESKAVERN_AUDIT_YES);

        node tree("the statement of a customer, who hears it", node::allocator_type(&from));
        grow(tree, 4);
        const std::string words = read_out(tree, texts);
        const node copy(tree, node::allocator_type(&from));
        tree.children.erase(tree.children.begin());
        EXPECT(read_out(copy, texts) == words && read_out(tree, texts) != words);
        EXPECT(texts.audit() == HESKAVERN_AUDIT_YES);
    }
    EXPECT(texts.live() == 0 && texts.audit() == HESKAVERN_AUDIT_YES && told.empty());
}

/* ---- sizes and alignments */

struct alignas(16) amount {
    std::int64_t pence;
};

static void expect_alignments(edition which)
{
    heap blocks(16, 64, which);
    resource from(blocks, std::pmr::null_memory_resource(), note);
    for (std::size_t alignment = 1; alignment <= 16; alignment *= 2) {
        std::vector<void *> places;
        std::size_t off = 0, small = 0;
        for (std::size_t bytes = 0; bytes <= HESKAVERN_LARGEST; bytes++) {
            for (int twice = 0; twice < 2; twice++) {
                places.push_back(from.allocate(bytes, alignment));
                off += reinterpret_cast<std::uintptr_t>(places.back()) % alignment != 0;
                small += blocks.view(blocks.offset_of(places.back())).size < bytes;
            }
        }
        EXPECT(off == 0 && small == 0 && blocks.live() == places.size());
        for (std::size_t i = 0; i < places.size(); i++)
            from.deallocate(places[i], i / 2, alignment);
        EXPECT(blocks.live() == 0);
    }
    {
        std::pmr::vector<std::pmr::vector<amount>> rows(&from);
        for (std::size_t i = 1; i < 10; i++) {
            rows.emplace_back(i);
            EXPECT(reinterpret_cast<std::uintptr_t>(rows.back().data()) % alignof(amount) == 0);
        }
    }
    // alignment alone takes no larger block: 8 bytes take a smallest one, unless they are to be aligned to 16
    void *plain = from.allocate(8, 8), *wide = from.allocate(8, 16);
    EXPECT(blocks.view(blocks.offset_of(plain)).size == (which == edition::eight ? 8 : 16));
    EXPECT(blocks.view(blocks.offset_of(wide)).size == 16);
    from.deallocate(plain, 8, 8);
    from.deallocate(wide, 8, 16);
    EXPECT(blocks.live() == 0 && told.empty());
}

static void expect_upstream(edition which)
{
    heap blocks(1, 2, which);
    resource alone(blocks, std::pmr::null_memory_resource(), note), by_default(blocks), by_null(blocks, nullptr);
    for (resource *from : {&alone, &by_default, &by_null}) {
        EXPECT(is_bad_alloc([&] { (void)from->allocate(513, 8); }));
        EXPECT(is_bad_alloc([&] { (void)from->allocate(8, 32); }));
        EXPECT(is_bad_alloc([&] { (void)from->allocate(std::size_t{1} << 40, 1); }));
    }
    std::uint64_t foreign[100] = {}; // where there is no upstream, nothing is its block
    alone.deallocate(foreign, sizeof foreign, 8);
    EXPECT(was_told("give back", HESKAVERN_NO_BLOCK, foreign, sizeof foreign));
    counting upstream;
    resource from(blocks, &upstream, note);
    void *large = from.allocate(513, 8);
    EXPECT(upstream.out == 1 && upstream.last_bytes == 513 && upstream.last_alignment == 8 && !blocks.holds(large));
    void *wide = from.allocate(8, 32);
    EXPECT(upstream.out == 2 && upstream.last_bytes == 8 && upstream.last_alignment == 32 && blocks.live() == 0);
    void *inside = from.allocate(512, 16);
    EXPECT(upstream.out == 2 && blocks.holds(inside) && blocks.live() == 1);
    from.deallocate(large, 513, 8);
    EXPECT(upstream.out == 1 && blocks.live() == 1);
    from.deallocate(wide, 8, 32);
    EXPECT(upstream.out == 0 && blocks.live() == 1);
    from.deallocate(inside, 512, 16);
    EXPECT(upstream.out == 0 && blocks.live() == 0);
    {
        std::pmr::vector<std::uint8_t> growing(&from);
        for (std::size_t i = 0; i < 5000; i++)
            growing.push_back(std::uint8_t(i));
        EXPECT(upstream.out == 1 && blocks.live() == 0 && growing[4999] == std::uint8_t(4999));
    }
    // a full heap is bad_alloc with an upstream too
    const std::size_t asked = upstream.asked;
    std::vector<void *> places;
    EXPECT(is_bad_alloc([&] { fill(places, from, 512); }));
    EXPECT(places.size() == 14 && upstream.asked == asked && upstream.out == 0 && told.empty());
    for (void *place : places)
        from.deallocate(place, 512, 8);
    EXPECT(blocks.live() == 0 && told.empty());
}

/* ---- no room, and nothing */

static void expect_room_and_nothing(edition which)
{
    heap blocks(1, 2, which);
    resource from(blocks, std::pmr::null_memory_resource(), note);
    void *one = from.allocate(0, 1), *other = from.allocate(0, 1);
    EXPECT(one != other && blocks.holds(one) && blocks.live() == 2);
    from.deallocate(one, 0, 1);
    from.deallocate(other, 0, 1);
    EXPECT(blocks.live() == 0 && told.empty());

    std::vector<void *> places;
    EXPECT(is_bad_alloc([&] { fill(places, from, 500); }));
    EXPECT(told.empty() && blocks.live() == places.size() && !places.empty() && blocks.audit() == 0);
    from.deallocate(places.back(), 500, 8);
    EXPECT(from.allocate(500, 8) == places.back() && is_bad_alloc([&] { (void)from.allocate(500, 8); }));
    for (void *place : places)
        from.deallocate(place, 500, 8);
    EXPECT(blocks.live() == 0 && told.empty());
}

/* ---- what the handler is told */

static void expect_refusals(edition which)
{
    heap blocks(1, 2, which);
    counting upstream;
    resource from(blocks, &upstream, note);
    std::uint64_t foreign = 0;
    void *owed = from.allocate(4), *paid = from.allocate(4);
    from.deallocate(owed, 4);
    EXPECT(told.empty());
    from.deallocate(owed, 4);
    EXPECT(was_told("give back", HESKAVERN_DEAD_BLOCK, owed, 4));
    from.deallocate(static_cast<std::uint8_t *>(paid) + 1, 4);
    EXPECT(was_told("give back", HESKAVERN_NO_BLOCK, static_cast<std::uint8_t *>(paid) + 1, 4));
    from.deallocate(&foreign, 8);
    EXPECT(was_told("give back", HESKAVERN_NO_BLOCK, &foreign, 8));
    from.deallocate(owed, 513); // inside memory, so it is the heap's to refuse, whatever size it is said to have
    EXPECT(was_told("give back", HESKAVERN_DEAD_BLOCK, owed, 513) && upstream.out == 0);
    EXPECT(blocks.live() == 1 && blocks.audit() == HESKAVERN_AUDIT_YES);
    void *again = from.allocate(4), *name = from.allocate(4);
    EXPECT(again == owed && name != owed && name != paid);
    from.deallocate(again, 4);
    from.deallocate(name, 4);
    from.deallocate(paid, 4); // the last one: the arena is released
    EXPECT(told.empty() && blocks.live() == 0);
    from.deallocate(paid, 4);
    EXPECT(was_told("give back", HESKAVERN_NO_BLOCK, paid, 4));
}

static void expect_damage(edition which)
{
    heap good(1, 2, which);
    const std::uint32_t offset = value_of(good.ask(8));
    heap bad = spoilt(good);
    resource from(bad, std::pmr::null_memory_resource(), note);
    EXPECT(is_bad_alloc([&] { (void)from.allocate(7, 1); }));
    EXPECT(was_told("ask", HESKAVERN_DAMAGED, nullptr, 7));
    from.deallocate(bad.at(offset), 8, 8);
    EXPECT(was_told("give back", HESKAVERN_DAMAGED, bad.at(offset), 8) && bad.live() == 1);
    resource throws(bad, std::pmr::null_memory_resource(), [](const refusal &one) { throw one.number; });
    std::uint32_t thrown = 0;
    try {
        (void)throws.allocate(8, 8);
    } catch (std::uint32_t number) {
        thrown = number;
    }
    EXPECT(thrown == HESKAVERN_DAMAGED);

    heap kept = std::move(good);
    resource empty(good, std::pmr::null_memory_resource(), note);
    EXPECT(is_bad_alloc([&] { (void)empty.allocate(8); }) && was_told("ask", HESKAVERN_NOT_EXACT, nullptr, 8));
    resource other(bad);
    EXPECT(from.is_equal(from) && !from.is_equal(throws) && !from.is_equal(other));
    EXPECT(from == from && from != other);
}

int main()
{
    static_assert(!std::is_copy_constructible_v<resource> && !std::is_copy_assignable_v<resource>);
    for (const edition which : {edition::eight, edition::sixteen}) {
        expect_containers(which);
        expect_alignments(which);
        expect_upstream(which);
        expect_room_and_nothing(which);
        expect_refusals(which);
        expect_damage(which);
    }
    std::printf("%lu facts of resources\n", facts);
    return 0;
}
