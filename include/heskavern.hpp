/* Heskavern for C++: a heap that owns its buffers, and a std::pmr::memory_resource over it, for containers whose blocks
come from the heap. C++17 on x86-64 Linux; header only, over heskavern.h; link with libheskavern.a or libheskavern.so.

What is here is tested and not proved. The calls of heskavern.h, which it hands on to, are proved, and that header says
what each one does and what its numbers mean. docs/USING.md (installed: share/doc/heskavern) says which call is for
what.

Nothing here is safe to use from two threads at once. Any thread may make the next call on a heap, or the next use of a
resource over it, as each growth and each destructor of a container is, if you order them, by a lock or by handing the
heap over.

Where a program is compiled with AddressSanitizer, a heap marks its memory for it: open are just the blocks that are
out, and the first four bytes of one that has come back, which hold its link. So AddressSanitizer reports a stale read
or write behind those four bytes, and any of a place that was never handed out, until the block goes out again; but not
one of the four bytes alone, as of the word "owed". Compile all files of a program alike: the linker does not let a file
with marks hand a heap to one without. The library itself is not compiled so: what it reads and writes is not looked at.

Example:
    #include <cstdio>
    #include <string>
    #include <vector>
    #include "heskavern.hpp"
    int main() {
        heskavern::heap texts(1, 16); // 1 arena of 16 pools
        const heskavern_answer owed = texts.ask(4), paid = texts.ask(4);
        if (paid.number != HESKAVERN_DONE || texts.write(owed.value, "owed").number != HESKAVERN_DONE)
            return 1;
        const heskavern::heap yesterday = texts;
        std::printf("give back: %s\n", heskavern_say(texts.give_back(owed.value).number));
        std::printf("give back: %s\n", heskavern_say(texts.give_back(owed.value).number));
        {
            heskavern::resource blocks(texts);
            std::pmr::vector<std::pmr::string> lines(&blocks);
            lines.emplace_back("a text that is longer than a string holds in itself");
            std::printf("%zu live\n", texts.live());
        }
        std::printf("%zu live, and %zu yesterday\n", texts.live(), yesterday.live());
        return 0;
    }
*/
#ifndef HESKAVERN_HPP
#define HESKAVERN_HPP

#include <cstddef>
#include <cstdint>
#include <cstdio>
#include <cstdlib>
#include <exception>
#include <functional>
#include <memory_resource>
#include <new>
#include <string_view>
#include <type_traits>
#include <utility>
#include <vector>
#include "heskavern_heap.h"

#if defined __SANITIZE_ADDRESS__
#define HESKAVERN_MARKED
#elif defined __has_feature
#if __has_feature(address_sanitizer)
#define HESKAVERN_MARKED
#endif
#endif
#ifdef HESKAVERN_MARKED
#include <sanitizer/asan_interface.h>
#define HESKAVERN_MARKING marking
#else
#define HESKAVERN_MARKING plain
#endif

namespace heskavern {
/* A heap that keeps marks is of another type for the linker than one that keeps none. */
inline namespace HESKAVERN_MARKING {

/* The marks that AddressSanitizer goes by: what is shut may not be read or written. Without it there are none. */
namespace marks {
#ifdef HESKAVERN_MARKED
inline constexpr bool are_kept = true;
inline void shut(const void *from, std::size_t bytes) noexcept { __asan_poison_memory_region(from, bytes); }
inline void open(const void *from, std::size_t bytes) noexcept { __asan_unpoison_memory_region(from, bytes); }
/* A copy of bytes that may be shut, which neither the instructions nor memcpy may look at. */
__attribute__((no_sanitize("address"))) inline std::vector<std::uint8_t> copy(const std::vector<std::uint8_t> &from)
{
    std::vector<std::uint8_t> all(from.size());
    const volatile std::uint8_t *const bytes = from.data();
    for (std::size_t i = 0; i < from.size(); i++)
        all.data()[i] = bytes[i];
    return all;
}
#else
inline constexpr bool are_kept = false;
inline void shut(const void *, std::size_t) noexcept {}
inline void open(const void *, std::size_t) noexcept {}
inline std::vector<std::uint8_t> copy(const std::vector<std::uint8_t> &from) { return from; }
#endif
/* The bytes of a block that has come back which hold its link. They stay open: they are the library's own. */
inline constexpr std::size_t link = 4;
} // namespace marks

enum class edition : std::size_t { eight = HESKAVERN_EIGHT, sixteen = HESKAVERN_SIXTEEN };

/* What a constructor of a heap throws: 1, where A, P or the edition is out of range, or 2, where buffers are not of the
   exact lengths. */
class refused : public std::exception {
public:
    explicit refused(std::uint32_t number) noexcept : number_(number) {}
    [[nodiscard]] std::uint32_t number() const noexcept { return number_; }
    [[nodiscard]] const char *what() const noexcept override { return heskavern_say(number_); }

private:
    std::uint32_t number_;
};

/* The buffers of a heap, as they are saved and loaded: all three together. */
struct buffers {
    std::vector<std::uint8_t> memory;
    std::vector<std::uint32_t> books;
    std::vector<std::uint64_t> map;
};
static_assert(__STDCPP_DEFAULT_NEW_ALIGNMENT__ >= 16, "memory is aligned to 16, as blocks of edition sixteen are");

/* A live block, as roll call tells it. */
struct block {
    std::uint32_t offset;
    std::uint32_t size;
};

/* A heap and its buffers, which a call that is not const may write. An answer tells whether the call was refused; only
   what allocates can throw, and says that it does.
   A heap that was moved from has no buffers: it may be destroyed, assigned to and swapped; each call on it that can be
   refused is, with 2, and its A, P and live blocks are 0. A move keeps each block where it is in the machine's memory.
   A copy has blocks of its own, at the same offsets and with the same bytes; pointers in those, as a container has,
   still point to the blocks of the first. */
class heap {
    buffers held_;

    /* No call takes a null pointer, and the start of an empty vector may be one: at length 0 any place will do. */
    template <class T> [[nodiscard]] static T *not_null(T *start) noexcept
    {
        static std::remove_const_t<T> nothing{};
        return start != nullptr ? start : &nothing;
    }

    /* Makes a call with the six arguments that every call begins with, each buffer with its own length, and more. */
    template <class Held, class Call, class... More> static auto lend(Held &held, Call call, More... more) noexcept
    {
        return call(not_null(held.memory.data()), held.memory.size(), not_null(held.books.data()), held.books.size(),
                    not_null(held.map.data()), held.map.size(), more...);
    }

public:
    /* A fresh heap. Throws refused with 1, and what a vector throws. Over no buffers format tests A, P and the edition
       all the same, before the lengths: so nothing is allocated by numbers that are out of range. */
    heap(std::size_t arenas, std::size_t pools, heskavern::edition edition = heskavern::edition::eight)
    {
        const auto format = [&] { return lend(held_, heskavern_format, arenas, pools, std::size_t(edition)).number; };
        if (format() == HESKAVERN_OUT_OF_RANGE)
            throw refused(HESKAVERN_OUT_OF_RANGE);
        held_.memory.resize(HESKAVERN_MEMORY_BYTES(arenas, pools));
        held_.books.resize(HESKAVERN_BOOKS_WORDS(arenas, pools));
        held_.map.resize(HESKAVERN_MAP_WORDS(arenas, pools));
        if (const std::uint32_t number = format(); number != HESKAVERN_DONE)
            throw refused(number);
        mark();
    }

    /* Goes on with a saved heap. Throws refused with 1 or 2. What is in the buffers is not looked at further: audit a
       heap that comes from elsewhere. */
    explicit heap(buffers saved) : held_(std::move(saved))
    {
        const std::uint32_t number = lend(held_, heskavern_view_size, std::size_t{0}).number;
        if (number == HESKAVERN_OUT_OF_RANGE || number == HESKAVERN_NOT_EXACT)
            throw refused(number);
        mark();
    }

    heap(const heap &other) : held_{marks::copy(other.held_.memory), other.held_.books, other.held_.map} { mark(); }
    heap(heap &&other) noexcept = default;
    heap &operator=(const heap &other) { return this == &other ? *this : *this = heap(other); }
    heap &operator=(heap &&other) noexcept
    {
        heap taken = std::move(other);
        std::swap(held_, taken.held_);
        return *this;
    }
    ~heap() { open_all(); }

    /* Hands the buffers over, to be saved, and leaves the heap as one that was moved from. To go on with it, save a
       copy: heskavern::heap(texts).into_buffers(). */
    [[nodiscard]] buffers into_buffers() &&
    {
        open_all();
        return std::move(held_);
    }

    [[nodiscard]] std::size_t arenas() const noexcept { return word(0); }
    [[nodiscard]] std::size_t pools() const noexcept { return word(1); }
    [[nodiscard]] heskavern::edition edition() const noexcept { return heskavern::edition(word(68)); }

    /* Where in the machine's memory an offset is, while its block is out; and the offset of such a place. A place
       outside memory has an offset past its end, at which no block is. */
    [[nodiscard]] std::uint8_t *at(std::size_t offset) noexcept { return held_.memory.data() + offset; }
    [[nodiscard]] std::size_t offset_of(const void *place) const noexcept
    {
        return reinterpret_cast<std::uintptr_t>(place) - reinterpret_cast<std::uintptr_t>(held_.memory.data());
    }
    [[nodiscard]] bool holds(const void *place) const noexcept { return offset_of(place) < held_.memory.size(); }

    /* The calls of heskavern.h. Where a length is 0, its pointer may be null here. */

    [[nodiscard]] heskavern_answer ask(std::size_t size) noexcept
    {
        const heskavern_answer asked = lend(held_, heskavern_ask, size);
        if (asked.number == HESKAVERN_DONE)
            hand_out(asked.value);
        return asked;
    }

    /* The call's own number says that the row was gone through: each request has one of its own. */
    [[nodiscard]] heskavern_answer ask_all(heskavern_request *requests, std::size_t entries) noexcept
    {
        const heskavern_answer asked = lend(held_, heskavern_ask_all, not_null(requests), entries);
        for (std::size_t i = 0; marks::are_kept && asked.number == HESKAVERN_DONE && i < entries; i++)
            if (requests[i].number == HESKAVERN_DONE)
                hand_out(requests[i].offset);
        return asked;
    }

    [[nodiscard]] heskavern_answer give_back(std::size_t offset) noexcept
    {
        const std::size_t size = marked_size(offset);
        const heskavern_answer given = lend(held_, heskavern_give_back, offset);
        if (given.number == HESKAVERN_DONE)
            take_back(offset, size);
        return given;
    }

    /* A half-done one, number 6 with a value, has handed the new block out and not taken the old one back. */
    [[nodiscard]] heskavern_answer resize(std::size_t offset, std::size_t size) noexcept
    {
        const std::size_t before = marked_size(offset);
        const heskavern_answer moved = lend(held_, heskavern_resize, offset, size);
        if (moved.value != 0 && moved.value != offset) {
            hand_out(moved.value);
            if (moved.number == HESKAVERN_DONE)
                take_back(offset, before);
        }
        return moved;
    }

    [[nodiscard]] heskavern_answer write(std::size_t offset, const void *text, std::size_t text_bytes) noexcept
    {
        return lend(held_, heskavern_write, offset, not_null(static_cast<const char *>(text)), text_bytes);
    }
    [[nodiscard]] heskavern_answer write(std::size_t offset, std::string_view text) noexcept
    {
        return write(offset, text.data(), text.size());
    }

    [[nodiscard]] heskavern_viewed view(std::size_t offset) const noexcept
    {
        const heskavern_answer sized = lend(held_, heskavern_view_size, offset);
        if (sized.number != HESKAVERN_DONE)
            return {sized.number, not_null(held_.memory.data()), 0};
        return {sized.number, held_.memory.data() + offset, sized.value};
    }

    [[nodiscard]] heskavern_part stand_in(std::size_t offset, const void *phrase, std::size_t bytes) const noexcept
    {
        return lend(held_, heskavern_stand_in, offset, not_null(static_cast<const char *>(phrase)), bytes);
    }
    [[nodiscard]] std::string_view stand_in(std::size_t offset, std::string_view phrase) const noexcept
    {
        const heskavern_part part = stand_in(offset, phrase.data(), phrase.size());
        return {reinterpret_cast<const char *>(part.bytes), part.size};
    }

    [[nodiscard]] heskavern_answer roll_call(std::uint32_t *roll, std::size_t roll_words) const noexcept
    {
        return lend(held_, heskavern_roll_call, not_null(roll), roll_words);
    }

    /* Every live block, by rising offset. Allocates; so does live, which counts them. There is room for what the pools
       of memory can hold, whatever A and P the books say. */
    [[nodiscard]] std::vector<block> roll_call() const
    {
        std::vector<std::uint32_t> words(HESKAVERN_ROLL_WORDS(1, held_.memory.size() / 4096));
        std::vector<block> roll(roll_call(words.data(), words.size()).value);
        for (std::size_t i = 0; i < roll.size(); i++)
            roll[i] = {words[2 * i], words[2 * i + 1]};
        return roll;
    }
    [[nodiscard]] std::size_t live() const { return roll_call().size(); }

    [[nodiscard]] std::uint32_t audit() const noexcept { return lend(held_, heskavern_audit); }

    /* Compares this heap, the first, with a second one: yesterday.compare(today, ..). */
    [[nodiscard]] heskavern_answer compare(const heap &second, std::uint32_t *list, std::size_t list_words,
                                           std::int32_t *changes, std::size_t changes_count) const noexcept
    {
        return lend(held_, [&](auto... first) noexcept {
            return lend(second.held_, [&](auto... other) noexcept {
                return heskavern_compare(
                    first..., other..., not_null(list), list_words, not_null(changes), changes_count);
            });
        });
    }

private:
    [[nodiscard]] std::uint32_t word(std::size_t place) const noexcept
    {
        return place < held_.books.size() ? held_.books[place] : 0;
    }

    /* Opens all of memory, for who takes it, or gets it next from the machine. */
    void open_all() const noexcept { marks::open(held_.memory.data(), held_.memory.size()); }

    /* Marks memory that is all open: shuts it but for the live blocks, which come by rising offset. */
    void mark()
    {
        if constexpr (marks::are_kept) {
            std::size_t from = 0;
            for (const block &out : roll_call()) {
                marks::shut(held_.memory.data() + from, out.offset - from);
                from = std::size_t{out.offset} + out.size;
            }
            marks::shut(held_.memory.data() + from, held_.memory.size() - from);
        }
    }

    /* The size of a live block where there are marks to be kept, and otherwise 0, which nobody asks for. */
    [[nodiscard]] std::size_t marked_size(std::size_t offset) const noexcept
    {
        return marks::are_kept ? view(offset).size : 0;
    }
    void hand_out(std::size_t offset) noexcept { marks::open(at(offset), marked_size(offset)); }
    void take_back(std::size_t offset, std::size_t size) noexcept
    {
        marks::shut(at(offset) + marks::link, size - marks::link);
    }
};

/* A call of a resource that was refused: "ask", or "give back", of a place; and the bytes that its caller named. */
struct refusal {
    const char *call;
    std::uint32_t number;
    const void *place;
    std::size_t bytes;
};

/* What a resource does with a refusal unless it is told something else: it says it in words, and ends the program. */
[[noreturn]] inline void say_and_abort(const refusal &told) noexcept
{
    std::fprintf(stderr, "heskavern: %s refused with %u: %s\n", told.call, unsigned{told.number},
                 heskavern_say(told.number));
    std::abort();
}

/* Blocks of a heap for containers. The heap is lent: it outlives the resource, and is not moved or assigned to while
   one of the resource's blocks is out.
   What a heap does not have, more than HESKAVERN_LARGEST bytes or an alignment above 16, is asked of the upstream; by
   default, and by null, there is none, and it is std::bad_alloc. So is a heap with no room, with an upstream too.
   A handler is told of each other refusal: of an ask, which is then std::bad_alloc, as where the books are damaged; and
   of a give-back, which has then changed nothing, as where the block is not out. Most give-backs are destructors', and
   a handler that throws out of one ends the program. */
class resource : public std::pmr::memory_resource {
public:
    using handler = std::function<void(const refusal &)>;

    explicit resource(heap &lent, std::pmr::memory_resource *upstream = std::pmr::null_memory_resource(),
                      handler handle = {})
        : heap_(lent), upstream_(upstream != nullptr ? upstream : std::pmr::null_memory_resource()),
          handle_(handle ? std::move(handle) : handler(say_and_abort))
    {
    }
    resource(const resource &) = delete;
    resource &operator=(const resource &) = delete;

private:
    heap &heap_;
    std::pmr::memory_resource *upstream_;
    handler handle_;

    static bool goes_upstream(std::size_t bytes, std::size_t alignment) noexcept
    {
        return bytes > HESKAVERN_LARGEST || alignment > 16;
    }

    /* Blocks begin 48 bytes into a pool: so, in edition eight too, those are aligned to 16 whose size is a multiple of
       16. And 0 bytes are asked for as 1, since each place that is handed out is another. */
    void *do_allocate(std::size_t bytes, std::size_t alignment) override
    {
        if (goes_upstream(bytes, alignment))
            return upstream_->allocate(bytes, alignment);
        std::size_t size = bytes == 0 ? 1 : bytes;
        if (alignment == 16)
            size = (size + 15) / 16 * 16;
        const heskavern_answer asked = heap_.ask(size);
        if (asked.number == HESKAVERN_DONE)
            return heap_.at(asked.value);
        if (asked.number != HESKAVERN_NO_ROOM)
            handle_({"ask", asked.number, nullptr, bytes});
        throw std::bad_alloc();
    }

    /* The address decides. What is not of the heap, and nothing that an upstream has handed out, is nobody's block: its
       offset is past the end of memory, and is refused with 5. */
    void do_deallocate(void *place, std::size_t bytes, std::size_t alignment) override
    {
        const bool is_upstreams = upstream_ != std::pmr::null_memory_resource() && goes_upstream(bytes, alignment);
        if (!heap_.holds(place) && is_upstreams) {
            upstream_->deallocate(place, bytes, alignment);
            return;
        }
        const std::uint32_t number = heap_.give_back(heap_.offset_of(place)).number;
        if (number != HESKAVERN_DONE)
            handle_({"give back", number, place, bytes});
    }

    bool do_is_equal(const std::pmr::memory_resource &other) const noexcept override { return this == &other; }
};

} // namespace HESKAVERN_MARKING
} // namespace heskavern

#endif
