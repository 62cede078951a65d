/* Programs that do one thing, by name: `twice` gives a block back twice to a resource with no handler of its own, which
   ends the program; each other one says "now", reads what is not its own, and ends with 0 unless AddressSanitizer
   reports that. What it reads before is its own. */
#include <functional>
#include <map>
#include <string>
#include "facts.hpp"

using heskavern::heap;

static void read(const void *place) { (void)*static_cast<const volatile std::uint8_t *>(place); }
static void now_read(const void *place)
{
    std::puts("now");
    std::fflush(stdout);
    read(place);
}

static void twice()
{
    heap texts(1, 2);
    heskavern::resource from(texts);
    void *owed = from.allocate(4), *paid = from.allocate(4);
    from.deallocate(owed, 4);
    from.deallocate(owed, 4);
    from.deallocate(paid, 4);
}

/* A heap with a text that was given back, and where it was. */
struct stale {
    heap texts{1, 2};
    std::uint32_t owed = value_of(texts.ask(12)), paid = value_of(texts.ask(12));
    const std::uint8_t *bytes = texts.view(owed).bytes;

    stale()
    {
        value_of(texts.write(owed, "owed by her"));
        read(bytes + 4);
        value_of(texts.give_back(owed));
    }
};

static void given_back() { now_read(stale().bytes + 4); }

static void kept_text()
{
    heap texts(1, 2);
    heskavern::resource from(texts);
    const char *words = nullptr;
    {
        const std::pmr::string text("a text that is longer than a string holds in itself", &from);
        words = text.data();
        read(words + 4);
    }
    now_read(words + 4);
}

static void never_out()
{
    heap texts(1, 2);
    now_read(texts.at(value_of(texts.ask(8)) + 8));
}

static void moved_away()
{
    stale one;
    const std::uint8_t *paid = one.texts.view(one.paid).bytes;
    EXPECT(value_of(one.texts.resize(one.paid, 16)) == one.paid);
    read(paid + 4);
    EXPECT(value_of(one.texts.resize(one.paid, 100)) != one.paid);
    now_read(paid + 4);
}

static void copied()
{
    stale one;
    heap copy = one.texts;
    read(copy.at(one.paid));
    now_read(copy.at(one.owed));
}

static void copied_from()
{
    stale one;
    const heap copy = one.texts;
    read(one.texts.at(one.paid));
    now_read(one.bytes + 4);
}

static void loaded()
{
    stale one;
    heskavern::buffers saved = std::move(one.texts).into_buffers();
    read(one.bytes + 4); // between the two it is nobody's heap
    heap again(std::move(saved));
    read(again.at(one.paid));
    now_read(again.at(one.owed));
}

/* Behind the end of a block. */
static void past_its_end()
{
    stale one;
    read(one.texts.at(one.paid) + 15);
    now_read(one.texts.at(one.paid) + 16);
}

int main(int count, char **words)
{
    const std::map<std::string_view, std::function<void()>> programs = {
        {"twice", twice}, {"given_back", given_back}, {"kept_text", kept_text}, {"never_out", never_out},
        {"moved_away", moved_away}, {"copied", copied}, {"copied_from", copied_from}, {"loaded", loaded},
        {"past_its_end", past_its_end}};
    if (count != 2 || programs.count(words[1]) == 0)
        return 2;
    programs.at(words[1])();
    return 0;
}
