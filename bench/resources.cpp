/* How long a statement of std::pmr texts takes by heskavern::resource, and by the resources of the standard library
   that a user would pick instead: bench/resources ROUNDS. A statement is a std::pmr::list of 300 std::pmr::strings of
   16 to 120 letters, which is built and destroyed: two blocks for each text. A round visits each resource, in an order
   that is drawn for it, and times ten statements; a ratio is the median of 'the heap's time / its time in the same
   round'. */
#include <algorithm>
#include <array>
#include <ctime>
#include <list>
#include <random>
#include <string>
#include "heskavern.hpp"

namespace {

constexpr int texts = 300, statements = 10;

double now()
{
    timespec time;
    clock_gettime(CLOCK_THREAD_CPUTIME_ID, &time);
    return double(time.tv_sec) * 1e9 + double(time.tv_nsec);
}

/* Builds and destroys a statement, and answers how many letters it had, so that nothing is left out. */
std::size_t statement(std::pmr::memory_resource &from, const std::vector<std::size_t> &lengths)
{
    std::size_t letters = 0;
    std::pmr::list<std::pmr::string> lines(&from);
    for (const std::size_t length : lengths)
        lines.emplace_back(length, 'a');
    for (const std::pmr::string &line : lines)
        letters += line.size();
    return letters;
}

double nanoseconds_a_text(std::pmr::memory_resource &from, const std::vector<std::size_t> &lengths)
{
    const std::size_t letters = statement(from, lengths); // untimed
    std::size_t seen = 0;
    const double begun = now();
    for (int i = 0; i < statements; i++)
        seen += statement(from, lengths);
    const double ended = now();
    if (seen != letters * statements)
        std::abort();
    return (ended - begun) / (texts * statements);
}

double median(std::vector<double> all)
{
    std::nth_element(all.begin(), all.begin() + std::ptrdiff_t(all.size() / 2), all.end());
    return all[all.size() / 2];
}

} // namespace

int main(int count, char **words)
{
    const int rounds = count > 1 ? std::atoi(words[1]) : 400;
    if (rounds < 1) {
        std::fputs("usage: bench/resources [ROUNDS]\n", stderr);
        return 2;
    }
    heskavern::heap heap(1, 64);
    heskavern::resource blocks(heap);
    std::pmr::unsynchronized_pool_resource pools;
    const std::array<std::pmr::memory_resource *, 3> all = {&blocks, &pools, std::pmr::new_delete_resource()};
    const std::array<const char *, 3> names = {
        "`heskavern::resource`", "`std::pmr::unsynchronized_pool_resource`", "`std::pmr::new_delete_resource`"};

    std::mt19937 random(2026);
    std::array<std::vector<double>, 3> times, ratios;
    std::array<std::size_t, 3> order = {0, 1, 2};
    for (int round = 0; round < rounds; round++) {
        std::vector<std::size_t> lengths(texts);
        for (std::size_t &length : lengths)
            length = 16 + random() % 105;
        std::shuffle(order.begin(), order.end(), random);
        for (const std::size_t i : order)
            times[i].push_back(nanoseconds_a_text(*all[i], lengths));
        for (std::size_t i = 0; i < all.size(); i++)
            ratios[i].push_back(times[0].back() / times[i].back());
    }
    if (heap.live() != 0 || heap.audit() != HESKAVERN_AUDIT_YES)
        return 1;
    std::puts("| a list of texts: ns a text | median | heap / it |\n|---|---:|---:|");
    for (std::size_t i = 0; i < all.size(); i++)
        std::printf("| %s | %.1f | %.2f |\n", names[i], median(times[i]), median(ratios[i]));
    return 0;
}
