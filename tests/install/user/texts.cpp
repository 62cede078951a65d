// A user's program in C++: texts of the standard library's own types, in blocks of an installed Heskavern.
#include <heskavern.hpp>
#include <cstdio>
#include <string>
#include <vector>

int main()
{
    heskavern::heap heap(1, 16);
    heskavern::resource resource(heap);
    std::pmr::vector<std::pmr::string> texts(&resource);
    texts.emplace_back("owed, and longer than a string keeps within itself");
    texts.emplace_back("paid, and longer than a string keeps within itself");
    std::printf("%s: %zu blocks are live\n", HESKAVERN_VERSION, static_cast<std::size_t>(heap.live()));
    return 0;
}
