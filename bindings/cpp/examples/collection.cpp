/* Loads two vans by the best heuristic: paint and food may not be in one van, and the tools go with both.

   c++ -std=c++17 -Ibuild bindings/cpp/examples/collection.cpp build/librectangle_pack.a -o collection && ./collection */
#include <cstdio>

#include "rectangle_pack.hpp"

namespace rp = rectangle_pack;

/* The groups. */
enum : std::uint32_t { food = 1, paint = 2 };

static const char *const heuristics[] = {"volume",   "height",       "width",         "depth",
                                         "side-sum", "longest-side", "shortest-side", "side-area"};

int main()
{
    static const char *const names[] = {"bread", "apples", "paint", "tools", "tools"};
    const rp::Bin vans[] = {rp::bin(10, 10, 10), rp::bin(12, 10, 10)};
    const rp::Box crates[] = {rp::box(6, 5, 5, food), rp::box(5, 5, 5, food), rp::box(4, 5, 9, paint), rp::box(2, 3, 3, food)};
    const rp::Member more_tools[] = {{3, paint}};
    const rp::Exclusion apart[] = {{food, paint}};
    try {
        const rp::Packed<rp::Placement> load = rp::pack(vans, rp::Collection{crates, more_tools, apart}, rp::Heuristic::best);
        const char *const *name = names;
        for (const rp::Placement &it : load.placements)
            std::printf("%s in van %u at %u %u %u\n", *name++, it.bin, it.x, it.y, it.z);
        std::printf("by %s\n", heuristics[static_cast<std::uint32_t>(load.chosen)]);
    } catch (const rp::Error &error) {
        std::fprintf(stderr, "not loaded: %s\n", error.what());
        return 1;
    }
    return 0;
}
