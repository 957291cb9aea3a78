/* Cuts 20 equal shelves from few sheets, by a search that shows how far it is: first as they stand, then turned too.

   c++ -std=c++17 -Ibuild bindings/cpp/examples/panels.cpp build/librectangle_pack.a -o panels && ./panels */
#include <cstdio>
#include <vector>

#include "rectangle_pack.hpp"

namespace rp = rectangle_pack;

/* In tenths of a millimetre. A saw takes 3.2 mm: each shelf is larger by that, and so is what the trim of 10 mm leaves of a sheet. */
static constexpr std::uint32_t saw = 32;

/* Shelves behind the end of turns may not be turned. */
static void cut(const std::vector<rp::Bin> &sheets, const rp::Collection &shelves, const std::vector<std::uint32_t> &turns)
{
    rp::SearchOptions options;
    options.turns = turns;
    const auto found = rp::search(sheets, shelves, options, [](const rp::Progress &now) {
        std::fprintf(stderr, "\r%llu tries, %zu sheets ", static_cast<unsigned long long>(now.tries), now.bins);
        return true;
    });
    std::fprintf(stderr, "\n");
    std::printf("%s: %zu sheets%s\n", turns.empty() ? "as they stand" : "turned", found.used,
                found.is_optimal ? ", and no packer needs fewer" : "");
}

int main()
{
    const std::vector<rp::Bin> sheets(20, rp::bin(28000 - 2 * 100 + saw, 20700 - 2 * 100 + saw));
    const std::vector<rp::Box> shelves(20, rp::box(8000 + saw, 6000 + saw));
    try {
        cut(sheets, rp::Collection{shelves}, {});
        cut(sheets, rp::Collection{shelves}, std::vector<std::uint32_t>(shelves.size(), 4));
    } catch (const rp::Error &error) {
        std::fprintf(stderr, "not packed: %s\n", error.what());
        return 1;
    }
    return 0;
}
