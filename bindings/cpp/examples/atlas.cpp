/* Packs a few sprites into two sheets and prints where they stand.

   c++ -std=c++17 -Ibuild bindings/cpp/examples/atlas.cpp build/librectangle_pack.a -o atlas && ./atlas */
#include <cstdio>
#include <vector>

#include "rectangle_pack.hpp"

namespace rp = rectangle_pack;

int main()
{
    static const char *const names[] = {"hat", "shoe", "tree", "sun", "moon"};
    const rp::Bin sheets[] = {rp::bin(64, 64), rp::bin(128, 128)};
    /* The hat and the shoe are drawn together, so they are to be on one sheet. */
    const std::vector<rp::Box> sprites = {rp::box(10, 20, 1, 1), rp::box(5, 50, 1, 1), rp::box(60, 60), rp::box(32, 32),
                                          rp::box(16, 16)};
    try {
        const char *const *name = names;
        for (const rp::Placement &it : rp::pack(sheets, sprites))
            std::printf("%s on sheet %u at %u %u\n", *name++, it.bin, it.x, it.y);
    } catch (const rp::Error &error) {
        std::fprintf(stderr, "not packed: %s\n", error.what());
        return 1;
    }
    return 0;
}
