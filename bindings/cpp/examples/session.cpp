/* An atlas that is filled while a program runs: sprites come to one sheet and go from it.

   c++ -std=c++17 -Ibuild bindings/cpp/examples/session.cpp build/librectangle_pack.a -o session && ./session */
#include <cstdio>
#include <vector>

#include "rectangle_pack.hpp"

namespace rp = rectangle_pack;

static const rp::BinId sheet{7};

static void print_place(const char *name, const rp::Outstanding &it)
{
    std::printf("%s is placement %llu, on sheet %u at %u %u\n", name, static_cast<unsigned long long>(it.number),
                static_cast<unsigned>(it.bin), it.x, it.y);
}

/* The sheet is small, so each volume is in the low part. */
static void print_stats(const rp::Session &session)
{
    const rp::Stats stats = session.stats(sheet);
    std::printf("%llu cells: %llu free (sections: %zu), %llu placed (placements: %zu)\n",
                static_cast<unsigned long long>(stats.bin_volume.low), static_cast<unsigned long long>(stats.free_volume.low),
                stats.free_sections, static_cast<unsigned long long>(stats.placed_volume.low), stats.placements);
}

static void fill(rp::Session &session)
{
    static const char *const names[] = {"map", "hat", "shoe"};
    /* The hat and the shoe are drawn together, so they are to be on one sheet. */
    const rp::Box sprites[] = {rp::box(64, 40), rp::box(10, 24, 1, 1), rp::box(20, 24, 1, 1)};
    const std::vector<rp::Outstanding> places = session.pack(sprites);
    for (std::size_t i = 0; i < places.size(); i++)
        print_place(names[i], places[i]);
    print_stats(session);

    session.release(places[2].number);
    std::printf("the shoe is released\n");
    print_stats(session);
}

int main()
{
    try {
        rp::Session session;
        session.add_bin(sheet, rp::bin(64, 64));
        fill(session);
        /* What the shoe leaves and what was free beside it become one section. The banner needs both. */
        session.coalesce_all(sheet);
        const rp::Box banner[] = {rp::box(50, 20)};
        print_place("banner", session.pack(banner).front());
        print_stats(session);
    } catch (const rp::Error &error) {
        std::fprintf(stderr, "refused: %s\n", error.what());
        return 1;
    }
    return 0;
}
