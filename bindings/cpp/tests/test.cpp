/* Calls all that rectangle_pack.hpp has, and meets each refusal that can be met.

   c++ -std=c++17 -Ibuild bindings/cpp/tests/test.cpp build/librectangle_pack.a -Wl,--wrap=malloc,--wrap=realloc -o test && ./test */
#include <array>
#include <cstdio>
#include <cstdlib>
#include <cstring>
#include <new>
#include <optional>
#include <type_traits>
#include <utility>
#include <vector>

#include "checks.hpp"
#if __cplusplus >= 202002L
#include <span>
#endif

/* Whether requests for memory by C++ are refused. */
static bool refusing_new = false;

void *operator new(std::size_t size)
{
    void *block = refusing_new ? nullptr : __real_malloc(size + 1);
    if (!block)
        throw std::bad_alloc();
    return block;
}

void operator delete(void *block) noexcept
{
    std::free(block);
}

void operator delete(void *block, std::size_t) noexcept
{
    std::free(block);
}

static bool equal(const rp::Section &one, const rp::Section &other)
{
    return std::memcmp(&one, &other, sizeof one) == 0;
}

static bool is_at(const rp::Outstanding &it, std::uint64_t number, std::uint32_t bin, std::uint32_t x, std::uint32_t y)
{
    return it.number == rp::PlacementNumber{number} && it.bin == BinId{bin} && it.x == x && it.y == y && it.z == 0;
}

static void test_texts()
{
    for (std::uint32_t one = 0; one <= RP_UNKNOWN_OPTIONS; one++) {
        for (std::uint32_t other = 0; other < one; other++)
            check(std::strcmp(rp::text(Status{one}), rp::text(Status{other})) != 0, "two statuses have one text");
        check(std::strcmp(rp::text(Status{one}), rp::text(Status{99})) != 0, "a status has no text");
        check(std::strcmp(rp::text(Status{one}), rp::text(Status::moved_from)) != 0, "a status of the header has another text");
    }
}

static void test_views()
{
    const rp::Box boxes[] = {rp::box(1, 2), rp::box(3, 4, 5, 6)};
    const rp::View<rp::Box> view(boxes);
    check(view.size() == 2 && view.data() == boxes && view.begin() == boxes && view.end() == boxes + 2, "a view is another");
    check(boxes[0].depth == 1 && boxes[0].group == 0 && boxes[1].depth == 5 && boxes[1].group == 6, "a box is another");
    const rp::View<rp::Box> none;
    check(none.size() == 0 && none.data() != nullptr && none.begin() == none.end(), "a view of nothing has entries");
    const std::array<rp::Bin, 1> bins = {rp::bin(7, 8)};
    check(rp::View<rp::Bin>(bins).data() == bins.data() && bins[0].depth == 1, "a view of an array is another");
}

static void test_lists()
{
    const rp::Bin bins[] = {rp::bin(64, 64), rp::bin(128, 128)};
    const std::vector<rp::Box> boxes = {rp::box(10, 20, 1, 1), rp::box(5, 50, 1, 1), rp::box(60, 60)};
    const std::vector<rp::Placement> places = rp::pack(bins, boxes);
    check(places.size() == 3 && places[0].bin == places[1].bin, "a group is in two bins");
    check(rp::pack(bins, std::vector<rp::Box>()).empty(), "no boxes have placements");
    check(rp::pack({}, rp::View<rp::Box>()).empty(), "no boxes in no bins have placements");
    must_be(Status::not_enough_space, [&] { rp::pack({}, boxes); }, "boxes go into no bins");
    const rp::View<rp::Box> endless(boxes.data(), std::size_t{1} << 32);
    must_be(Status::bad_lengths, [&] { rp::pack(bins, endless); }, "2^32 boxes are packed");
#if __cplusplus >= 202002L
    check(rp::pack(std::span(bins), std::span(boxes)).size() == 3, "spans are no views");
#endif
}

static void test_collections()
{
    const rp::Bin bins[] = {rp::bin(10, 10), rp::bin(10, 10)};
    const rp::Box boxes[] = {rp::box(2, 2, 1, 1), rp::box(3, 3, 1, 2)};
    const rp::Member members[] = {{0, 2}};
    const rp::Exclusion exclusions[] = {{1, 2}};
    const rp::Packed<rp::Placement> packed = rp::pack(bins, rp::Collection{boxes, members, exclusions});
    check(packed.chosen == rp::Heuristic::volume && packed.placements.size() == 3, "a member has no placement");
    check(packed.placements[0].bin != packed.placements[1].bin, "excluded groups share a bin");
    check(packed.placements[1].bin == packed.placements[2].bin, "a member is not in the bin of its group");

    const rp::Packed<rp::Placement> best = rp::pack(bins, rp::Collection{boxes}, rp::Heuristic::best);
    check(best.chosen != rp::Heuristic::best, "the best heuristic is not named");
    const auto by = [&](const rp::Collection &it, std::uint32_t heuristic) {
        return refusal([&] { rp::pack(bins, it, rp::Heuristic{heuristic}); });
    };
    for (std::uint32_t number = 0; number <= RP_SIDE_AREA; number++)
        check(by({boxes}, number) == Status::done, "a heuristic packs nothing");
    check(by({boxes}, 8) == Status::unknown_heuristic, "there is a heuristic 8");
    const rp::Member bad_members[] = {{2, 1}};
    check(by({boxes, bad_members}, 0) == Status::unknown_box, "a member names no box");
    const rp::Exclusion bad_exclusions[] = {{1, 1}};
    check(by({boxes, {}, bad_exclusions}, 0) == Status::equal_groups, "a group is excluded with itself");
    const rp::View<rp::Member> endless(members, std::size_t{1} << 32);
    check(by({boxes, endless}, 0) == Status::bad_lengths, "there are 2^32 members");
}

static void test_session()
{
    rp::Session session;
    check(session.bins().empty() && session.outstanding().empty(), "a new session is not empty");
    check(session.next_number() == rp::PlacementNumber{0}, "numbers do not begin with 0");
    session.add_bin(BinId{7}, rp::bin(10, 10));
    session.add_bin(BinId{3}, rp::bin(20, 20));
    check(session.bins() == std::vector<BinId>{BinId{3}, BinId{7}}, "the ids are others");
    must_be(Status::duplicate_bin, [&] { session.add_bin(BinId{7}, rp::bin(1, 1)); }, "an id is used twice");

    const rp::Box boxes[] = {rp::box(4, 10)};
    const std::vector<rp::Outstanding> places = session.pack(boxes);
    check(places.size() == 1 && is_at(places[0], 0, 7, 0, 0), "a box is elsewhere");
    const std::vector<rp::Standing> standing = session.outstanding();
    check(standing.size() == 1 && standing[0].number == places[0].number && standing[0].index == 0, "a standing is another");
    check(standing[0].bin == BinId{7} && equal(standing[0].section, {0, 0, 0, 4, 10, 1}), "a box stands elsewhere");

    const rp::Stats stats = session.stats(BinId{7});
    check(stats.bin_volume.low == 100 && stats.free_volume.low == 60 && stats.placed_volume.low == 40, "volumes are others");
    check(stats.free_sections == 1 && stats.placements == 1, "counts are others");
    const std::optional<std::vector<rp::CutStep>> plan = session.cut_plan(BinId{7});
    check(plan && plan->size() == 3 && (*plan)[0].axis == rp::Axis::x && (*plan)[0].place == 4, "a plan is another");
    check((*plan)[1].axis == rp::Axis::leaf && (*plan)[1].place == 0, "a leaf is another");

    session.release(places[0].number);
    check(session.outstanding().empty() && session.free_sections(BinId{7}).size() == 2, "nothing is released");
    check(equal(session.free_sections(BinId{7}).back(), {0, 0, 0, 4, 10, 1}), "the newest section is not the last");
    check(!session.was_coalesced(BinId{7}), "a bin was coalesced");
    session.coalesce(BinId{7}, 1, 0, 2);
    check(session.was_coalesced(BinId{7}) && session.free_sections(BinId{7}).size() == 1, "sections are not joined");
    session.coalesce_all(BinId{3});
    check(session.was_coalesced(BinId{3}), "a bin was not coalesced");
    check(session.next_number() == rp::PlacementNumber{1}, "a number is given twice");
}

static void test_upkeep_of_a_session()
{
    rp::Session session;
    const BinId id{7}, none{9};
    session.add_bin(id, rp::bin(4, 10));
    session.grow_bin(id, rp::Axis::x, 6);
    check(equal(session.free_sections(id).back(), {4, 0, 0, 6, 10, 1}), "what is new is another section");
    must_be(Status::unknown_axis, [&] { session.grow_bin(none, rp::Axis::leaf, 0); }, "a bin grows on no axis");
    must_be(Status::unknown_bin, [&] { session.grow_bin(none, rp::Axis::y, UINT32_MAX); }, "grow_bin knows a bin");
    must_be(Status::too_large, [&] { session.grow_bin(id, rp::Axis::y, UINT32_MAX - 9); }, "a side has 2^32 cells");

    const rp::Section knot{5, 3, 0, 2, 2, 1};
    check(session.place_at(id, knot) == rp::PlacementNumber{0}, "a number is another");
    const std::vector<rp::Standing> standing = session.outstanding();
    check(standing.size() == 1 && standing[0].index == 0 && equal(standing[0].section, knot), "a knot stands elsewhere");
    must_be(Status::unknown_bin, [&] { session.place_at(none, knot); }, "place_at knows a bin");
    must_be(Status::not_free, [&] { session.place_at(id, knot); }, "a box stands on another");

    must_be(Status::bin_in_use, [&] { session.remove_bin(id); }, "a bin is taken out under its box");
    session.coalesce_all(id);
    session.clear_bin(id);
    check(session.outstanding().empty() && session.free_sections(id).size() == 1, "a bin is not cleared");
    check(!session.was_coalesced(id) && session.next_number() == rp::PlacementNumber{1}, "a bin is not cleared as it should");
    session.remove_bin(id);
    check(session.bins().empty(), "a bin is not taken out");
    must_be(Status::unknown_bin, [&] { session.clear_bin(id); }, "clear_bin knows a bin");
    must_be(Status::unknown_bin, [&] { session.remove_bin(id); }, "remove_bin knows a bin");
}

static void test_boxes_that_fit_best()
{
    rp::Session session;
    const BinId large{3}, small{7}, none{9};
    session.add_bin(large, rp::bin(20, 20));
    session.add_bin(small, rp::bin(10, 8));
    const rp::Outstanding shelf = session.place_best(rp::box(9, 5, 1, 4));
    check(shelf.bin == small && shelf.number == rp::PlacementNumber{0}, "a box goes where it fits worse");
    check(shelf.x == 0 && shelf.y == 0 && shelf.z == 0, "a box is elsewhere");
    const rp::Outstanding wall = session.place_best(large, rp::box(9, 5), rp::Heuristic::height);
    check(wall.bin == large && wall.number == rp::PlacementNumber{1}, "a box is not in its bin");
    const std::vector<rp::Standing> standing = session.outstanding();
    check(standing.size() == 2 && standing[1].index == 0 && equal(standing[1].section, {0, 0, 0, 9, 5, 1}), "a box stands elsewhere");
    const std::vector<rp::Standing> in_large = session.outstanding_in(large);
    check(in_large.size() == 1 && in_large[0].number == wall.number && equal(in_large[0].section, standing[1].section),
          "another box stands in a bin");
    session.add_bin(none, rp::bin(1, 1));
    check(session.outstanding_in(none).empty(), "a box stands in an empty bin");
    session.remove_bin(none);
    must_be(Status::unknown_heuristic, [&] { session.place_best(none, rp::box(1, 1), rp::Heuristic::best); }, "one box has a best");
    must_be(Status::unknown_heuristic, [&] { session.place_best(rp::box(1, 1), rp::Heuristic{8}); }, "there is a heuristic 8");
    must_be(Status::unknown_bin, [&] { session.place_best(none, rp::box(1, 1)); }, "place_best knows a bin");
    must_be(Status::not_enough_space, [&] { session.place_best(small, rp::box(9, 5)); }, "two boxes are in one place");
    must_be(Status::not_enough_space, [&] { session.place_best(rp::box(21, 1)); }, "a box is too large");

    const std::vector<rp::PlacementNumber> twice{shelf.number, wall.number, shelf.number};
    must_be(Status::unknown_placement, [&] { session.release_all(twice); }, "a number is released twice");
    check(session.outstanding().size() == 2, "a refusal releases a box");
    session.release_all({});
    const rp::PlacementNumber both[] = {wall.number, shelf.number};
    session.release_all(both);
    check(session.outstanding().empty(), "boxes are not released");
    must_be(Status::unknown_placement, [&] { session.release_all(both); }, "boxes are released twice");
}

static void test_bins_that_are_cut_anew()
{
    rp::Session session;
    const BinId id{7};
    session.add_bin(id, rp::bin(10, 10));
    session.place_at(id, {0, 0, 0, 4, 3, 1});
    session.release(session.place_at(id, {4, 0, 0, 3, 10, 1}));
    check(session.free_sections(id).size() > 2, "nothing is left to be cut anew");
    session.recut(id);
    const std::vector<rp::Section> free = session.free_sections(id);
    check(free.size() == 2 && equal(free[0], {0, 3, 0, 10, 7, 1}), "the thickest strip is not the first");
    check(equal(free[1], {4, 0, 0, 6, 3, 1}) && !session.was_coalesced(id), "what is left is not one section");
    session.clear_bin(id);
    must_be(Status::unknown_bin, [&] { session.recut(BinId{9}); }, "recut knows a bin");
}

static void test_session_collections()
{
    rp::Session session;
    session.add_bin(BinId{0}, rp::bin(10, 10));
    session.add_bin(BinId{1}, rp::bin(10, 10));
    const rp::Box boxes[] = {rp::box(2, 2, 1, 1), rp::box(3, 3, 1, 2)};
    const rp::Member members[] = {{0, 2}};
    const rp::Exclusion exclusions[] = {{1, 2}};
    const rp::Packed<rp::Outstanding> packed = session.pack({boxes, members, exclusions}, rp::Heuristic::best);
    check(packed.placements.size() == 3 && packed.chosen != rp::Heuristic::best, "a member has no placement");
    check(packed.placements[0].bin != packed.placements[1].bin, "excluded groups share a bin");
    check(session.outstanding().size() == 3, "a member is not outstanding");
}

/* By volume: two boxes of one group, that do not go into one bin of 10 x 10 together; a box as high as it; a box of group 2, beside
   that; and two of group 3, which is excluded with group 2, one of them a member. */
static const rp::Box drawers[] = {rp::box(6, 10, 1, 1), rp::box(6, 10, 1, 1), rp::box(4, 10), rp::box(2, 2, 1, 2), rp::box(1, 1, 1, 3)};
static const rp::Member drawer_members[] = {{4, 3}};
static const rp::Exclusion drawers_apart[] = {{3, 2}};

/* Two of the six are placed, and the others are left. */
template <class Place> static bool are_two_placed(const rp::Fitted<Place> &fitted)
{
    const std::vector<std::optional<Place>> &at = fitted.placements;
    return fitted.left == 4 && at.size() == 6 && !at[0] && !at[1] && at[2] && at[3] && !at[4] && !at[5];
}

/* Three boxes that fit into a sheet of 4 x 4 by their heights; by their volumes the first is left. */
static const rp::Box by_heights[] = {rp::box(1, 3), rp::box(3, 2), rp::box(3, 1)};

static void test_what_fits()
{
    const rp::Bin bins[] = {rp::bin(10, 10)};
    const rp::Collection all{drawers, drawer_members, drawers_apart};
    const rp::Fitted<rp::Placement> fitted = rp::fit(bins, all);
    check(are_two_placed(fitted) && fitted.chosen == rp::Heuristic::volume, "other boxes are left");
    const rp::Placement &high = *fitted.placements[2], &beside = *fitted.placements[3];
    check(high.bin == 0 && high.x == 0 && high.y == 0 && high.z == 0, "a box that fits is elsewhere");
    check(beside.bin == 0 && beside.x == 4 && beside.y == 0 && beside.z == 0, "a box beside it is elsewhere");
    check(rp::fit({}, all, rp::Heuristic::best).left == 6, "a box fits into no bins");
    check(rp::fit(bins, rp::View<rp::Box>()).placements.empty(), "no boxes have placements");

    const rp::Bin sheet[] = {rp::bin(4, 4)};
    const rp::Fitted<rp::Placement> by_volume = rp::fit(sheet, by_heights);
    check(by_volume.left == 1 && !by_volume.placements[0] && by_volume.placements[2]->y == 2, "by volumes another box is left");
    const rp::Fitted<rp::Placement> best = rp::fit(sheet, rp::Collection{by_heights}, rp::Heuristic::best);
    check(best.left == 0 && best.chosen == rp::Heuristic::height, "the best leaves a box");

    const auto by = [&](const rp::Collection &it, std::uint32_t heuristic) {
        return refusal([&] { rp::fit(bins, it, rp::Heuristic{heuristic}); });
    };
    const rp::Member bad_members[] = {{5, 1}};
    const rp::Exclusion bad_exclusions[] = {{1, 1}};
    const rp::View<rp::Member> endless(drawer_members, std::size_t{1} << 32);
    check(by(all, 8) == Status::unknown_heuristic, "there is a heuristic 8 to fit by");
    check(by({drawers, bad_members}, 0) == Status::unknown_box, "a member names no box to fit");
    check(by({drawers, {}, bad_exclusions}, 0) == Status::equal_groups, "a group to fit is excluded with itself");
    check(by({drawers, endless}, 0) == Status::bad_lengths, "there are 2^32 members to fit");
}

static void test_what_fits_in_a_session()
{
    // A bin may have the id by which C says that a box is left.
    const std::uint32_t id = RP_LEFT_BIN;
    rp::Session session;
    session.add_bin(BinId{id}, rp::bin(10, 10));
    const rp::Collection all{drawers, drawer_members, drawers_apart};
    const rp::Fitted<rp::Outstanding> fitted = session.fit(all, rp::Heuristic::volume);
    check(are_two_placed(fitted) && fitted.chosen == rp::Heuristic::volume, "other boxes are left in a session");
    check(is_at(*fitted.placements[2], 0, id, 0, 0) && is_at(*fitted.placements[3], 1, id, 4, 0), "a box that fits is elsewhere");
    const std::vector<rp::Standing> standing = session.outstanding();
    check(standing.size() == 2 && standing[0].index == 2 && standing[1].index == 3, "another box is outstanding");
    must_be(Status::unknown_heuristic, [&] { session.fit(all, rp::Heuristic{8}); }, "there is a heuristic 8 to fit by");
    const rp::Exclusion bad_exclusions[] = {{1, 1}};
    must_be(Status::equal_groups, [&] { session.fit({drawers, {}, bad_exclusions}); }, "a group to fit is excluded with itself");
    check(session.next_number() == rp::PlacementNumber{2}, "a refusal gives numbers");

    session.clear_bin(BinId{id});
    session.add_bin(BinId{0}, rp::bin(4, 4));
    const rp::Fitted<rp::Outstanding> best = session.fit({by_heights, {}, {}}, rp::Heuristic::best);
    check(best.left == 0 && best.chosen == rp::Heuristic::height, "the best leaves a box in a session");
    check(session.fit(rp::View<rp::Box>(drawers, 2)).left == 2, "a part of a group is placed");
}

/* No number is left for two boxes, also where both would be left. */
static void test_numbers_of_what_fits()
{
    const std::uint64_t last = RP_LEFT_NUMBER - 1;
    rp::Session session = rp::Session::restore({{}, {}, rp::PlacementNumber{last}});
    must_be(Status::numbers_used_up, [&] { session.fit(by_heights); }, "there are numbers for three");
    session.add_bin(BinId{7}, rp::bin(9, 9));
    const rp::Fitted<rp::Outstanding> fitted = session.fit(rp::View<rp::Box>(by_heights, 1));
    check(is_at(*fitted.placements[0], last, 7, 0, 0) && !session.next_number(), "the last number is another");
}

static void test_refusals_of_a_session()
{
    rp::Session session;
    const BinId none{9};
    session.add_bin(BinId{0}, rp::bin(10, 10));
    const rp::Box large[] = {rp::box(11, 1)};
    const rp::Box small[] = {rp::box(1, 1)};
    must_be(Status::not_enough_space, [&] { session.pack(large); }, "a box is too large");
    must_be(Status::unknown_placement, [&] { session.release(rp::PlacementNumber{5}); }, "a number is not there");
    must_be(Status::unknown_bin, [&] { session.stats(none); }, "stats know a bin");
    must_be(Status::unknown_bin, [&] { session.free_sections(none); }, "sections know a bin");
    must_be(Status::unknown_bin, [&] { session.outstanding_in(none); }, "placements know a bin");
    must_be(Status::unknown_bin, [&] { session.cut_plan(none); }, "a plan knows a bin");
    must_be(Status::unknown_bin, [&] { session.coalesce_all(none); }, "coalesce_all knows a bin");
    must_be(Status::unknown_bin, [&] { session.coalesce(none, 0, 0, 1); }, "coalesce knows a bin");
    must_be(Status::unknown_bin, [&] { session.was_coalesced(none); }, "was_coalesced knows a bin");
    must_be(Status::unknown_heuristic, [&] { session.pack({small}, rp::Heuristic{8}); }, "there is a heuristic 8");
    const rp::Member members[] = {{1, 1}};
    must_be(Status::unknown_box, [&] { session.pack({small, members}); }, "a member names no box");
    const rp::Exclusion exclusions[] = {{2, 2}};
    must_be(Status::equal_groups, [&] { session.pack({small, {}, exclusions}); }, "a group is excluded with itself");
    const rp::View<rp::Box> endless(small, std::size_t{1} << 32);
    must_be(Status::bad_lengths, [&] { session.pack(endless); }, "2^32 boxes are packed");
    check(session.outstanding().empty() && session.next_number() == rp::PlacementNumber{0}, "a refusal changes a session");
}

/* Four boxes around a fifth: no straight cut leaves all of them. They are packed one by one into sections that releases and
   joins leave. */
static void test_no_plan()
{
    rp::Session session;
    const BinId id{0};
    session.add_bin(id, rp::bin(3, 3));
    const std::vector<rp::Box> cells(9, rp::box(1, 1));
    const std::vector<rp::Outstanding> places = session.pack(cells);
    const auto release = [&](std::uint32_t x, std::uint32_t y) {
        for (const rp::Outstanding &it : places)
            if (it.x == x && it.y == y)
                session.release(it.number);
    };
    const auto put = [&](std::uint32_t x, std::uint32_t y, std::uint32_t width, std::uint32_t height) {
        release(x, y);
        release(x + width - 1, y + height - 1);
        session.coalesce_all(id);
        const rp::Box box[] = {rp::box(width, height)};
        check(session.pack(box).front().x == x, "a box is elsewhere");
    };
    put(0, 0, 2, 1);
    put(2, 0, 1, 2);
    put(1, 2, 2, 1);
    put(0, 1, 1, 2);
    check(!session.cut_plan(id), "a pinwheel has a plan");
    must_be(Status::not_from_cuts, [&] { session.recut(id); }, "a pinwheel is cut anew");
}

static void test_long_lists()
{
    rp::Session session;
    for (std::uint32_t i = 0; i < 100; i++)
        session.add_bin(BinId{i}, rp::bin(10, 10));
    check(session.bins().size() == 100, "a list is shorter than its bins");
    const std::vector<rp::Box> boxes(1000, rp::box(2, 2));
    check(session.pack(boxes).size() == 1000 && session.outstanding().size() == 1000, "a list is shorter than its boxes");
    const std::optional<std::vector<rp::CutStep>> plan = session.cut_plan(BinId{0});
    check(plan && plan->size() % 2 == 1, "a plan is no tree");
}

static void test_refused_memory()
{
    const rp::Bin bins[] = {rp::bin(10, 10)};
    const rp::Box boxes[] = {rp::box(2, 2)};
    rp::Session session;
    session.add_bin(BinId{0}, rp::bin(10, 10));
    const std::vector<rp::Outstanding> places = session.pack(boxes);
    // In the other session there is no room for a placement yet.
    rp::Session empty;
    empty.add_bin(BinId{0}, rp::bin(10, 10));
    const auto memory = [](auto call, const char *what) {
        refusing = true;
        const Status status = refusal(call);
        refusing = false;
        check(status == Status::out_of_memory, what);
    };
    memory([] { rp::Session(); }, "a session is made of nothing");
    memory([&] { rp::pack(bins, boxes); }, "a list is packed without memory");
    memory([&] { rp::pack(bins, rp::Collection{boxes}); }, "a collection is packed without memory");
    memory([&] { rp::fit(bins, boxes); }, "what fits is packed without memory");
    const rp::Claim claims[] = {{0, 0, {0, 0, 0, 1, 1, 1}}};
    memory([&] { rp::check(bins, {}, claims); }, "a packing is judged without memory");
    const rp::Section standing[] = {{0, 0, 0, 4, 10, 1}};
    memory([&] { rp::straight_cuts(bins[0], standing); }, "cuts are found without memory");
    const rp::Parts parts = session.parts();
    memory([&] { rp::Session::restore(parts); }, "a session is restored of nothing");
    memory([&] { session.add_bin(BinId{1}, rp::bin(1, 1)); }, "a bin is made of nothing");
    memory([&] { session.pack(boxes); }, "a session packs without memory");
    memory([&] { session.pack(rp::Collection{boxes}); }, "a session packs a collection without memory");
    memory([&] { session.fit(boxes); }, "a session packs what fits without memory");
    memory([&] { session.cut_plan(BinId{0}); }, "a plan is made of nothing");
    memory([&] { session.place_at(BinId{0}, {4, 0, 0, 1, 1, 1}); }, "a box is placed without memory");
    memory([&] { empty.place_best(BinId{0}, boxes[0]); }, "a box is placed best without memory");
    memory([&] { empty.place_best(boxes[0]); }, "a box is placed anywhere without memory");
    memory([&] { session.recut(BinId{0}); }, "a bin is cut anew without memory");
    check(session.outstanding().size() == 1 && session.bins().size() == 1, "a refusal changes a session");
    session.release(places[0].number);
}

/* Where a list gets no memory nothing is packed, and it is a refusal. */
static void test_memory_of_lists()
{
    const rp::Bin bins[] = {rp::bin(10, 10)};
    const rp::Box boxes[] = {rp::box(2, 2)};
    rp::Session session;
    session.add_bin(BinId{0}, bins[0]);
    const rp::Parts parts = session.parts();
    refusing_new = true;
    const Status refusals[] = {rp::try_pack(bins, boxes).status(), session.try_pack(boxes).status(), session.try_fit(boxes).status(),
                               session.try_bins().status(), session.try_parts().status(), session.try_release_all({}),
                               rp::Session::try_restore(parts).status(), refusal([&] { session.pack(boxes); })};
    refusing_new = false;
    for (const Status it : refusals)
        check(it == Status::out_of_memory, "a list is made of nothing");
    check(session.outstanding().empty() && session.next_number() == rp::PlacementNumber{0}, "a placement is lost");
}

/* What is wrong with claims of two strips of one group on two sheets: the kind, and the two places. */
static bool is_fault(rp::View<rp::Claim> claims, rp::FaultKind kind, std::size_t first, std::size_t second)
{
    const rp::Bin bins[] = {rp::bin(10, 10), rp::bin(10, 10)};
    const rp::Entry entries[] = {{rp::box(4, 10, 1, 7), 0}, {rp::box(10, 6, 1, 7), 4}};
    const std::optional<rp::Fault> fault = rp::check(bins, entries, claims);
    return fault && fault->kind == kind && fault->first == first && fault->second == second;
}

static void test_judge()
{
    using rp::FaultKind;
    const rp::Bin bins[] = {rp::bin(10, 10)};
    const rp::Entry entries[] = {{rp::box(4, 10, 1, 7), 0}, {rp::box(10, 6, 1, 9), 4}};
    const rp::Claim beside[] = {{0, 0, {0, 0, 0, 4, 10, 1}}, {1, 0, {4, 0, 0, 6, 10, 1}}};
    check(!rp::check(bins, entries, beside), "a packing has a fault");
    const rp::Exclusion apart[] = {{9, 7}};
    const std::optional<rp::Fault> together = rp::check(bins, entries, beside, apart);
    check(together && together->kind == FaultKind::excluded_together && together->second == 1, "excluded groups share a bin");
    check(!rp::check({}, {}, {}), "nothing has a fault");
    const rp::Claim first = beside[0];
    const auto with = [&](const rp::Claim &second, FaultKind kind, std::size_t one, std::size_t other) {
        const rp::Claim both[] = {first, second};
        return is_fault(both, kind, one, other);
    };
    check(with({1, 2, {4, 0, 0, 6, 10, 1}}, FaultKind::unknown_bin, 1, 0), "a bin is there");
    check(with({2, 0, {4, 0, 0, 6, 10, 1}}, FaultKind::unknown_box, 1, 0), "a box is there");
    check(with({1, 0, {4, 0, 0, 6, 9, 1}}, FaultKind::wrong_size, 1, 0), "a box has another size");
    check(with({1, 0, {5, 0, 0, 6, 10, 1}}, FaultKind::outside, 1, 0), "a box is inside");
    check(with({0, 0, {4, 0, 0, 4, 10, 1}}, FaultKind::placed_twice, 0, 1), "a box is placed once");
    check(with({1, 0, {3, 0, 0, 6, 10, 1}}, FaultKind::shares_cell, 0, 1), "boxes share no cell");
    check(with({1, 1, {4, 0, 0, 6, 10, 1}}, FaultKind::group_in_two_bins, 0, 1), "a group is in one bin");
    check(is_fault({&first, 1}, FaultKind::not_placed, 1, 0), "a box is placed");
}

static bool is_cut(const rp::CutStep &it, rp::Axis axis, std::uint32_t place)
{
    return it.axis == axis && it.place == place;
}

/* A plan without cuts. */
static bool is_one_leaf(const std::optional<std::vector<rp::CutStep>> &plan)
{
    return plan && plan->size() == 1 && is_cut(plan->front(), rp::Axis::leaf, 0);
}

/* Why boxes do not stand in a sheet of 10 x 10: the number and two places. */
static bool are_wrong(rp::View<rp::Section> boxes, std::uint32_t kind, std::size_t first, std::size_t second)
{
    try {
        rp::straight_cuts(rp::bin(10, 10), boxes);
    } catch (const rp::WrongBoxes &error) {
        const rp_wrong &it = error.wrong();
        return error.status() == Status::wrong_boxes && it.kind == kind && it.bin == 0 && it.first == first && it.second == second;
    }
    return false;
}

static void test_straight_cuts()
{
    const rp::Bin sheet = rp::bin(10, 10);
    const rp::Section left{0, 0, 0, 4, 10, 1}, corner{4, 0, 0, 6, 3, 1};
    check(is_one_leaf(rp::straight_cuts(sheet, {})), "an empty sheet is cut");
    check(is_one_leaf(rp::straight_cuts(rp::bin(0, 5), {})), "a sheet without cells is cut");
    const rp::Section all[] = {{0, 0, 0, 10, 10, 1}};
    check(is_one_leaf(rp::straight_cuts(sheet, all)), "a sheet that one box fills is cut");
    // Left is cut off, and then what is free above the corner.
    const std::vector<rp::Section> both = {corner, left};
    const std::optional<std::vector<rp::CutStep>> plan = rp::straight_cuts(sheet, both);
    check(plan && plan->size() == 5, "a plan has other steps");
    check(is_cut((*plan)[0], rp::Axis::x, 4) && is_cut((*plan)[1], rp::Axis::leaf, 0), "left is not cut off");
    check(is_cut((*plan)[2], rp::Axis::y, 3) && is_cut((*plan)[4], rp::Axis::leaf, 0), "a corner is not cut off");
    const rp::Section pile[] = {{0, 0, 2, 1, 1, 3}};
    const std::optional<std::vector<rp::CutStep>> deep = rp::straight_cuts(rp::bin(1, 1, 5), pile);
    check(deep && deep->size() == 3 && is_cut((*deep)[0], rp::Axis::z, 2), "a pile is not cut");

    const rp::Section pinwheel[] = {{0, 0, 0, 2, 1, 1}, {2, 0, 0, 1, 2, 1}, {1, 2, 0, 2, 1, 1}, {0, 1, 0, 1, 2, 1}};
    check(!rp::straight_cuts(rp::bin(3, 3), pinwheel), "a pinwheel has a plan");
    check(rp::straight_cuts(rp::bin(3, 3), {pinwheel, 3}).has_value(), "three strips of a pinwheel have no plan");

    const rp::Section out{9, 0, 0, 2, 1, 1}, over{3, 9, 0, 2, 1, 1}, none{4, 4, 0, 0, 3, 1};
    const rp::Section outside[] = {left, over, out}, sharing[] = {corner, left, over}, empty[] = {none, left, none};
    check(are_wrong(outside, RP_WRONG_OUTSIDE, 2, 0), "a box is inside");
    check(are_wrong(sharing, RP_WRONG_SHARED_CELL, 1, 2), "boxes share no cell");
    check(rp::straight_cuts(sheet, empty)->size() == 3, "boxes without cells count");
    must_be(Status::wrong_boxes, [&] { rp::straight_cuts(sheet, sharing); }, "wrong boxes are no refusal");
}

/* Boxes that stand alone, with more free sections than the first array has room for. */
static void test_many_straight_cuts()
{
    std::vector<rp::Section> boxes;
    for (std::uint32_t i = 0; i < 50; i++)
        boxes.push_back({1 + 3 * i, 1 + 3 * i, 1 + 3 * i, 1, 1, 1});
    const std::optional<std::vector<rp::CutStep>> plan = rp::straight_cuts(rp::bin(151, 151, 151), boxes);
    check(plan && plan->size() > 8 * 51, "a plan of many steps is short");
    std::size_t leaves = 0;
    for (const rp::CutStep &it : *plan)
        leaves += it.axis == rp::Axis::leaf;
    check(plan->size() == 2 * leaves - 1, "a plan is no tree");
}

/* Why no session has these parts: the number, the bin and two places. */
static bool is_wrong(const rp::Parts &parts, std::uint32_t kind, std::size_t bin, std::size_t first, std::size_t second)
{
    try {
        rp::Session::restore(parts);
    } catch (const rp::WrongParts &error) {
        const rp_wrong &it = error.wrong();
        return error.status() == Status::wrong_parts && it.kind == kind && it.bin == bin && it.first == first
            && it.second == second;
    }
    return false;
}

static void test_saved_sessions()
{
    rp::Session session;
    session.add_bin(BinId{3}, rp::bin(10, 10));
    session.add_bin(BinId{8}, rp::bin(2, 2, 2));
    session.coalesce_all(BinId{8});
    session.place_at(BinId{3}, {0, 0, 0, 4, 10, 1});
    const rp::Parts parts = session.parts();
    check(parts.bins.size() == 2 && parts.bins[1].size.depth == 2 && parts.bins[1].coalesced, "a bin is saved otherwise");
    check(parts.placements.size() == 1 && parts.next == rp::PlacementNumber{1}, "a placement is saved otherwise");
    rp::Session again = rp::Session::restore(parts);
    check(again.bins() == session.bins() && again.was_coalesced(BinId{8}) && !again.was_coalesced(BinId{3}), "bins are lost");
    check(equal(again.outstanding().at(0).section, {0, 0, 0, 4, 10, 1}), "a placement is lost");
    check(equal(again.free_sections(BinId{3}).at(0), {4, 0, 0, 6, 10, 1}), "a free section is lost");
    again.release(parts.placements[0].number);
    check(again.next_number() == rp::PlacementNumber{1}, "a number is given twice");
    check(rp::Session::restore({{}, {}, rp::PlacementNumber{5}}).next_number() == rp::PlacementNumber{5},
          "a session without bins is none");
    const auto changed = [&](auto change) {
        rp::Parts other = parts;
        change(other);
        return other;
    };
    check(is_wrong(changed([](rp::Parts &it) { std::swap(it.bins[0], it.bins[1]); }), RP_WRONG_IDS, 1, 0, 0), "ids fall");
    check(is_wrong(changed([](rp::Parts &it) { it.placements.push_back(it.placements[0]); }), RP_WRONG_NUMBER, 0, 1, 0),
          "a number is there twice");
    check(is_wrong(changed([](rp::Parts &it) { it.next = rp::PlacementNumber{0}; }), RP_WRONG_NEXT, 0, 0, 0),
          "a number is not given yet");
    check(is_wrong(changed([](rp::Parts &it) { it.placements[0].bin = BinId{4}; }), RP_WRONG_UNKNOWN_BIN, 0, 0, 0),
          "a bin is there");
    check(is_wrong(changed([](rp::Parts &it) { it.placements[0].section.height = 11; }), RP_WRONG_OUTSIDE, 0, 1, 0),
          "a box is inside");
    check(is_wrong(changed([](rp::Parts &it) { it.placements[0].section.x = 1; }), RP_WRONG_SHARED_CELL, 0, 0, 1),
          "boxes share no cell");
    check(is_wrong(changed([](rp::Parts &it) { it.bins[1].free.clear(); }), RP_WRONG_CELL_IN_NONE, 1, 0, 0), "no cell is lost");
    check(is_wrong(changed([](rp::Parts &it) {
        it.bins[1].size = rp::bin(3, 3);
        it.bins[1].free = {{0, 0, 0, 2, 1, 1}, {2, 0, 0, 1, 2, 1}, {1, 2, 0, 2, 1, 1}, {0, 1, 0, 1, 2, 1}, {1, 1, 0, 1, 1, 1}};
        it.bins[1].coalesced = false;
    }), RP_WRONG_CUTS, 1, 0, 0), "straight cuts part a pinwheel");
}

static void test_moves()
{
    static_assert(!std::is_copy_constructible_v<rp::Session> && !std::is_copy_assignable_v<rp::Session>);
    static_assert(std::is_nothrow_move_constructible_v<rp::Session> && std::is_nothrow_move_assignable_v<rp::Session>);
    rp::Session one;
    one.add_bin(BinId{1}, rp::bin(1, 1));
    rp::Session other = std::move(one);
    check(!one && other && other.bins().size() == 1, "a session is not moved");
    bool refused = false;
    try {
        one.bins();
    } catch (const std::logic_error &) {
        refused = true;
    }
    check(refused, "a session that was moved from is called");
    one = rp::Session();
    check(one && one.bins().empty(), "a session is not assigned");
    one = std::move(other);
    check(one.bins().size() == 1 && !other, "a session is not moved into another");
    rp::Session &same = one;
    one = std::move(same);
    check(one && one.bins().size() == 1, "a session is lost when it is moved into itself");
    std::vector<rp::Session> many(10);
    many.erase(many.begin());
    check(many.size() == 9 && many.front(), "sessions do not stand in a vector");
    check(other.try_stats(BinId{1}).status() == Status::moved_from, "a session that was moved from has stats");
    check(other.try_recut(BinId{1}) == Status::moved_from, "a session that was moved from is cut anew");
    check(other.try_pack(rp::View<rp::Box>()).status() == Status::moved_from, "a session that was moved from packs");
    check(other.try_parts().status() == Status::moved_from, "a session that was moved from has parts");
    check(other.try_next_number().status() == Status::moved_from, "a session that was moved from has numbers");
}

int main()
{
    test_texts();
    test_views();
    test_lists();
    test_collections();
    test_session();
    test_upkeep_of_a_session();
    test_boxes_that_fit_best();
    test_bins_that_are_cut_anew();
    test_session_collections();
    test_what_fits();
    test_what_fits_in_a_session();
    test_numbers_of_what_fits();
    test_refusals_of_a_session();
    test_no_plan();
    test_long_lists();
    test_refused_memory();
    test_memory_of_lists();
    test_judge();
    test_straight_cuts();
    test_many_straight_cuts();
    test_saved_sessions();
    test_moves();
    return 0;
}
