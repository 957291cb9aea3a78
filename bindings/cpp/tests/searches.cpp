/* Calls what rectangle_pack.hpp has of searches, of packings as they are told and of bounds, and meets each refusal of these.

   c++ -std=c++17 -Ibuild bindings/cpp/tests/searches.cpp build/librectangle_pack.a -Wl,--wrap=malloc,--wrap=realloc -o searches
   ./searches */
#include <cstring>
#include <optional>
#include <stdexcept>
#include <type_traits>
#include <utility>
#include <vector>

#include "checks.hpp"

/* Two panels that go on one sheet where the second is turned, which it may be about z. */
static const rp::Bin sheets[] = {rp::bin(10, 10), rp::bin(10, 10)};
static const rp::Box panels[] = {rp::box(4, 10), rp::box(10, 6)};
static const std::uint32_t turns[] = {0, 4};

static rp::SearchOptions turned()
{
    rp::SearchOptions options;
    options.tries = 1000;
    options.turns = turns;
    return options;
}

/* Squares of 5 of which four go on a sheet, and one more. */
static const std::vector<rp::Box> squares(5, rp::box(5, 5));

static bool equal(const rp::Location &one, const rp::Location &other)
{
    return std::memcmp(&one, &other, sizeof one) == 0;
}

/* Two searches found the same. */
static bool are_same(const rp::Searched<rp::Location> &one, const rp::Searched<rp::Location> &other)
{
    if (one.placements.size() != other.placements.size())
        return false;
    for (std::size_t i = 0; i < one.placements.size(); i++) {
        const std::optional<rp::Location> &here = one.placements[i], &there = other.placements[i];
        if (here.has_value() != there.has_value() || (here && !equal(*here, *there)))
            return false;
    }
    return one.left == other.left && one.used == other.used && one.least == other.least && one.is_optimal == other.is_optimal;
}

static void test_searches()
{
    const rp::Searched<rp::Location> upright = rp::search(sheets, {panels});
    check(upright.used == 2 && upright.least == std::size_t{2} && upright.is_optimal, "panels that stand as they are go on one sheet");
    const rp::Searched<rp::Location> found = rp::search(sheets, {panels}, turned());
    check(found.left == 0 && found.used == 1 && found.least == std::size_t{1} && found.is_optimal, "panels go on two sheets");
    const rp::Section &second = found.placements.at(1)->section;
    check(second.width == 6 && second.height == 10 && second.depth == 1, "a panel is not turned");
    check(are_same(found, rp::search(sheets, {panels}, turned())), "equal searches find different packings");
    check(rp::search(sheets, {}).placements.empty(), "no boxes have placements");
}

static void test_costs()
{
    const rp::Box half[] = {rp::box(10, 5)};
    const rp::Cost costs[] = {rp::cost(0u, 5)};
    rp::SearchOptions options;
    options.costs = costs;
    check(rp::search(sheets, {half}, options).placements.at(0)->bin == 1, "a box goes on the dear sheet");
    rp::Session session;
    session.add_bin(BinId{7}, sheets[0]);
    session.add_bin(BinId{9}, sheets[1]);
    const rp::Cost dear[] = {rp::cost(BinId{7}, 5)};
    options.costs = dear;
    check(session.search({half}, options).placements.at(0)->bin == BinId{9}, "a box goes into the dear bin");
}

static void test_what_is_left()
{
    const rp::View<rp::Bin> one_sheet(sheets, 1);
    must_be(Status::not_enough_space, [&] { rp::search(one_sheet, {squares}); }, "five squares go on one sheet");
    rp::SearchOptions options;
    options.may_leave = true;
    const rp::Searched<rp::Location> found = rp::search(one_sheet, {squares}, options);
    std::size_t placed = 0;
    for (const std::optional<rp::Location> &it : found.placements)
        placed += it.has_value();
    check(placed == 4 && found.left == 1 && !found.least && !found.is_optimal, "another number is left");
}

static void test_refusals()
{
    const rp::Member members[] = {{9, 1}};
    const rp::Exclusion exclusions[] = {{2, 2}};
    const rp::View<rp::Box> endless(panels, std::size_t{1} << 32);
    must_be(Status::unknown_box, [&] { rp::search(sheets, {panels, members}); }, "a member names no box");
    must_be(Status::equal_groups, [&] { rp::search(sheets, {panels, {}, exclusions}); }, "a group is excluded with itself");
    must_be(Status::bad_lengths, [&] { rp::search(sheets, {endless}); }, "2^32 boxes are searched for");
    must_be(Status::unknown_box, [&] { rp::Search(sheets, {panels, members}); }, "a search is begun for no box");
    must_be(Status::bad_lengths, [&] { rp::Search(sheets, {endless}); }, "a search is begun for 2^32 boxes");
    rp::Session session;
    must_be(Status::not_enough_space, [&] { session.search({panels}); }, "panels go into no bins");
    must_be(Status::equal_groups, [&] { rp::Search(session, {panels, {}, exclusions}); }, "a search in a session is begun");
    check(session.next_number() == rp::PlacementNumber{0}, "a refusal gives numbers");
}

static void test_searches_in_pieces()
{
    static_assert(!std::is_copy_constructible_v<rp::Search> && std::is_nothrow_move_assignable_v<rp::Search>);
    const rp::SearchOptions options = turned();
    rp::Search search(sheets, {panels}, options);
    check(search && search.run(0).tries == 0, "no tries are some");
    rp::Progress now = {};
    for (std::uint64_t made = 0; made < options.tries && !now.is_over; made += 250)
        now = search.run(250);
    check(now.bins == 1 && now.left.low == 0 && now.cost.low == 1, "a search is elsewhere");
    rp::Search moved = std::move(search);
    check(!search && moved, "a search is not moved");
    check(search.try_run(1).status() == Status::moved_from, "a search that was moved from runs");
    const rp::Searched<rp::Location> found = std::move(moved).found(sheets, {panels}, options);
    check(!moved && are_same(found, rp::search(sheets, {panels}, options)), "a search in pieces finds another packing");
    check(std::move(moved).try_found(sheets, {panels}, options).status() == Status::moved_from, "a search ends twice");
    bool refused = false;
    try {
        moved.run(1);
    } catch (const std::logic_error &) {
        refused = true;
    }
    check(refused, "a search that has ended runs");
    moved = rp::Search(sheets, {panels});
    check(bool(moved), "a search is not assigned");
}

/* Five squares go into two bins; so a search that is asked whether to go on is, until it is over. */
static void test_callbacks()
{
    rp::SearchOptions options;
    options.tries = 1000;
    options.may_leave = true;
    const rp::View<rp::Bin> one_sheet(sheets, 1);
    std::uint64_t asked = 0, tries = 0;
    const auto go_on = [&](const rp::Progress &now) {
        check(now.tries >= tries && !now.is_over, "progress goes back");
        tries = now.tries;
        asked++;
        return true;
    };
    const rp::Searched<rp::Location> found = rp::search(one_sheet, {squares}, options, go_on);
    check(asked > 0 && are_same(found, rp::search(one_sheet, {squares}, options)), "a search that is asked finds another packing");
    const rp::Searched<rp::Location> stopped = rp::search(one_sheet, {squares}, options, [](const rp::Progress &) { return false; });
    check(stopped.tries == 0 && stopped.left == 1, "a search that is stopped makes tries");
    bool passed = false;
    try {
        rp::search(one_sheet, {squares}, options, [](const rp::Progress &) -> bool { throw std::runtime_error("mine"); });
    } catch (const std::runtime_error &) {
        passed = true;
    }
    check(passed, "what a callback throws is lost");
}

static void test_searches_in_a_session()
{
    rp::Session session;
    session.add_bin(BinId{RP_LEFT_BIN}, rp::bin(10, 10));
    rp::SearchOptions options = turned();
    const rp::Searched<rp::Standing> found = session.search({panels}, options);
    check(found.used == 1 && found.is_optimal && found.placements.size() == 2, "panels do not go into one bin");
    const std::vector<rp::Standing> standing = session.outstanding_in(BinId{RP_LEFT_BIN});
    check(standing.size() == 2 && standing[0].section.width + standing[1].section.width == 10, "panels stand elsewhere");
    check(found.placements[1]->index == 1 && found.placements[1]->section.width == 6, "the index of a panel is another");
    session.clear_bin(BinId{RP_LEFT_BIN});

    rp::Search search(session, {panels}, options);
    search.run(options.tries);
    const rp::Searched<rp::Standing> again = std::move(search).found(session, {panels}, options);
    check(again.used == 1 && again.placements[0]->number != found.placements[0]->number, "a search in pieces finds another packing");
    check(session.outstanding().size() == 2 && session.next_number() == rp::PlacementNumber{4}, "a number is given twice");
    session.clear_bin(BinId{RP_LEFT_BIN});

    options.may_leave = true;
    const rp::Searched<rp::Standing> some = session.search({squares}, options, [](const rp::Progress &) { return true; });
    check(some.left == 1 && session.outstanding().size() == 4, "another number is left in a session");
}

/* A group of two boxes as high as the bins, one alone, and one of a group that is excluded with the first. */
static const rp::Box boxes[] = {rp::box(3, 10), rp::box(2, 10, 1, 1), rp::box(5, 10, 1, 1), rp::box(3, 3, 1, 2)};
static const rp::Exclusion apart[] = {{1, 2}};

/* Which step is refused, and why. */
static bool is_refused(const rp::Collection &collection, rp::View<rp::Step> steps, std::size_t index, rp::StepFault fault)
{
    try {
        rp::pack_told(sheets, collection, steps);
    } catch (const rp::StepRefused &error) {
        return error.status() == Status::step_refused && error.index() == index && error.fault() == fault;
    }
    return false;
}

static void test_what_is_told()
{
    using rp::step;
    const rp::Step done[] = {step(2, 1u, rp::Heuristic::height), step(0, 1u)};
    const std::vector<std::optional<rp::Placement>> at = rp::pack_told(sheets, {boxes, {}, apart}, done);
    check(at.size() == 4 && at[0] && at[1] && at[2] && !at[3], "another box is left");
    check(at[0]->bin == 1 && at[0]->x == 7 && at[1]->x == 0 && at[2]->x == 2, "a box is elsewhere");
    check(!rp::pack_told(sheets, {boxes}, {}).at(0), "without steps a box is placed");
    const rp::Step unknown[] = {done[0], step(3, 2u)}, twice[] = {done[0], step(1, 0u)};
    const rp::Step together[] = {step(3, 1u), done[0]}, both[] = {step(0, 0u), step(1, 0u)};
    const rp::Collection all{boxes, {}, apart};
    check(is_refused(all, unknown, 1, rp::StepFault::unknown_bin), "a bin is there");
    check(is_refused(all, twice, 1, rp::StepFault::named_twice), "a group is named once");
    check(is_refused(all, together, 1, rp::StepFault::excluded), "excluded groups go into one bin");
    check(is_refused({panels}, both, 1, rp::StepFault::no_room), "there is room");
    const rp::Step best[] = {step(0, 0u, rp::Heuristic::best)}, none[] = {step(4, 0u)};
    must_be(Status::unknown_heuristic, [&] { rp::pack_told(sheets, {boxes}, best); }, "the best is a heuristic of a step");
    must_be(Status::unknown_box, [&] { rp::pack_told(sheets, {boxes}, none); }, "a step names no box");
}

static void test_what_a_session_is_told()
{
    rp::Session session;
    session.add_bin(BinId{7}, rp::bin(10, 10));
    const rp::Step steps[] = {rp::step(1, BinId{7}), rp::step(0, BinId{7})};
    const std::vector<std::optional<rp::Outstanding>> at = session.pack_told({boxes}, steps);
    check(at.size() == 4 && at[0]->number == rp::PlacementNumber{2} && at[1]->number == rp::PlacementNumber{0}, "steps are not in turn");
    check(at[2]->x == 2 && at[0]->x == 7 && !at[3], "a box is elsewhere in a session");
    rp::Result<std::vector<std::optional<rp::Outstanding>>, rp::RefusedStep> again = session.try_pack_told({boxes}, steps);
    check(again.status() == Status::step_refused && again.why().step == 0, "a step is done twice");
    check(again.why().fault == rp::StepFault::no_room && session.outstanding().size() == 3, "a refusal changes a session");
}

static void test_bounds()
{
    check(rp::least_bins(sheets, {panels}) == std::size_t{2}, "panels that are not turned go on one sheet");
    check(rp::least_bins(sheets, {panels}, turns) == std::size_t{1}, "turned panels do not go on one sheet");
    check(!rp::least_bins(sheets, {std::vector<rp::Box>(3, rp::box(6, 6))}), "three squares of 6 go on two sheets");
    const rp::Member members[] = {{9, 1}};
    const rp::View<rp::Box> endless(panels, std::size_t{1} << 32);
    must_be(Status::unknown_box, [&] { rp::least_bins(sheets, {panels, members}); }, "a member names no box");
    must_be(Status::bad_lengths, [&] { rp::least_bins(sheets, {endless}); }, "2^32 boxes need bins");
}

static void test_refused_memory()
{
    rp::Session session;
    session.add_bin(BinId{0}, sheets[0]);
    const rp::Step steps[] = {rp::step(0, 0u)};
    const auto memory = [](auto call, const char *what) {
        refusing = true;
        const Status status = refusal(call);
        refusing = false;
        check(status == Status::out_of_memory, what);
    };
    memory([&] { rp::search(sheets, {panels}); }, "a packing is found without memory");
    memory([&] { rp::Search(sheets, {panels}); }, "a search is begun without memory");
    memory([&] { session.search({panels}, turned()); }, "a session searches without memory");
    memory([&] { rp::pack_told(sheets, {panels}, steps); }, "steps are done without memory");
    memory([&] { session.pack_told({panels}, steps); }, "a session is told without memory");
    memory([&] { rp::least_bins(sheets, {panels}); }, "a bound is made of nothing");
    rp::Search search(sheets, {panels});
    memory([&] { std::move(search).found(sheets, {panels}); }, "what was found is packed without memory");
    check(!search && session.next_number() == rp::PlacementNumber{0}, "a refusal changes a session");
}

int main()
{
    test_searches();
    test_costs();
    test_what_is_left();
    test_refusals();
    test_searches_in_pieces();
    test_callbacks();
    test_searches_in_a_session();
    test_what_is_told();
    test_what_a_session_is_told();
    test_bounds();
    test_refused_memory();
    return 0;
}
