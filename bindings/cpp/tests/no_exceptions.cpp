/* Calls each twin of rectangle_pack.hpp that answers a Status or a Result, in a program without exceptions.

   c++ -std=c++17 -fno-exceptions -Ibuild bindings/cpp/tests/no_exceptions.cpp build/librectangle_pack.a
       -Wl,--wrap=malloc,--wrap=realloc -o no_exceptions && ./no_exceptions */
#include <optional>
#include <type_traits>
#include <utility>
#include <vector>

#include "checks.hpp"

static_assert(std::is_move_constructible_v<rp::Session> && !std::is_default_constructible_v<rp::Session>);

static const rp::Bin sheets[] = {rp::bin(10, 10), rp::bin(10, 10)};
static const rp::Box panels[] = {rp::box(4, 10), rp::box(10, 6)};
static const rp::Member no_member[] = {{9, 1}};

static void done(Status status, const char *what)
{
    check(status == Status::done, what);
}

/* The value of what is done. */
template <class T, class Why> static T value(rp::Result<T, Why> &&result, const char *what)
{
    check(result && result.status() == Status::done, what);
    return *std::move(result);
}

static void test_results()
{
    rp::Result<int> seven = 7, none = Status::no_plan;
    check(seven && *seven == 7 && seven.status() == Status::done, "a value is another");
    check(!none && none.status() == Status::no_plan, "a refusal has a value");
    const rp::Result<int, rp::RefusedStep> why = {Status::step_refused, {3, rp::StepFault::no_room}};
    check(!why && why.why().step == 3 && why.why().fault == rp::StepFault::no_room, "why is another");
}

static void test_calls_that_pack_once()
{
    check(value(rp::try_pack(sheets, panels), "boxes are not packed").size() == 2, "a box has no placement");
    check(value(rp::try_pack(sheets, rp::Collection{panels}), "a collection is not packed").placements.size() == 2, "a box is lost");
    check(rp::try_pack({}, panels).status() == Status::not_enough_space, "boxes go into no bins");
    check(rp::try_pack(sheets, {panels, no_member}).status() == Status::unknown_box, "a member names no box");
    check(value(rp::try_fit({}, panels), "nothing fits").left == 2, "boxes fit into no bins");
    check(value(rp::try_fit(sheets, rp::Collection{panels}, rp::Heuristic::best), "nothing fits").left == 0, "a box does not fit");
    const rp::Step steps[] = {rp::step(0, 1u), rp::step(1, 1u)};
    check(value(rp::try_pack_told(sheets, {panels}, {steps, 1}), "a step is not done")[0]->bin == 1, "a box is elsewhere");
    const auto refused = rp::try_pack_told(sheets, {panels}, steps);
    check(refused.status() == Status::step_refused && refused.why().step == 1, "another step is refused");
    check(value(rp::try_least_bins(sheets, {panels}), "there is no bound") == std::size_t{2}, "a bound is another");
}

static void test_judges()
{
    const rp::Claim claims[] = {{0, 0, {0, 0, 0, 4, 10, 1}}, {1, 1, {0, 0, 0, 10, 6, 1}}};
    const rp::Entry entries[] = {{panels[0], 0}, {panels[1], 0}};
    check(!value(rp::try_check(sheets, entries, claims), "nothing is judged"), "a packing has a fault");
    check(value(rp::try_check(sheets, entries, {claims, 1}), "nothing is judged").has_value(), "a box is placed");
    const rp::Section inside[] = {{0, 0, 0, 4, 10, 1}}, outside[] = {{9, 0, 0, 4, 10, 1}};
    check(value(rp::try_straight_cuts(sheets[0], inside), "nothing is cut")->size() == 3, "a plan is another");
    const auto wrong = rp::try_straight_cuts(sheets[0], outside);
    check(wrong.status() == Status::wrong_boxes && wrong.why().kind == RP_WRONG_OUTSIDE, "a box is inside");
}

static void test_searches()
{
    rp::SearchOptions options;
    options.tries = 100;
    const auto found = value(rp::try_search(sheets, {panels}, options), "nothing is found");
    const auto asked = value(rp::try_search(sheets, {panels}, options, [](const rp::Progress &) { return true; }), "nothing is found");
    check(found.used == 2 && asked.used == 2 && asked.is_optimal, "another packing is found");
    rp::Search search = value(rp::Search::try_begin(sheets, {panels}, options), "no search is begun");
    check(value(search.try_run(10), "a search does not run").tries <= 10, "more tries are made");
    check(value(std::move(search).try_found(sheets, {panels}, options), "nothing is found").used == 2, "another packing is found");
    check(search.try_run(1).status() == Status::moved_from, "a search that has ended runs");
    check(rp::Search::try_begin(sheets, {panels, no_member}).status() == Status::unknown_box, "a member names no box");
}

static void test_a_session()
{
    const BinId id{7};
    rp::Session session = value(rp::Session::try_new(), "no session is made");
    done(session.try_add_bin(id, rp::bin(10, 10)), "a bin is not added");
    check(session.try_add_bin(id, rp::bin(10, 10)) == Status::duplicate_bin, "an id is used twice");
    const rp::Outstanding first = value(session.try_pack({panels, 1}), "a box is not packed").at(0);
    done(session.try_release(first.number), "a box is not released");
    check(session.try_release(first.number) == Status::unknown_placement, "a box is released twice");
    done(session.try_coalesce(id, 0, 0, 2), "sections are not joined");
    done(session.try_coalesce_all(id), "sections are not joined");
    check(value(session.try_was_coalesced(id), "a bin is not there"), "a bin was not coalesced");
    check(value(session.try_pack(rp::Collection{{panels, 1}}), "a box is not packed").placements.size() == 1, "a box is lost");
    check(value(session.try_fit(panels), "nothing fits").left == 1, "a box does not fit beside another");
    check(value(session.try_fit(rp::Collection{panels}), "nothing fits").left == 2, "a box goes into a full bin");
    done(session.try_clear_bin(id), "a bin is not cleared");
    done(session.try_grow_bin(id, rp::Axis::y, 2), "a bin does not grow");
    check(value(session.try_bin_size(id), "a bin is not there").height == 12, "a bin has another size");
    done(session.try_recut(id), "a bin is not cut anew");
    check(value(session.try_free_sections(id), "a bin is not there").size() == 1, "a bin is in parts");
    const rp::PlacementNumber knot = value(session.try_place_at(id, {1, 1, 0, 2, 2, 1}), "a knot is not placed");
    const rp::Outstanding best = value(session.try_place_best(id, rp::box(1, 1)), "a box is not placed");
    const rp::Outstanding any = value(session.try_place_best(rp::box(1, 1)), "a box is not placed");
    check(session.try_place_at(id, {1, 1, 0, 2, 2, 1}).status() == Status::not_free, "a box stands on another");
    check(value(session.try_outstanding_in(id), "a bin is not there").size() == 3, "a box does not stand there");
    check(value(session.try_stats(id), "a bin is not there").placements == 3, "a box is not counted");
    check(value(session.try_cut_plan(id), "a bin is not there").has_value(), "a bin has no plan");
    const rp::PlacementNumber all[] = {knot, best.number, any.number};
    done(session.try_release_all(all), "boxes are not released");
    check(value(session.try_outstanding(), "nothing is read").empty(), "a box stands");
    check(session.try_remove_bin(BinId{8}) == Status::unknown_bin, "a bin is taken out that is not there");
    done(session.try_remove_bin(id), "a bin is not taken out");
    check(value(session.try_bins(), "nothing is read").empty(), "a bin is there");
    check(value(session.try_next_number(), "nothing is read").has_value(), "numbers are used up");
}

static void test_searches_in_a_session()
{
    const BinId id{7};
    rp::Session session = value(rp::Session::try_new(), "no session is made");
    done(session.try_add_bin(id, rp::bin(10, 16)), "a bin is not added");
    rp::SearchOptions options;
    options.tries = 100;
    check(value(session.try_search({panels}, options), "nothing is found").used == 1, "another packing is found");
    done(session.try_clear_bin(id), "a bin is not cleared");
    const auto go_on = [](const rp::Progress &) { return true; };
    check(value(session.try_search({panels}, options, go_on), "nothing is found").left == 0, "another packing is found");
    done(session.try_clear_bin(id), "a bin is not cleared");
    rp::Search search = value(rp::Search::try_begin(session, {panels}, options), "no search is begun");
    check(value(std::move(search).try_found(session, {panels}, options), "nothing is found").left == 0, "another packing is found");
    done(session.try_clear_bin(id), "a bin is not cleared");
    const rp::Step steps[] = {rp::step(1, id)};
    check(!value(session.try_pack_told({panels}, steps), "a step is not done")[0], "a box is placed that no step names");
}

static void test_saved_sessions()
{
    rp::Session session = value(rp::Session::try_new(), "no session is made");
    done(session.try_add_bin(BinId{3}, rp::bin(10, 10)), "a bin is not added");
    rp::Parts parts = value(session.try_parts(), "a session has no parts");
    const rp::Session again = value(rp::Session::try_restore(parts), "a session is not restored");
    check(value(again.try_stats(BinId{3}), "a bin is lost").bin_volume.low == 100, "a bin has another size");
    parts.bins[0].free.clear();
    const auto wrong = rp::Session::try_restore(parts);
    check(wrong.status() == Status::wrong_parts && wrong.why().kind == RP_WRONG_CELL_IN_NONE, "a cell is lost");
    const rp::Session moved = std::move(session);
    check(session.try_bins().status() == Status::moved_from, "a session that was moved from has bins");
    refusing = true;
    const Status status = rp::Session::try_new().status();
    refusing = false;
    check(status == Status::out_of_memory, "a session is made of nothing");
}

int main()
{
    test_results();
    test_calls_that_pack_once();
    test_judges();
    test_searches();
    test_a_session();
    test_searches_in_a_session();
    test_saved_sessions();
    return 0;
}
