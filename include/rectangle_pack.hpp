/* rectangle_pack.hpp: rectangle_pack.h for C++17, in one header over the same library. A Session frees itself; lists go in as
   views and come out as vectors; a refusal is an Error. What the calls ask and what is proved of them stands in
   rectangle_pack.h; this wrapper is not proved, but tested.

       namespace rp = rectangle_pack;

       const rp::Box sprites[] = {rp::box(10, 20), rp::box(5, 50)};
       rp::Session session;
       session.add_bin(rp::BinId{7}, rp::bin(64, 64));
       for (const rp::Outstanding &it : session.pack(sprites))
           session.release(it.number);

   Without exceptions: each call that may refuse has a twin whose name begins with try_. It answers a Status, or a Result, which is
   a value or a Status. Neither is to be passed over, and the value of a Result that has none ends the program. The header compiles
   with -fno-exceptions, and then has these calls alone.

       rp::Result<rp::Session> session = rp::Session::try_new();
       if (!session || session->try_add_bin(rp::BinId{7}, rp::bin(64, 64)) != rp::Status::done)
           return;
       if (const auto placed = session->try_pack(sprites))
           use(*placed);

   These calls throw nothing; but what a callback of yours throws, they pass on. Without exceptions a std::vector that gets no memory
   ends the program.

   Names in this header that end in an underscore and the namespace detail are its own. */
#ifndef RECTANGLE_PACK_HPP
#define RECTANGLE_PACK_HPP

#include <algorithm>
#include <cstddef>
#include <cstdint>
#include <cstdlib>
#include <exception>
#include <limits>
#include <optional>
#include <stdexcept>
#include <type_traits>
#include <utility>
#include <variant>
#include <vector>

#include "rectangle_pack.h"

namespace rectangle_pack {

/// What a call answers.
enum class [[nodiscard]] Status : std::uint32_t {
    done = RP_DONE,
    not_enough_space = RP_NOT_ENOUGH_SPACE,
    out_of_memory = RP_OUT_OF_MEMORY,
    bad_lengths = RP_BAD_LENGTHS,
    duplicate_bin = RP_DUPLICATE_BIN,
    unknown_bin = RP_UNKNOWN_BIN,
    unknown_placement = RP_UNKNOWN_PLACEMENT,
    numbers_used_up = RP_NUMBERS_USED_UP,
    short_array = RP_SHORT_ARRAY,
    no_plan = RP_NO_PLAN,
    unknown_heuristic = RP_UNKNOWN_HEURISTIC,
    unknown_box = RP_UNKNOWN_BOX,
    equal_groups = RP_EQUAL_GROUPS,
    bin_in_use = RP_BIN_IN_USE,
    too_large = RP_TOO_LARGE,
    not_free = RP_NOT_FREE,
    unknown_axis = RP_UNKNOWN_AXIS,
    not_from_cuts = RP_NOT_FROM_CUTS,
    wrong_parts = RP_WRONG_PARTS,
    wrong_boxes = RP_WRONG_BOXES,
    step_refused = RP_STEP_REFUSED,
    unknown_options = RP_UNKNOWN_OPTIONS,
    /// The session or the search was moved from, or the search has ended. This header's own.
    moved_from = 0xffffffff,
};

/// What a status means.
inline const char *text(Status status) noexcept
{
    switch (status) {
    case Status::done:
        return "it is done";
    case Status::not_enough_space:
        return "for some group no bin takes all of its boxes";
    case Status::out_of_memory:
        return "memory was refused";
    case Status::bad_lengths:
        return "a list has 2^32 entries or more";
    case Status::duplicate_bin:
        return "the session has a bin of this id already";
    case Status::unknown_bin:
        return "the session has no bin of this id";
    case Status::unknown_placement:
        return "no placement of this number is outstanding";
    case Status::numbers_used_up:
        return "the numbers of placements are used up";
    case Status::short_array:
        return "the array is shorter than the list";
    case Status::no_plan:
        return "no straight cuts leave the sections and boxes of the bin";
    case Status::unknown_heuristic:
        return "there is no heuristic of this number";
    case Status::unknown_box:
        return "a member names a box that is not there";
    case Status::equal_groups:
        return "a group is excluded with itself";
    case Status::bin_in_use:
        return "placements are outstanding in the bin";
    case Status::too_large:
        return "a side of the bin would exceed 2^32 - 1";
    case Status::not_free:
        return "no free section of the bin holds the box there";
    case Status::unknown_axis:
        return "there is no axis of this number";
    case Status::not_from_cuts:
        return "no straight cuts part the boxes that stand in the bin";
    case Status::wrong_parts:
        return "no session has these parts";
    case Status::wrong_boxes:
        return "a box is outside the bin, or two share a cell";
    case Status::step_refused:
        return "a step of a packing as it is told cannot be done";
    case Status::unknown_options:
        return "the library knows other options of a search than this header";
    case Status::moved_from:
        return "this session or search was moved from, or the search has ended";
    }
    return "a status that this header does not know";
}

/// What a try_ call answers: a value, or the status of a refusal. It is true where it has a value. Some refusals say more: why() has it.
/// To take the value of one that has none ends the program.
template <class T, class Why = std::monostate> class [[nodiscard]] Result {
public:
    Result(T value) : value_(std::move(value)) {}
    Result(Status status, const Why &why = {}) noexcept : status_(status), why_(why) {}

    explicit operator bool() const noexcept { return value_.has_value(); }

    /// Status::done where there is a value.
    Status status() const noexcept { return status_; }

    /// What more there is to say of the refusal, where the call says so.
    const Why &why() const noexcept { return why_; }

    T &operator*() & noexcept { return (must_have(), *value_); }
    const T &operator*() const & noexcept { return (must_have(), *value_); }
    /// Of a result that is gone afterwards, the value itself, so that nothing is left to point to it.
    T operator*() && noexcept { return (must_have(), *std::move(value_)); }
    T *operator->() noexcept { return &**this; }
    const T *operator->() const noexcept { return &**this; }

private:
    void must_have() const noexcept
    {
        if (!value_)
            std::abort();
    }

    std::optional<T> value_;
    Status status_ = Status::done;
    Why why_ = {};
};

/// What boxes, bins and pieces of a bin are rated by.
enum class Heuristic : std::uint32_t {
    volume = RP_VOLUME,
    height = RP_HEIGHT,
    width = RP_WIDTH,
    depth = RP_DEPTH,
    side_sum = RP_SIDE_SUM,
    longest_side = RP_LONGEST_SIDE,
    shortest_side = RP_SHORTEST_SIDE,
    side_area = RP_SIDE_AREA,
    /// The one of these with which the bins are used best.
    best = RP_BEST,
};

/// The id of a bin in a session: any number that the caller chooses.
enum class BinId : std::uint32_t {};

/// The number of a placement in a session.
enum class PlacementNumber : std::uint64_t {};

using Bin = rp_bin;
using Box = rp_box;
using Member = rp_member;
using Exclusion = rp_exclusion;
/// Where a box stands: the index of its bin, and its corner there.
using Placement = rp_placement;
using Volume = rp_volume;
using Stats = rp_stats;
using Section = rp_section;

/// A bin of this size.
constexpr Bin bin(std::uint32_t width, std::uint32_t height, std::uint32_t depth = 1) noexcept
{
    return {width, height, depth};
}

/// A box of this size. The boxes of one group above 0 go into one bin; in group 0 each is alone.
constexpr Box box(std::uint32_t width, std::uint32_t height, std::uint32_t depth = 1, std::uint32_t group = 0) noexcept
{
    return {width, height, depth, group};
}

/// A list of the caller's, which is read and not copied: an array, a vector, a span, or whatever has data() and size(). It is
/// to be there until the call returns.
template <class T> class View {
public:
    /// A list without entries.
    constexpr View() noexcept = default;

    constexpr View(const T *data, std::size_t size) noexcept : data_(data), size_(size) {}

    template <std::size_t N> constexpr View(const T (&array)[N]) noexcept : data_(array), size_(N) {}

    template <class List, class = std::enable_if_t<
                              std::is_convertible_v<decltype(std::declval<const List &>().data()), const T *> &&
                              std::is_convertible_v<decltype(std::declval<const List &>().size()), std::size_t>>>
    constexpr View(const List &list) noexcept(noexcept(list.data())) : data_(list.data()), size_(list.size())
    {
    }

    /// Never null, as the calls ask.
    const T *data() const noexcept { return data_ ? data_ : &none_; }
    constexpr std::size_t size() const noexcept { return size_; }
    constexpr const T *begin() const noexcept { return data_; }
    constexpr const T *end() const noexcept { return data_ ? data_ + size_ : nullptr; }

private:
    static constexpr T none_{};
    const T *data_ = nullptr;
    std::size_t size_ = 0;
};

/// What is to be packed. A box of two groups has one of them in its own field, and a member for the other. Two groups that are
/// excluded do not share a bin.
struct Collection {
    View<Box> boxes;
    View<Member> members = {};
    View<Exclusion> exclusions = {};
};

/// Where the boxes of a collection stand: first those of the boxes, then those of the members. chosen is the heuristic that
/// was asked for, or with Heuristic::best the one that was taken.
template <class Place> struct Packed {
    std::vector<Place> placements;
    Heuristic chosen;
};

/// Where the boxes of a collection stand that fit: first those of the boxes, then those of the members; nothing for one that is
/// left, since no bin took its group. chosen is the heuristic that packed, and left how many are left.
template <class Place> struct Fitted {
    std::vector<std::optional<Place>> placements;
    Heuristic chosen;
    std::size_t left;
};

/// Where a box stands in a session, and the number by which it is released.
struct Outstanding {
    PlacementNumber number;
    BinId bin;
    std::uint32_t x, y, z;
};

/// An outstanding placement: its number; the index of its box in the call that packed it, where members stand behind the boxes,
/// and 0 for a box of place_at or place_best; its bin; and where it stands there.
struct Standing {
    PlacementNumber number;
    std::uint32_t index;
    BinId bin;
    Section section;
};

/// A bin of a saved session: its id, its size, whether it counts as coalesced, and its free sections, the newest last.
struct SavedBin {
    BinId id;
    Bin size;
    bool coalesced;
    std::vector<Section> free;
};

/// The parts of a session, as values that can be saved: its bins, their ids rising; its outstanding placements, their numbers
/// rising; and the number of the next placement, 2^64 - 1 where numbers are used up.
struct Parts {
    std::vector<SavedBin> bins;
    std::vector<Standing> placements;
    PlacementNumber next;
};

/// The axis that a straight cut is at right angles to, or leaf for a part that is not cut; the axis on which a bin grows.
enum class Axis : std::uint32_t { x = 0, y = 1, z = 2, leaf = RP_LEAF };

/// A step of a cutting plan: a straight cut across the whole part, so many cells from the corner of the bin. The plan of the
/// lower part follows, and then that of the upper part. A leaf has the place 0.
struct CutStep {
    Axis axis;
    std::uint32_t place;
};

/// A box that is to stand in a bin, once: rect is its size and its group, and turns the sum of 1 where height and depth may change
/// places, 2 where width and depth may, and 4 where width and height may.
using Entry = rp_entry;

/// Where somebody put a box: the index of the box in the list of entries, that of the bin, and where it stands there.
using Claim = rp_claim;

/// What may be wrong: the first four with one claim, the next four with two, and the last where all claims may stand.
enum class FaultKind : std::uint32_t {
    /// There is no bin of this index.
    unknown_bin = RP_FAULT_UNKNOWN_BIN,
    /// There is no box of this index.
    unknown_box = RP_FAULT_UNKNOWN_BOX,
    /// The size is not that of the box, nor one in which it may be turned.
    wrong_size = RP_FAULT_WRONG_SIZE,
    /// The box is not inside the bin.
    outside = RP_FAULT_OUTSIDE,
    /// Two claims place one box.
    placed_twice = RP_FAULT_PLACED_TWICE,
    /// Two claims share a cell of a bin.
    shares_cell = RP_FAULT_SHARES_CELL,
    /// Two claims are of one group, in two bins.
    group_in_two_bins = RP_FAULT_GROUP_IN_TWO_BINS,
    /// Two claims are of groups that are excluded, in one bin.
    excluded_together = RP_FAULT_EXCLUDED_TOGETHER,
    /// No claim places the box.
    not_placed = RP_FAULT_NOT_PLACED,
};

/// What is wrong with a packing. first is the claim, or the earlier of two, or, of not_placed, the box; second is the later of two
/// claims, else 0.
struct Fault {
    FaultKind kind;
    std::size_t first, second;
};

/// What it costs to use a bin.
using Cost = rp_cost;

/// What a bin costs that a list has at this index.
constexpr Cost cost(std::uint32_t bin, std::uint64_t each) noexcept
{
    return {bin, each};
}

/// What a bin of a session costs.
constexpr Cost cost(BinId id, std::uint64_t each) noexcept
{
    return {static_cast<std::uint32_t>(id), each};
}

/// How a search goes on, and what it may do.
struct SearchOptions {
    /// After so many tries it ends. A try packs the boxes of some bins anew; a million take some seconds.
    std::uint64_t tries = 20000;
    /// Equal seeds search alike.
    std::uint64_t seed = 0;
    /// Whether groups that find no space may be left.
    bool may_leave = false;
    /// How each box may be turned, as Entry has it. A box behind the end of the list is not turned; a member is turned as its box.
    View<std::uint32_t> turns = {};
    /// What bins cost. One that is not in the list costs 1; of several entries of a bin the first counts.
    View<Cost> costs = {};
};

/// Where a box stands that may be turned: the index of its bin, and its place there, in its size as it stands.
using Location = rp_location;

/// What a search found: where the boxes of a collection stand, first those of the boxes, then those of the members; nothing for one
/// that is left.
template <class Place> struct Searched {
    std::vector<std::optional<Place>> placements;
    /// How many are left, and how many bins have a box.
    std::size_t left, used;
    /// No packer that places all boxes uses fewer bins than this. Nothing where it is shown that none can place them.
    std::optional<std::size_t> least;
    /// Whether nothing is left and no more bins are used than are needed.
    bool is_optimal;
    /// How many tries were made.
    std::uint64_t tries;
};

/// How far a search is: how many tries were made, the cells of what is left, what the bins cost that are used, how many these are,
/// and whether there is nothing to be bettered, so that no more tries are made.
struct Progress {
    std::uint64_t tries;
    Volume left, cost;
    std::size_t bins;
    bool is_over;
};

/// A step of a packing as it is told: a group goes whole into a bin.
using Step = rp_step;

/// The group of the box of this index, or of a member behind the boxes, goes into the bin that a list has at this index; what is left
/// of a free section is cut by the heuristic, which is not the best of all.
constexpr Step step(std::uint32_t index, std::uint32_t bin, Heuristic heuristic = Heuristic::volume) noexcept
{
    return {index, bin, static_cast<std::uint32_t>(heuristic)};
}

/// The same into a bin of a session.
constexpr Step step(std::uint32_t index, BinId id, Heuristic heuristic = Heuristic::volume) noexcept
{
    return {index, static_cast<std::uint32_t>(id), static_cast<std::uint32_t>(heuristic)};
}

/// Why a step is refused: the first of these that is so.
enum class StepFault : std::uint32_t {
    /// There is no such bin.
    unknown_bin = RP_STEP_UNKNOWN_BIN,
    /// An earlier step names the group.
    named_twice = RP_STEP_NAMED_TWICE,
    /// A group that is excluded with this one went into the bin by an earlier step.
    excluded = RP_STEP_EXCLUDED,
    /// The bin does not take all boxes of the group.
    no_room = RP_STEP_NO_ROOM,
};

/// The first step that is refused, by its index, and why.
struct RefusedStep {
    std::size_t step = 0;
    StepFault fault = {};
};

#ifdef __cpp_exceptions

/// A refusal. Nothing was packed, and a session is as it was. It takes no memory.
class Error : public std::exception {
public:
    explicit Error(Status status) noexcept : status_(status) {}

    /// Which refusal it is.
    Status status() const noexcept { return status_; }

    /// What it means.
    const char *what() const noexcept override { return text(status_); }

private:
    Status status_;
};

/// No session has these parts: wrong() says why, by the numbers RP_WRONG_SECTIONS to RP_WRONG_CUTS.
class WrongParts : public Error {
public:
    explicit WrongParts(const rp_wrong &wrong) noexcept : Error(Status::wrong_parts), wrong_(wrong) {}

    /// What is wrong, and where.
    const rp_wrong &wrong() const noexcept { return wrong_; }

private:
    rp_wrong wrong_;
};

/// A box is outside the bin, or two share a cell: wrong() says which, by RP_WRONG_OUTSIDE and the index first, or by
/// RP_WRONG_SHARED_CELL and the indices first and second.
class WrongBoxes : public Error {
public:
    explicit WrongBoxes(const rp_wrong &wrong) noexcept : Error(Status::wrong_boxes), wrong_(wrong) {}

    /// What is wrong, and with which boxes.
    const rp_wrong &wrong() const noexcept { return wrong_; }

private:
    rp_wrong wrong_;
};

/// A step of a packing as it is told cannot be done.
class StepRefused : public Error {
public:
    explicit StepRefused(const RefusedStep &refused) noexcept : Error(Status::step_refused), refused_(refused) {}

    /// The index of the first step that is refused.
    std::size_t index() const noexcept { return refused_.step; }

    /// Why it is refused.
    StepFault fault() const noexcept { return refused_.fault; }

private:
    RefusedStep refused_;
};

#endif

namespace detail {

#ifdef __cpp_exceptions

[[noreturn]] inline void refuse(Status status, std::monostate = {})
{
    if (status == Status::moved_from)
        throw std::logic_error(text(status));
    throw Error(status);
}

[[noreturn]] inline void refuse(Status status, const rp_wrong &wrong)
{
    if (status == Status::wrong_parts)
        throw WrongParts(wrong);
    if (status == Status::wrong_boxes)
        throw WrongBoxes(wrong);
    refuse(status);
}

[[noreturn]] inline void refuse(Status status, const RefusedStep &refused)
{
    if (status == Status::step_refused)
        throw StepRefused(refused);
    refuse(status);
}

/// What the throwing calls make of the answers of the others.
inline void done(Status status)
{
    if (status != Status::done)
        refuse(status);
}

template <class T, class Why> T done(Result<T, Why> &&result)
{
    if (!result)
        refuse(result.status(), result.why());
    return *std::move(result);
}

#endif

/// The answer of a call that takes memory for lists; where that is refused, the status that says so.
template <class Call> auto with_memory(Call call) noexcept -> decltype(call())
{
#ifdef __cpp_exceptions
    try {
        return call();
    } catch (const std::exception &) {
        return Status::out_of_memory;
    }
#else
    return call();
#endif
}

/// What is made of the value of a result, or its refusal.
template <class T, class Make> auto made_of(Result<T> &&result, Make make) -> Result<decltype(make(*std::move(result)))>
{
    if (!result)
        return result.status();
    return make(*std::move(result));
}

/// Whether a collection may have placements. It is looked at before they get memory.
inline bool has_counts(const Collection &it) noexcept
{
    constexpr std::size_t most = std::numeric_limits<std::uint32_t>::max();
    return it.boxes.size() <= most && it.members.size() <= most - it.boxes.size() && it.exclusions.size() <= most;
}

inline rp_collection as_c(const Collection &it) noexcept
{
    return {it.boxes.data(),   it.boxes.size(),      it.members.data(),
            it.members.size(), it.exclusions.data(), it.exclusions.size()};
}

inline rp_search_options as_c(const SearchOptions &it) noexcept
{
    return {sizeof(rp_search_options), it.tries,          it.seed,         it.may_leave ? 1u : 0u,
            it.turns.data(),           it.turns.size(),   it.costs.data(), it.costs.size()};
}

inline RefusedStep refused_step(const rp_refused &it) noexcept
{
    return {it.step, StepFault{it.fault}};
}

/// The parts of a session as C takes them: lists that are there as long as this is.
struct PartsForC {
    explicit PartsForC(const Parts &parts)
    {
        for (const SavedBin &it : parts.bins) {
            const auto count = static_cast<std::uint32_t>(it.free.size());
            bins.push_back({static_cast<std::uint32_t>(it.id), it.size, it.coalesced ? 1u : 0u, count});
            sections.insert(sections.end(), it.free.begin(), it.free.end());
        }
        for (const Standing &it : parts.placements)
            placements.push_back({static_cast<std::uint64_t>(it.number), it.index, static_cast<std::uint32_t>(it.bin), it.section});
    }

    /// Whether the free sections of each bin can be counted.
    static bool has_counts(const Parts &parts) noexcept
    {
        constexpr std::size_t most = std::numeric_limits<std::uint32_t>::max();
        return std::all_of(parts.bins.begin(), parts.bins.end(), [](const SavedBin &it) { return it.free.size() <= most; });
    }

    rp_saved lists(PlacementNumber next) const noexcept
    {
        const View<rp_saved_bin> all_bins(bins);
        const View<rp_section> all_sections(sections);
        const View<rp_standing> all_placements(placements);
        return {all_bins.data(),       all_bins.size(),       all_sections.data(), all_sections.size(),
                all_placements.data(), all_placements.size(), static_cast<std::uint64_t>(next)};
    }

    std::vector<rp_saved_bin> bins;
    std::vector<rp_section> sections;
    std::vector<rp_standing> placements;
};

/// An array that a call writes to. It has an entry that is not counted, so that it is never null.
template <class T> class Room {
public:
    explicit Room(std::size_t size) : entries_(size + 1) {}
    T *data() noexcept { return entries_.data(); }
    std::size_t size() const noexcept { return entries_.size() - 1; }
    const T &operator[](std::size_t i) const noexcept { return entries_[i]; }

    /// The entries that are counted.
    std::vector<T> taken() &&
    {
        entries_.pop_back();
        return std::move(entries_);
    }

private:
    std::vector<T> entries_;
};

/// A list of what a function makes of entries.
template <class Written, class Of> using ListOf = std::vector<std::invoke_result_t<Of, const Written &>>;

/// The list that a call writes, each entry as `of` makes it. The array has at first so much room.
template <class Written, class Call, class Of> Result<ListOf<Written, Of>> read(std::size_t room, Call call, Of of) noexcept
{
    return with_memory([&]() -> Result<ListOf<Written, Of>> {
        Room<Written> array(room);
        std::size_t count = 0;
        Status status = call(array.data(), array.size(), &count);
        if (status == Status::short_array) {
            array = Room<Written>(count);
            status = call(array.data(), array.size(), &count);
        }
        if (status != Status::done)
            return status;
        ListOf<Written, Of> list;
        list.reserve(count);
        for (std::size_t i = 0; i < count; i++)
            list.push_back(of(array[i]));
        return list;
    });
}

/// The plan that a call writes, or nothing where there is none. A whole plan is made for each call, so the array has at first room
/// for most plans.
template <class Call> Result<std::optional<std::vector<CutStep>>> plan(std::size_t room, Call call) noexcept
{
    using Plan = std::optional<std::vector<CutStep>>;
    auto steps = read<rp_cut_step>(room, call, [](const rp_cut_step &it) { return CutStep{Axis{it.axis}, it.place}; });
    if (steps.status() == Status::no_plan)
        return Plan();
    return made_of(std::move(steps), [](std::vector<CutStep> &&it) { return Plan(std::move(it)); });
}

inline Placement same(const Placement &it) noexcept
{
    return it;
}

inline Outstanding outstanding(const rp_outstanding &it) noexcept
{
    const rp_placement &at = it.placement;
    return {PlacementNumber{it.number}, BinId{at.bin}, at.x, at.y, at.z};
}

inline Standing standing(const rp_standing &it) noexcept
{
    return {PlacementNumber{it.number}, it.index, BinId{it.bin}, it.section};
}

/// The placement of a box that may be left.
inline std::optional<Placement> unless_left(const Placement &it) noexcept
{
    return it.bin == RP_LEFT_BIN ? std::nullopt : std::optional<Placement>(it);
}

inline std::optional<Location> unless_left(const Location &it) noexcept
{
    return it.bin == RP_LEFT_BIN ? std::nullopt : std::optional<Location>(it);
}

/// The same in a session, where a bin may have any id.
inline std::optional<Outstanding> unless_left(const rp_outstanding &it) noexcept
{
    return it.number == RP_LEFT_NUMBER ? std::nullopt : std::optional<Outstanding>(outstanding(it));
}

inline std::optional<Standing> unless_left(const rp_standing &it) noexcept
{
    return it.number == RP_LEFT_NUMBER ? std::nullopt : std::optional<Standing>(standing(it));
}

/// The placements that a call writes of a collection, each as `of` makes it. The call is given the collection, an array and its
/// length. Both lists have all their memory before boxes are packed, so that no placement is lost.
template <class Written, class Call, class Of> Result<ListOf<Written, Of>> place(const Collection &it, Call call, Of of) noexcept
{
    if (!has_counts(it))
        return Status::bad_lengths;
    return with_memory([&]() -> Result<ListOf<Written, Of>> {
        constexpr bool is_kept = std::is_same_v<ListOf<Written, Of>, std::vector<Written>>;
        Room<Written> array(it.boxes.size() + it.members.size());
        ListOf<Written, Of> list;
        if (!is_kept)
            list.reserve(array.size());
        const rp_collection lists = as_c(it);
        const Status status = call(&lists, array.data(), array.size());
        if (status != Status::done)
            return status;
        if constexpr (is_kept)
            return std::move(array).taken();
        for (std::size_t i = 0; i < array.size(); i++)
            list.push_back(of(array[i]));
        return list;
    });
}

/// The same where boxes may be left.
template <class Written, class Call> auto place_some(const Collection &it, Call call) noexcept
{
    return place<Written>(it, call, [](const Written &at) { return unless_left(at); });
}

/// What fits, by a call that also writes how many are left.
template <class Place, class Written, class Call> Result<Fitted<Place>> fit(const Collection &it, Call call) noexcept
{
    rp_fitted said = {};
    auto placed = place_some<Written>(it, [&](auto... to) { return call(to..., &said); });
    return made_of(std::move(placed), [&](std::vector<std::optional<Place>> &&all) {
        return Fitted<Place>{std::move(all), Heuristic{said.heuristic}, said.left};
    });
}

/// What a search found, by a call that also writes what is to be said of it.
template <class Place, class Written, class Call>
Result<Searched<Place>> search(const Collection &it, const SearchOptions &options, Call call) noexcept
{
    const rp_search_options asked = as_c(options);
    rp_searched said = {};
    auto placed = place_some<Written>(it, [&](const rp_collection *list, Written *data, std::size_t size) {
        return call(list, &asked, data, size, &said);
    });
    return made_of(std::move(placed), [&](std::vector<std::optional<Place>> &&all) {
        std::optional<std::size_t> least;
        if (said.least != RP_NO_PACKING)
            least = said.least;
        return Searched<Place>{std::move(all), said.left, said.used, least, said.is_optimal != 0, said.tries};
    });
}

/// A packing as it is told, by a call that also writes which step is refused.
template <class Place, class Written, class Call>
Result<std::vector<std::optional<Place>>, RefusedStep> tell(const Collection &it, View<Step> steps, Call call) noexcept
{
    rp_refused refused = {};
    auto placed = place_some<Written>(it, [&](const rp_collection *list, Written *data, std::size_t size) {
        return call(list, steps.data(), steps.size(), data, size, &refused);
    });
    if (!placed)
        return {placed.status(), refused_step(refused)};
    return *std::move(placed);
}

} // namespace detail

/// Packs all boxes into the bins, by their volumes: placement i is where box i stands.
inline Result<std::vector<Placement>> try_pack(View<Bin> bins, View<Box> boxes) noexcept
{
    const auto call = [&](const rp_collection *, Placement *to, std::size_t size) {
        return Status{::rectangle_pack_boxes(bins.data(), bins.size(), boxes.data(), boxes.size(), to, size)};
    };
    return detail::place<Placement>({boxes}, call, detail::same);
}

/// Packs a collection into the bins, by a heuristic.
inline Result<Packed<Placement>> try_pack(View<Bin> bins, const Collection &collection,
                                          Heuristic heuristic = Heuristic::volume) noexcept
{
    std::uint32_t chosen = 0;
    const auto call = [&](const rp_collection *list, Placement *to, std::size_t size) {
        const auto asked = static_cast<std::uint32_t>(heuristic);
        return Status{::rectangle_pack_collection(bins.data(), bins.size(), list, asked, to, size, &chosen)};
    };
    return detail::made_of(detail::place<Placement>(collection, call, detail::same), [&](std::vector<Placement> &&all) {
        return Packed<Placement>{std::move(all), Heuristic{chosen}};
    });
}

/// Packs what fits of a collection into the bins, by a heuristic: a group that no bin takes is left, and the next one is tried. With
/// Heuristic::best it is that which leaves the fewest cells, and of several such the one that uses the bins best.
inline Result<Fitted<Placement>> try_fit(View<Bin> bins, const Collection &collection,
                                         Heuristic heuristic = Heuristic::volume) noexcept
{
    return detail::fit<Placement, Placement>(collection, [&](const rp_collection *list, auto... to) {
        const auto asked = static_cast<std::uint32_t>(heuristic);
        return Status{::rectangle_pack_fitting(bins.data(), bins.size(), list, asked, to...)};
    });
}

/// Packs what fits of boxes, by their volumes.
inline Result<Fitted<Placement>> try_fit(View<Bin> bins, View<Box> boxes) noexcept
{
    return try_fit(bins, Collection{boxes});
}

/// Packs a collection into the bins as it is told: step by step, each group into the bin of its step, which is an index. A step may
/// come from anyone. Groups that no step names are left. Of Status::step_refused, why() says which step is refused first, and why.
inline Result<std::vector<std::optional<Placement>>, RefusedStep> try_pack_told(View<Bin> bins, const Collection &collection,
                                                                               View<Step> steps) noexcept
{
    return detail::tell<Placement, Placement>(collection, steps, [&](auto... it) {
        return Status{::rectangle_pack_told(bins.data(), bins.size(), it...)};
    });
}

/// Searches for a packing of a collection into the bins that is better than that of any heuristic: fewer cells are left, or as many
/// and the bins cost less, or as much and fewer are used, or as many and the last one has fewer cells. Boxes are turned as the
/// options say. Equal calls get equal answers.
inline Result<Searched<Location>> try_search(View<Bin> bins, const Collection &collection, const SearchOptions &options = {}) noexcept
{
    return detail::search<Location, Location>(collection, options, [&](auto... it) {
        return Status{::rectangle_pack_searched(bins.data(), bins.size(), it...)};
    });
}

/// How many of the bins a collection needs at least, whatever packer places it; nothing where it is shown that none can place all of
/// it. turns[i] says how box i may be turned, as Entry has it; a box behind the end of the list is not turned.
inline Result<std::optional<std::size_t>> try_least_bins(View<Bin> bins, const Collection &collection,
                                                         View<std::uint32_t> turns = {}) noexcept
{
    const rp_collection list = detail::as_c(collection);
    std::size_t least = 0;
    const Status status{::rectangle_pack_least_bins(bins.data(), bins.size(), &list, turns.data(), turns.size(), &least)};
    if (status == Status::not_enough_space)
        return std::optional<std::size_t>();
    if (status != Status::done)
        return status;
    return std::optional<std::size_t>(least);
}

/// What is wrong first with a packing, whoever made it, as rectangle_pack_check says it; nothing where it is one: each box is placed
/// once, in a size in which it may stand, inside its bin, and shares no cell with another; the boxes of one group above 0 are in one
/// bin, and those of groups that are excluded in different ones.
inline Result<std::optional<Fault>> try_check(View<Bin> bins, View<Entry> entries, View<Claim> claims,
                                              View<Exclusion> exclusions = {}) noexcept
{
    rp_fault fault = {};
    const Status status{::rectangle_pack_check(bins.data(), bins.size(), entries.data(), entries.size(), exclusions.data(),
                                               exclusions.size(), claims.data(), claims.size(), &fault)};
    if (status != Status::done)
        return status;
    if (fault.kind == RP_NO_FAULT)
        return std::optional<Fault>();
    return std::optional<Fault>(Fault{FaultKind{fault.kind}, fault.first, fault.second});
}

/// The straight cuts, each across a whole part, that part a bin into boxes that stand in it and what is free beside them, whoever
/// put them there; nothing where no straight cuts leave the boxes whole. Boxes without cells have no part in it. It is
/// Status::wrong_boxes where a box is outside the bin, also one without cells, or two share a cell: why() says which, by
/// RP_WRONG_OUTSIDE and the index first, or by RP_WRONG_SHARED_CELL and the indices first and second.
inline Result<std::optional<std::vector<CutStep>>, rp_wrong> try_straight_cuts(const Bin &bin, View<Section> boxes) noexcept
{
    rp_wrong wrong = {};
    // For each box there are seldom more than three free sections, so four leaves.
    auto plan = detail::plan(8 * (boxes.size() + 1), [&](auto... to) {
        return Status{::rectangle_pack_straight_cuts(&bin, boxes.data(), boxes.size(), to..., &wrong)};
    });
    if (!plan)
        return {plan.status(), wrong};
    return *std::move(plan);
}

class Session;

/// A search in pieces, for a program that shows how far it is, or stops it. It moves and does not copy, and frees itself. It keeps
/// nothing of the lists that it was begun with. A call of one that was moved from, or has ended, is Status::moved_from.
class Search {
public:
    /// Begins a search for such a packing as search() answers. No try is made yet.
    static Result<Search> try_begin(View<Bin> bins, const Collection &collection, const SearchOptions &options = {}) noexcept
    {
        return begun(collection, options, [&](auto... it) {
            return Status{::rectangle_pack_search_begin(bins.data(), bins.size(), it...)};
        });
    }

    /// The same for the bins of a session, as they are now.
    static Result<Search> try_begin(const Session &session, const Collection &collection, const SearchOptions &options = {}) noexcept;

    Search(Search &&other) noexcept : search_(std::exchange(other.search_, none())) {}

    Search &operator=(Search &&other) noexcept
    {
        Search taken(std::move(other));
        std::swap(search_, taken.search_);
        return *this;
    }

    Search(const Search &) = delete;
    Search &operator=(const Search &) = delete;

    ~Search()
    {
        if (*this)
            ::rectangle_pack_search_free(&search_);
    }

    /// Whether there is a search: false once it was moved from, or has ended.
    explicit operator bool() const noexcept { return search_.at != nullptr; }

    /// Makes so many tries, or fewer where there is nothing to be bettered: how far the search is. Tries that are made in several calls
    /// find what they find in one. Where memory is refused the search has ended.
    Result<Progress> try_run(std::uint64_t tries) noexcept
    {
        rp_progress now = {};
        const Status status = *this ? Status{::rectangle_pack_search_run(&search_, tries, &now)} : Status::moved_from;
        if (status != Status::done)
            return status;
        return Progress{now.tries, now.left, now.cost, now.bins, now.is_over != 0};
    }

    /// Packs what was found, or what a heuristic finds where that is as good, into the bins that the search was begun with, the
    /// collection and the options the same too. The search has then ended, whatever is answered: std::move(search).try_found(..).
    Result<Searched<Location>> try_found(View<Bin> bins, const Collection &collection, const SearchOptions &options = {}) && noexcept
    {
        return std::move(*this).ended([&](rp_search *at) {
            return detail::search<Location, Location>(collection, options, [&](const rp_collection *list, const rp_search_options *asked,
                                                                               auto... to) {
                return Status{::rectangle_pack_found(bins.data(), bins.size(), list, asked, at, to...)};
            });
        });
    }

    /// The same into the bins of the session for which the search was begun.
    Result<Searched<Standing>> try_found(Session &session, const Collection &collection, const SearchOptions &options = {}) && noexcept;

#ifdef __cpp_exceptions
    // The same calls. A refusal is thrown as an Error, and Status::moved_from as a std::logic_error.

    Search(View<Bin> bins, const Collection &collection, const SearchOptions &options = {})
        : Search(detail::done(try_begin(bins, collection, options)))
    {
    }

    Search(const Session &session, const Collection &collection, const SearchOptions &options = {})
        : Search(detail::done(try_begin(session, collection, options)))
    {
    }

    Progress run(std::uint64_t tries) { return detail::done(try_run(tries)); }

    Searched<Location> found(View<Bin> bins, const Collection &collection, const SearchOptions &options = {}) &&
    {
        return detail::done(std::move(*this).try_found(bins, collection, options));
    }

    Searched<Standing> found(Session &session, const Collection &collection, const SearchOptions &options = {}) &&
    {
        return detail::done(std::move(*this).try_found(session, collection, options));
    }
#endif

private:
    explicit Search(rp_search search) noexcept : search_(search) {}

    static rp_search none() noexcept { return RP_NO_SEARCH; }

    /// The search that a call begins.
    template <class Call> static Result<Search> begun(const Collection &collection, const SearchOptions &options, Call call) noexcept
    {
        const rp_collection list = detail::as_c(collection);
        const rp_search_options asked = detail::as_c(options);
        Search search(none());
        const Status status = call(&list, &asked, &search.search_);
        if (status != Status::done)
            return status;
        return search;
    }

    /// What a call answers that ends the search. The search is freed where the call does not come to it.
    template <class Call> auto ended(Call call) && noexcept -> decltype(call(nullptr))
    {
        Search last(std::move(*this));
        if (!last)
            return Status::moved_from;
        return call(&last.search_);
    }

    rp_search search_ = RP_NO_SEARCH;
};

namespace detail {

/// So many tries are made between two questions whether to go on.
inline constexpr std::uint64_t tries_of_a_piece = 100;

/// Makes tries in pieces, and asks before each whether to go on.
template <class GoOn> Status run_while(Search &search, std::uint64_t tries, GoOn &go_on)
{
    Result<Progress> now = search.try_run(0);
    while (now && !now->is_over && tries > 0 && go_on(std::as_const(*now))) {
        const std::uint64_t next = std::min(tries, tries_of_a_piece);
        now = search.try_run(next);
        tries -= next;
    }
    return now.status();
}

/// Searches in pieces in bins, or in a session.
template <class Place, class Bins, class GoOn>
Result<Searched<Place>> search_while(Bins &bins, const Collection &collection, const SearchOptions &options, GoOn &go_on)
{
    Result<Search> search = Search::try_begin(bins, collection, options);
    if (!search)
        return search.status();
    const Status status = run_while(*search, options.tries, go_on);
    if (status != Status::done)
        return status;
    return std::move(*search).try_found(bins, collection, options);
}

template <class GoOn> using IfAsks = std::enable_if_t<std::is_invocable_r_v<bool, GoOn &, const Progress &>>;

} // namespace detail

/// Searches so, and asks now and then whether to go on: go_on is given the Progress, and answers a bool. Where it ends the search, what
/// was found stands.
template <class GoOn, class = detail::IfAsks<GoOn>>
Result<Searched<Location>> try_search(View<Bin> bins, const Collection &collection, const SearchOptions &options, GoOn go_on)
{
    return detail::search_while<Location>(bins, collection, options, go_on);
}

/// Bins that stay, and boxes that come and go. It moves and does not copy. It may go from thread to thread, but takes one call
/// at a time, also where calls only read and are const. A call of one that was moved from is Status::moved_from; it may be assigned
/// to. Where a call is refused, the session is as it was.
class Session {
public:
    /// A session without bins.
    static Result<Session> try_new() noexcept
    {
        Session session(none());
        const Status status{::rectangle_pack_session_new(&session.session_)};
        if (status != Status::done)
            return status;
        return session;
    }

    /// The session that has these parts, of any origin: no parts make a session that gives a cell twice. It is Status::wrong_parts
    /// where no session has them: why() says what is wrong, by the numbers RP_WRONG_SECTIONS to RP_WRONG_CUTS.
    static Result<Session, rp_wrong> try_restore(const Parts &parts) noexcept
    {
        if (!detail::PartsForC::has_counts(parts))
            return Status::bad_lengths;
        return detail::with_memory([&]() -> Result<Session, rp_wrong> {
            const detail::PartsForC list(parts);
            const rp_saved saved = list.lists(parts.next);
            Session session(none());
            rp_wrong wrong = {};
            const Status status{::rectangle_pack_session_restore(&session.session_, &saved, &wrong)};
            if (status != Status::done)
                return {status, wrong};
            return session;
        });
    }

    Session(Session &&other) noexcept : session_(std::exchange(other.session_, none())) {}

    Session &operator=(Session &&other) noexcept
    {
        Session taken(std::move(other));
        std::swap(session_, taken.session_);
        return *this;
    }

    Session(const Session &) = delete;
    Session &operator=(const Session &) = delete;

    ~Session()
    {
        if (*this)
            ::rectangle_pack_session_free(&session_);
    }

    /// Whether there is a session: false once it was moved from.
    explicit operator bool() const noexcept { return session_.at != nullptr; }

    /// Adds a bin under an id that no other bin of the session has.
    Status try_add_bin(BinId id, const Bin &size) noexcept
    {
        return ask(::rectangle_pack_session_add_bin, number(id), size.width, size.height, size.depth);
    }

    /// Packs all boxes into what is free in the bins, by their volumes: placement i is where box i stands.
    Result<std::vector<Outstanding>> try_pack(View<Box> boxes) noexcept
    {
        const auto call = [&](const rp_collection *, rp_outstanding *to, std::size_t size) {
            return ask(::rectangle_pack_session_pack, boxes.data(), boxes.size(), to, size);
        };
        return detail::place<rp_outstanding>({boxes}, call, detail::outstanding);
    }

    /// Packs a collection into what is free in the bins, by a heuristic.
    Result<Packed<Outstanding>> try_pack(const Collection &collection, Heuristic heuristic = Heuristic::volume) noexcept
    {
        std::uint32_t chosen = 0;
        const auto call = [&](const rp_collection *list, rp_outstanding *to, std::size_t size) {
            return ask(::rectangle_pack_session_pack_collection, list, number(heuristic), to, size, &chosen);
        };
        auto placed = detail::place<rp_outstanding>(collection, call, detail::outstanding);
        return detail::made_of(std::move(placed), [&](std::vector<Outstanding> &&all) {
            return Packed<Outstanding>{std::move(all), Heuristic{chosen}};
        });
    }

    /// Packs what fits of a collection into what is free in the bins, by a heuristic: a group that no bin takes is left, and the next
    /// one is tried. With Heuristic::best it is that which leaves the fewest cells, and of several such the one that uses the bins
    /// best.
    Result<Fitted<Outstanding>> try_fit(const Collection &collection, Heuristic heuristic = Heuristic::volume) noexcept
    {
        return detail::fit<Outstanding, rp_outstanding>(collection, [&](const rp_collection *list, auto... to) {
            return ask(::rectangle_pack_session_pack_fitting, list, number(heuristic), to...);
        });
    }

    /// Packs what fits of boxes, by their volumes.
    Result<Fitted<Outstanding>> try_fit(View<Box> boxes) noexcept { return try_fit(Collection{boxes}); }

    /// Packs a collection into what is free in the bins as it is told: step by step, each group into the bin of its step, which is an
    /// id. Groups that no step names are left. Of Status::step_refused, why() says which step is refused first, and why.
    Result<std::vector<std::optional<Outstanding>>, RefusedStep> try_pack_told(const Collection &collection, View<Step> steps) noexcept
    {
        return detail::tell<Outstanding, rp_outstanding>(collection, steps, [&](auto... it) {
            return ask(::rectangle_pack_session_pack_told, it...);
        });
    }

    /// Searches for a packing of a collection into what is free in the bins that is better than that of any heuristic. The bins of
    /// the costs are ids. For used, least and is_optimal it does not count what stood in the bins before.
    Result<Searched<Standing>> try_search(const Collection &collection, const SearchOptions &options = {}) noexcept
    {
        return detail::search<Standing, rp_standing>(collection, options, [&](auto... it) {
            return ask(::rectangle_pack_session_pack_searched, it...);
        });
    }

    /// Searches so, and asks now and then whether to go on: go_on is given the Progress, and answers a bool. Where it ends the search,
    /// what was found stands.
    template <class GoOn, class = detail::IfAsks<GoOn>>
    Result<Searched<Standing>> try_search(const Collection &collection, const SearchOptions &options, GoOn go_on)
    {
        return detail::search_while<Standing>(*this, collection, options, go_on);
    }

    /// Takes back a placement by its number: its cells are free again.
    Status try_release(PlacementNumber placement) noexcept
    {
        return ask(::rectangle_pack_session_release, static_cast<std::uint64_t>(placement));
    }

    /// Takes back placements by their numbers, each once, all or none.
    Status try_release_all(View<PlacementNumber> placements) noexcept
    {
        return detail::with_memory([&] {
            detail::Room<std::uint64_t> numbers(placements.size());
            std::size_t i = 0;
            for (PlacementNumber it : placements)
                numbers.data()[i++] = static_cast<std::uint64_t>(it);
            return ask(::rectangle_pack_session_release_all, numbers.data(), numbers.size());
        });
    }

    /// Joins free sections of a bin until no two share a whole face.
    Status try_coalesce_all(BinId id) noexcept { return ask(::rectangle_pack_session_coalesce_all, number(id)); }

    /// Joins the free section of this index with those from index start to below end.
    Status try_coalesce(BinId id, std::size_t index, std::size_t start, std::size_t end) noexcept
    {
        return ask(::rectangle_pack_session_coalesce, number(id), index, start, end);
    }

    /// Makes a bin whole again: all of it is one free section, its boxes are no longer outstanding, and it does not count as
    /// coalesced.
    Status try_clear_bin(BinId id) noexcept { return ask(::rectangle_pack_session_clear_bin, number(id)); }

    /// Takes a bin out of the session. No box may be outstanding in it.
    Status try_remove_bin(BinId id) noexcept { return ask(::rectangle_pack_session_remove_bin, number(id)); }

    /// Makes a bin larger by so many cells on an axis: what is new is its newest free section. On Axis::leaf none grows.
    Status try_grow_bin(BinId id, Axis axis, std::uint32_t by) noexcept
    {
        return ask(::rectangle_pack_session_grow_bin, number(id), static_cast<std::uint32_t>(axis), by);
    }

    /// Cuts the free part of a bin anew: straight cuts part the bin into its boxes and the new free sections, the one with the
    /// greatest least side first. A bin without boxes becomes one section.
    Status try_recut(BinId id) noexcept { return ask(::rectangle_pack_session_recut, number(id)); }

    /// Places a box at a place of the caller's choice, its corner and its sides, which one free section has to hold: the number
    /// of the placement.
    Result<PlacementNumber> try_place_at(BinId id, const Section &location) noexcept
    {
        return detail::made_of(told<std::uint64_t>(::rectangle_pack_session_place_at, number(id), &location), numbered);
    }

    /// Places one box, whose group does not count, into the free section of a bin that it fits best, and cuts the rest by a
    /// heuristic, which is not the best of all: where the box stands.
    Result<Outstanding> try_place_best(BinId id, const Box &size, Heuristic heuristic = Heuristic::volume) noexcept
    {
        return detail::made_of(
            told<rp_outstanding>(::rectangle_pack_session_place_best, number(id), &size, number(heuristic)), detail::outstanding);
    }

    /// The same in any bin: in that one which it fits best, and of several such in the one with the least id.
    Result<Outstanding> try_place_best(const Box &size, Heuristic heuristic = Heuristic::volume) noexcept
    {
        return detail::made_of(
            told<rp_outstanding>(::rectangle_pack_session_place_best_anywhere, &size, number(heuristic)), detail::outstanding);
    }

    /// What is free and what is placed in a bin.
    Result<Stats> try_stats(BinId id) const noexcept { return told<Stats>(::rectangle_pack_session_stats, number(id)); }

    /// The ids of all bins, in rising order.
    Result<std::vector<BinId>> try_bins() const noexcept
    {
        const auto call = [this](auto... to) { return ask(::rectangle_pack_session_bins, to...); };
        return detail::read<std::uint32_t>(16, call, [](std::uint32_t id) { return BinId{id}; });
    }

    /// The free sections of a bin, the newest last.
    Result<std::vector<Section>> try_free_sections(BinId id) const noexcept
    {
        const auto call = [&](auto... to) { return ask(::rectangle_pack_session_free_sections, number(id), to...); };
        return detail::read<rp_section>(16, call, [](const rp_section &it) { return it; });
    }

    /// The outstanding placements of all bins, in the order of their numbers.
    Result<std::vector<Standing>> try_outstanding() const noexcept
    {
        const auto call = [this](auto... to) { return ask(::rectangle_pack_session_outstanding, to...); };
        return detail::read<rp_standing>(16, call, detail::standing);
    }

    /// The outstanding placements of one bin, in the order of their numbers.
    Result<std::vector<Standing>> try_outstanding_in(BinId id) const noexcept
    {
        const auto call = [&](auto... to) { return ask(::rectangle_pack_session_outstanding_in, number(id), to...); };
        return detail::read<rp_standing>(16, call, detail::standing);
    }

    /// The straight cuts that part a bin into its free sections and its boxes, or nothing where no straight cuts do.
    Result<std::optional<std::vector<CutStep>>> try_cut_plan(BinId id) const noexcept
    {
        const Result<Stats> has = try_stats(id);
        if (!has)
            return has.status();
        const auto call = [&](auto... to) { return ask(::rectangle_pack_session_cut_plan, number(id), to...); };
        return detail::plan(2 * (has->free_sections + has->placements), call);
    }

    /// Whether a call that joins sections was done for the bin since it was added or last cleared, also if it joined nothing.
    Result<bool> try_was_coalesced(BinId id) const noexcept
    {
        return detail::made_of(told<std::uint32_t>(::rectangle_pack_session_was_coalesced, number(id)),
                               [](std::uint32_t coalesced) { return coalesced != 0; });
    }

    /// The size of a bin.
    Result<Bin> try_bin_size(BinId id) const noexcept { return told<Bin>(::rectangle_pack_session_bin_size, number(id)); }

    /// The parts of the session, as values.
    Result<Parts> try_parts() const noexcept
    {
        return detail::with_memory([this]() -> Result<Parts> {
            Result<std::vector<Standing>> placements = try_outstanding();
            if (!placements)
                return placements.status();
            const Result<std::vector<BinId>> ids = try_bins();
            if (!ids)
                return ids.status();
            Parts parts = {{}, *std::move(placements), PlacementNumber{::rectangle_pack_session_next_number(&session_)}};
            for (const BinId id : *ids) {
                Result<std::vector<Section>> free = try_free_sections(id);
                const Result<bool> coalesced = try_was_coalesced(id);
                const Result<Bin> size = try_bin_size(id);
                if (!free)
                    return free.status();
                parts.bins.push_back({id, *size, *coalesced, *std::move(free)});
            }
            return parts;
        });
    }

    /// The number that the next placement gets, or nothing where numbers are used up.
    Result<std::optional<PlacementNumber>> try_next_number() const noexcept
    {
        if (!*this)
            return Status::moved_from;
        const std::uint64_t next = ::rectangle_pack_session_next_number(&session_);
        if (next == std::numeric_limits<std::uint64_t>::max())
            return std::optional<PlacementNumber>();
        return std::optional<PlacementNumber>(PlacementNumber{next});
    }

#ifdef __cpp_exceptions
    // The same calls. A refusal is thrown as an Error, and Status::moved_from as a std::logic_error.

    Session() : Session(detail::done(try_new())) {}

    /// Throws WrongParts where no session has the parts.
    static Session restore(const Parts &parts) { return detail::done(try_restore(parts)); }

    void add_bin(BinId id, const Bin &size) { detail::done(try_add_bin(id, size)); }
    std::vector<Outstanding> pack(View<Box> boxes) { return detail::done(try_pack(boxes)); }

    Packed<Outstanding> pack(const Collection &collection, Heuristic heuristic = Heuristic::volume)
    {
        return detail::done(try_pack(collection, heuristic));
    }

    Fitted<Outstanding> fit(const Collection &collection, Heuristic heuristic = Heuristic::volume)
    {
        return detail::done(try_fit(collection, heuristic));
    }

    Fitted<Outstanding> fit(View<Box> boxes) { return detail::done(try_fit(boxes)); }

    /// Throws StepRefused where a step cannot be done.
    std::vector<std::optional<Outstanding>> pack_told(const Collection &collection, View<Step> steps)
    {
        return detail::done(try_pack_told(collection, steps));
    }

    Searched<Standing> search(const Collection &collection, const SearchOptions &options = {})
    {
        return detail::done(try_search(collection, options));
    }

    template <class GoOn, class = detail::IfAsks<GoOn>>
    Searched<Standing> search(const Collection &collection, const SearchOptions &options, GoOn go_on)
    {
        return detail::done(try_search(collection, options, std::move(go_on)));
    }

    void release(PlacementNumber placement) { detail::done(try_release(placement)); }
    void release_all(View<PlacementNumber> placements) { detail::done(try_release_all(placements)); }
    void coalesce_all(BinId id) { detail::done(try_coalesce_all(id)); }

    void coalesce(BinId id, std::size_t index, std::size_t start, std::size_t end)
    {
        detail::done(try_coalesce(id, index, start, end));
    }

    void clear_bin(BinId id) { detail::done(try_clear_bin(id)); }
    void remove_bin(BinId id) { detail::done(try_remove_bin(id)); }
    void grow_bin(BinId id, Axis axis, std::uint32_t by) { detail::done(try_grow_bin(id, axis, by)); }
    void recut(BinId id) { detail::done(try_recut(id)); }
    PlacementNumber place_at(BinId id, const Section &location) { return detail::done(try_place_at(id, location)); }

    Outstanding place_best(BinId id, const Box &size, Heuristic heuristic = Heuristic::volume)
    {
        return detail::done(try_place_best(id, size, heuristic));
    }

    Outstanding place_best(const Box &size, Heuristic heuristic = Heuristic::volume)
    {
        return detail::done(try_place_best(size, heuristic));
    }

    Stats stats(BinId id) const { return detail::done(try_stats(id)); }
    std::vector<BinId> bins() const { return detail::done(try_bins()); }
    std::vector<Section> free_sections(BinId id) const { return detail::done(try_free_sections(id)); }
    std::vector<Standing> outstanding() const { return detail::done(try_outstanding()); }
    std::vector<Standing> outstanding_in(BinId id) const { return detail::done(try_outstanding_in(id)); }
    std::optional<std::vector<CutStep>> cut_plan(BinId id) const { return detail::done(try_cut_plan(id)); }
    bool was_coalesced(BinId id) const { return detail::done(try_was_coalesced(id)); }
    Bin bin_size(BinId id) const { return detail::done(try_bin_size(id)); }
    Parts parts() const { return detail::done(try_parts()); }
    std::optional<PlacementNumber> next_number() const { return detail::done(try_next_number()); }
#endif

private:
    friend class Search;

    explicit Session(rp_session session) noexcept : session_(session) {}

    static rp_session none() noexcept { return RP_NO_SESSION; }
    static std::uint32_t number(BinId id) noexcept { return static_cast<std::uint32_t>(id); }
    static std::uint32_t number(Heuristic heuristic) noexcept { return static_cast<std::uint32_t>(heuristic); }
    static PlacementNumber numbered(std::uint64_t number) noexcept { return PlacementNumber{number}; }

    /// What a call answers of the session. The calls that read take the handle as not const too.
    template <class... Asked, class... Given>
    Status ask(std::uint32_t (*call)(rp_session *, Asked...), Given... given) const noexcept
    {
        return *this ? Status{call(&session_, given...)} : Status::moved_from;
    }

    /// What a call writes of the session to its last argument.
    template <class Written, class... Asked, class... Given>
    Result<Written> told(std::uint32_t (*call)(rp_session *, Asked...), Given... given) const noexcept
    {
        Written written{};
        const Status status = ask(call, given..., &written);
        if (status != Status::done)
            return status;
        return written;
    }

    mutable rp_session session_ = RP_NO_SESSION;
};

inline Result<Search> Search::try_begin(const Session &session, const Collection &collection, const SearchOptions &options) noexcept
{
    return begun(collection, options, [&](auto... it) { return session.ask(::rectangle_pack_session_search_begin, it...); });
}

inline Result<Searched<Standing>> Search::try_found(Session &session, const Collection &collection,
                                                    const SearchOptions &options) && noexcept
{
    return std::move(*this).ended([&](rp_search *at) {
        return detail::search<Standing, rp_standing>(collection, options, [&](const rp_collection *list,
                                                                              const rp_search_options *asked, auto... to) {
            return session.ask(::rectangle_pack_session_pack_found, list, asked, at, to...);
        });
    });
}

#ifdef __cpp_exceptions
// The calls that pack once and those that judge. A refusal is thrown as an Error.

inline std::vector<Placement> pack(View<Bin> bins, View<Box> boxes)
{
    return detail::done(try_pack(bins, boxes));
}

inline Packed<Placement> pack(View<Bin> bins, const Collection &collection, Heuristic heuristic = Heuristic::volume)
{
    return detail::done(try_pack(bins, collection, heuristic));
}

inline Fitted<Placement> fit(View<Bin> bins, const Collection &collection, Heuristic heuristic = Heuristic::volume)
{
    return detail::done(try_fit(bins, collection, heuristic));
}

inline Fitted<Placement> fit(View<Bin> bins, View<Box> boxes)
{
    return detail::done(try_fit(bins, boxes));
}

/// Throws StepRefused where a step cannot be done.
inline std::vector<std::optional<Placement>> pack_told(View<Bin> bins, const Collection &collection, View<Step> steps)
{
    return detail::done(try_pack_told(bins, collection, steps));
}

inline Searched<Location> search(View<Bin> bins, const Collection &collection, const SearchOptions &options = {})
{
    return detail::done(try_search(bins, collection, options));
}

template <class GoOn, class = detail::IfAsks<GoOn>>
Searched<Location> search(View<Bin> bins, const Collection &collection, const SearchOptions &options, GoOn go_on)
{
    return detail::done(try_search(bins, collection, options, std::move(go_on)));
}

inline std::optional<std::size_t> least_bins(View<Bin> bins, const Collection &collection, View<std::uint32_t> turns = {})
{
    return detail::done(try_least_bins(bins, collection, turns));
}

inline std::optional<Fault> check(View<Bin> bins, View<Entry> entries, View<Claim> claims, View<Exclusion> exclusions = {})
{
    return detail::done(try_check(bins, entries, claims, exclusions));
}

/// Throws WrongBoxes where a box is outside the bin, or two share a cell.
inline std::optional<std::vector<CutStep>> straight_cuts(const Bin &bin, View<Section> boxes)
{
    return detail::done(try_straight_cuts(bin, boxes));
}

#endif

} // namespace rectangle_pack

#endif
