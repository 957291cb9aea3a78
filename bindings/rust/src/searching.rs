//! Packings that are searched for.

use std::collections::BTreeMap;
use std::error::Error;
use std::fmt;

use crate::fitting::left_among;
use crate::pack::bins_for_c;
use crate::{
    ffi, Group, GroupedRectsToPlace, PackedLocation, RectanglePackError, RectanglePackOk, TargetBin, Turns,
};

/// How a search goes on, and what it may do.
#[derive(Debug)]
pub struct SearchOptions<'t, RectId, BinId> {
    /// After so many tries a search in one call ends. A try packs the boxes of some bins anew; a million of them take some seconds.
    pub tries: u64,
    /// Equal seeds search alike.
    pub seed: u64,
    /// Whether groups may be left that find no space.
    pub may_leave: bool,
    /// Which boxes may be turned, and about which axes. A box whose id is not here stands as it is. One that is in several groups may
    /// be turned in each.
    pub turns: &'t BTreeMap<RectId, Turns>,
    /// What it costs to use a bin; 1 where its id is not here.
    pub costs: &'t BTreeMap<BinId, u64>,
}

/// A packing that was searched for.
#[derive(Debug, Clone, PartialEq, Eq)]
pub struct Searched<P, K> {
    /// What was placed. A box was turned where its location has another size than the box.
    pub packed: P,
    /// The groups that no bin took: boxes that are alone by their ids, then groups by theirs.
    pub left: Vec<K>,
    /// How many bins have a box of the packing.
    pub used: usize,
    /// How many bins are needed at least, as [`least_bins`](crate::least_bins) answers it.
    pub least: Option<usize>,
    /// Whether it is proved that no packer uses fewer bins: nothing is left, and no more bins are used than are needed.
    pub is_optimal: bool,
    /// How many tries were made.
    pub tries: u64,
}

/// What was found for boxes, in bins of one call.
type SearchedOk<'a, RectId, BinId, GroupId> =
    Searched<RectanglePackOk<RectId, BinId>, Group<'a, GroupId, RectId>>;

/// How far a search is.
#[derive(Debug, Clone, Copy, PartialEq, Eq)]
pub struct Progress {
    /// The tries that were made.
    pub tries: u64,
    /// The cells of the groups that are left.
    pub left: u128,
    /// What the bins cost that are used, together.
    pub cost: u128,
    /// How many bins are used.
    pub bins: usize,
}

/// Memory was refused.
#[derive(Debug, Clone, Copy, PartialEq, Eq)]
pub struct AllocError;

impl fmt::Display for AllocError {
    fn fmt(&self, f: &mut fmt::Formatter<'_>) -> fmt::Result {
        f.write_str("Out of memory.")
    }
}

impl Error for AllocError {}

/// So many tries are made between two questions whether to go on.
const PIECE: u64 = 100;

/// A search on its way for a packing that leaves few cells, at a low cost, in few bins. It keeps nothing of what it was begun with.
///
/// What it finds is packed by [`pack_rects_found`], or into a session by [`Session::pack_found`](crate::Session::pack_found).
#[derive(Debug)]
pub struct Search {
    begun: ffi::Begun,
    progress: Progress,
    is_over: bool,
}

impl Search {
    pub(crate) fn of(mut begun: ffi::Begun) -> Result<Self, AllocError> {
        let (progress, is_over) = begun.run(0)?;
        Ok(Search {
            begun,
            progress,
            is_over,
        })
    }

    pub(crate) fn into_begun(self) -> ffi::Begun {
        self.begun
    }

    /// Makes so many tries, or fewer where there is nothing to be bettered. `go_on` is asked before each hundred of them. Tries that
    /// are made in several calls find what they find in one.
    ///
    /// # Errors
    ///
    /// `AllocError`. The search has then ended: each later call fails so too.
    pub fn run(&mut self, tries: u64, mut go_on: impl FnMut(&Progress) -> bool) -> Result<(), AllocError> {
        let mut rest = tries;
        while rest > 0 && !self.is_over && go_on(&self.progress) {
            let next = rest.min(PIECE);
            let (progress, is_over) = self.begun.run(next)?;
            self.progress = progress;
            self.is_over = is_over;
            rest -= next;
        }
        Ok(())
    }

    /// How far the search is.
    pub fn progress(&self) -> Progress {
        self.progress
    }

    /// Whether the last call found that there is nothing to be bettered. Then no more tries are made.
    pub fn is_over(&self) -> bool {
        self.is_over
    }
}

/// Searches for a packing that is better than that of any heuristic: it leaves fewer cells, or as many in bins that cost less, or as
/// much with fewer bins, or as many with fewer cells in the last one. Answers the best that is found, the groups that are left, and
/// whether it is proved that no packer uses fewer bins.
///
/// Groups go whole, groups that are excluded go into different bins, and boxes are turned only as the options say. `go_on` is asked
/// from time to time whether to go on; what was found stands. Equal input, tries and seed give an equal answer where `go_on` answers
/// alike.
///
/// ```
/// # use std::collections::BTreeMap;
/// # use rectangle_pack::{pack_rects_searched, GroupedRectsToPlace, RectToInsert, SearchOptions, TargetBin, Turns};
/// # let mut rects: GroupedRectsToPlace<&str, u32> = GroupedRectsToPlace::new();
/// rects.push_rect("door", None, RectToInsert::new(4, 10, 1));
/// rects.push_rect("shelf", None, RectToInsert::new(10, 6, 1));
/// let bins = BTreeMap::from([("sheet", TargetBin::new(10, 10, 1)), ("next", TargetBin::new(10, 10, 1))]);
/// let (turns, costs) = (BTreeMap::from([("shelf", Turns::FLAT)]), BTreeMap::new());
/// let options = SearchOptions { tries: 1000, seed: 0, may_leave: false, turns: &turns, costs: &costs };
/// let found = pack_rects_searched(&rects, &bins, &options, |_| true)?;
/// // The shelf is turned, and stands beside the door.
/// assert_eq!((found.used, found.is_optimal), (1, true));
/// assert_eq!(found.packed.packed_locations()["shelf"].1.height(), 10);
/// # Ok::<(), rectangle_pack::RectanglePackError>(())
/// ```
///
/// # Errors
///
/// `TooMany`, `EqualGroups` or `OutOfMemory`; or `NotEnoughBinSpace` where nothing may be left, the packing is refused with each
/// heuristic, and none was found.
pub fn pack_rects_searched<'a, RectId, BinId, GroupId>(
    rects: &'a GroupedRectsToPlace<RectId, GroupId>,
    bins: &BTreeMap<BinId, TargetBin>,
    options: &SearchOptions<'_, RectId, BinId>,
    go_on: impl FnMut(&Progress) -> bool,
) -> Result<SearchedOk<'a, RectId, BinId, GroupId>, RectanglePackError>
where
    RectId: Ord + Clone,
    BinId: Ord + Clone,
    GroupId: Ord,
{
    let mut search = begin_search(rects, bins, options)?;
    search.run(options.tries, go_on)?;
    pack_rects_found(rects, bins, options, search)
}

/// Begins a search for such a packing. It is made in as many calls of [`Search::run`] as the caller likes, each of so many tries, and
/// what it finds is packed by [`pack_rects_found`]. The options' `tries` do not count.
///
/// ```
/// # use std::collections::BTreeMap;
/// # use rectangle_pack::{begin_search, pack_rects_found, GroupedRectsToPlace, RectToInsert, SearchOptions, TargetBin};
/// # let mut rects: GroupedRectsToPlace<u32, u32> = GroupedRectsToPlace::new();
/// # for id in 0..4 {
/// #     rects.push_rect(id, None, RectToInsert::new(5, 5, 1));
/// # }
/// # let bins: BTreeMap<u32, TargetBin> = (0..4).map(|id| (id, TargetBin::new(10, 10, 1))).collect();
/// # let (turns, costs) = (BTreeMap::new(), BTreeMap::new());
/// # let options = SearchOptions { tries: 0, seed: 1, may_leave: false, turns: &turns, costs: &costs };
/// let mut search = begin_search(&rects, &bins, &options)?;
/// while !search.is_over() && search.progress().tries < 1000 {
///     search.run(100, |_| true)?;
/// }
/// let found = pack_rects_found(&rects, &bins, &options, search)?;
/// assert!(found.is_optimal);
/// # Ok::<(), rectangle_pack::RectanglePackError>(())
/// ```
///
/// # Errors
///
/// `TooMany`, `EqualGroups` or `OutOfMemory`.
pub fn begin_search<RectId, BinId, GroupId>(
    rects: &GroupedRectsToPlace<RectId, GroupId>,
    bins: &BTreeMap<BinId, TargetBin>,
    options: &SearchOptions<'_, RectId, BinId>,
) -> Result<Search, RectanglePackError>
where
    RectId: Ord + Clone,
    BinId: Ord + Clone,
    GroupId: Ord,
{
    let entries = rects.entries();
    let bin_list = bins_for_c(entries.len(), bins)?;
    let wanted = wanted_for_c(&entries, options, &numbers_of(bins));
    let begun = ffi::begin_search(&bin_list, &rects.collection(&entries), &wanted)?;
    Ok(Search::of(begun)?)
}

/// Packs what a search found, or the best that a heuristic finds where that is as good, as [`pack_rects_searched`] does. Where the
/// search was begun with other boxes, bins or options, what it found may be of no use; what is proved of the packing holds
/// nevertheless.
///
/// # Errors
///
/// As of `pack_rects_searched`.
pub fn pack_rects_found<'a, RectId, BinId, GroupId>(
    rects: &'a GroupedRectsToPlace<RectId, GroupId>,
    bins: &BTreeMap<BinId, TargetBin>,
    options: &SearchOptions<'_, RectId, BinId>,
    search: Search,
) -> Result<SearchedOk<'a, RectId, BinId, GroupId>, RectanglePackError>
where
    RectId: Ord + Clone,
    BinId: Ord + Clone,
    GroupId: Ord,
{
    let entries = rects.entries();
    let bin_list = bins_for_c(entries.len(), bins)?;
    let wanted = wanted_for_c(&entries, options, &numbers_of(bins));
    let found = ffi::found(&bin_list, &rects.collection(&entries), &wanted, search.into_begun())?;
    let all = entries.iter().zip(&found.listed);
    let placed = all.filter_map(|(&(id, _), at)| {
        let at = at.as_ref()?;
        Some((id, at.bin, PackedLocation::from(&at.section)))
    });
    let packed = RectanglePackOk::named(bins, placed);
    Ok(searched(rects, &entries, packed, found))
}

/// What is answered of what was found and packed.
pub(crate) fn searched<'a, RectId: Ord + Clone, GroupId: Ord, P, T>(
    rects: &'a GroupedRectsToPlace<RectId, GroupId>,
    entries: &[(&'a RectId, u32)],
    packed: P,
    found: ffi::Found<T>,
) -> Searched<P, Group<'a, GroupId, RectId>> {
    Searched {
        packed,
        left: left_among(rects, entries, &found.listed),
        used: found.used,
        least: found.least,
        is_optimal: found.is_optimal,
        tries: found.tries,
    }
}

/// Bins by the numbers that C knows them by: their places.
fn numbers_of<BinId: Ord, T>(bins: &BTreeMap<BinId, T>) -> BTreeMap<&BinId, u32> {
    bins.keys().zip(0..).collect()
}

/// How each entry may be turned, as C has it.
pub(crate) fn turns_for_c<RectId: Ord>(
    entries: &[(&RectId, u32)],
    turns: &BTreeMap<RectId, Turns>,
) -> Vec<u32> {
    entries.iter().map(|&(id, _)| Turns::of(turns, id)).collect()
}

/// What is asked of a search, as C takes it. What a bin would cost that is not there does not count.
pub(crate) fn wanted_for_c<RectId: Ord, BinId: Ord>(
    entries: &[(&RectId, u32)],
    options: &SearchOptions<'_, RectId, BinId>,
    numbers: &BTreeMap<&BinId, u32>,
) -> ffi::Wanted {
    let costs = options.costs.iter();
    let costs = costs.filter_map(|(id, &cost)| {
        let &bin = numbers.get(id)?;
        Some(ffi::RpCost { bin, cost })
    });
    ffi::Wanted {
        seed: options.seed,
        may_leave: options.may_leave,
        turns: turns_for_c(entries, options.turns),
        costs: costs.collect(),
    }
}
