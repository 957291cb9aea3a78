//! Packing what fits: groups that no bin takes are left.

use std::collections::BTreeMap;

use crate::pack::bins_for_c;
use crate::{ffi, GroupedRectsToPlace, Heuristic, RectanglePackError, RectanglePackOk, TargetBin};

/// What a packing answers that leaves what does not fit.
#[derive(Debug, Clone, PartialEq, Eq)]
pub struct Fitted<P, K> {
    /// What was placed: all but the boxes of the groups that are left.
    pub packed: P,
    /// The groups that no bin took: boxes that are alone by their ids, then groups by theirs.
    pub left: Vec<K>,
}

/// Boxes that go into one bin: a box that is alone, or those of a group.
#[derive(Debug, Clone, Copy, PartialEq, Eq, Hash)]
pub enum Group<'a, GroupId, RectId> {
    /// The box of this id, alone.
    Ungrouped(&'a RectId),
    /// The boxes that were pushed into the group of this name.
    Grouped(&'a GroupId),
}

/// What fits of boxes, in bins of one call.
type FittedOk<'a, RectId, BinId, GroupId> =
    Fitted<RectanglePackOk<RectId, BinId>, Group<'a, GroupId, RectId>>;

/// Packs what fits into the bins, by a heuristic, in the orders of [`pack_rects_by`](crate::pack_rects_by): each group whole into the
/// first bin that takes it. A group that no bin takes is left, and the next one is tried. Answers what was placed, and the groups that
/// are left. Space is no reason to fail.
///
/// ```
/// use rectangle_pack::{pack_rects_fitting, Group, Heuristic};
/// # use std::collections::BTreeMap;
/// # use rectangle_pack::{GroupedRectsToPlace, RectToInsert, TargetBin};
/// # let mut rects: GroupedRectsToPlace<u32, &str> = GroupedRectsToPlace::new();
/// for (id, side) in [(1, 6), (2, 5), (3, 4)] {
///     rects.push_rect(id, None, RectToInsert::new(side, side, 1));
/// }
/// // Beside a square of 6 cells a side there is no room for one of 5.
/// let bins = BTreeMap::from([("sheet", TargetBin::new(10, 10, 1))]);
/// let fitted = pack_rects_fitting(&rects, &bins, Heuristic::Volume)?;
/// assert!(fitted.packed.packed_locations().keys().eq([&1, &3]));
/// assert_eq!(fitted.left, [Group::Ungrouped(&2)]);
/// # Ok::<(), rectangle_pack::RectanglePackError>(())
/// ```
///
/// # Errors
///
/// `TooMany`, `EqualGroups` or `OutOfMemory`.
pub fn pack_rects_fitting<'a, RectId, BinId, GroupId>(
    rects: &'a GroupedRectsToPlace<RectId, GroupId>,
    bins: &BTreeMap<BinId, TargetBin>,
    heuristic: Heuristic,
) -> Result<FittedOk<'a, RectId, BinId, GroupId>, RectanglePackError>
where
    RectId: Ord + Clone,
    BinId: Ord + Clone,
    GroupId: Ord,
{
    let (_, fitted) = fit_asked(rects, bins, heuristic.number())?;
    Ok(fitted)
}

/// Packs what fits as [`pack_rects_fitting`] does, with the heuristic of [`Heuristic::ALL`] that leaves the fewest cells, and answers
/// this heuristic too. Of several such it is the one that uses the bins best, as [`pack_rects_best`](crate::pack_rects_best) says it,
/// and of several that are as good the first in the list.
///
/// ```
/// # use std::collections::BTreeMap;
/// # use rectangle_pack::{pack_rects_fitting, pack_rects_fitting_best, GroupedRectsToPlace, Group, Heuristic, RectToInsert, TargetBin};
/// # let mut rects: GroupedRectsToPlace<u32, u32> = GroupedRectsToPlace::new();
/// for (id, width, height) in [(1, 1, 3), (2, 3, 2), (3, 3, 1)] {
///     rects.push_rect(id, None, RectToInsert::new(width, height, 1));
/// }
/// // By their volumes one of these is left by a sheet of 4x4, and by their heights none is.
/// let bins = BTreeMap::from([("sheet", TargetBin::new(4, 4, 1))]);
/// assert_eq!(pack_rects_fitting(&rects, &bins, Heuristic::Volume)?.left, [Group::Ungrouped(&1)]);
/// let (best, fitted) = pack_rects_fitting_best(&rects, &bins)?;
/// assert_eq!((best, fitted.left.len()), (Heuristic::Height, 0));
/// # Ok::<(), rectangle_pack::RectanglePackError>(())
/// ```
///
/// # Errors
///
/// As of `pack_rects_fitting`.
pub fn pack_rects_fitting_best<'a, RectId, BinId, GroupId>(
    rects: &'a GroupedRectsToPlace<RectId, GroupId>,
    bins: &BTreeMap<BinId, TargetBin>,
) -> Result<(Heuristic, FittedOk<'a, RectId, BinId, GroupId>), RectanglePackError>
where
    RectId: Ord + Clone,
    BinId: Ord + Clone,
    GroupId: Ord,
{
    fit_asked(rects, bins, ffi::BEST)
}

fn fit_asked<'a, RectId, BinId, GroupId>(
    rects: &'a GroupedRectsToPlace<RectId, GroupId>,
    bins: &BTreeMap<BinId, TargetBin>,
    heuristic: u32,
) -> Result<(Heuristic, FittedOk<'a, RectId, BinId, GroupId>), RectanglePackError>
where
    RectId: Ord + Clone,
    BinId: Ord + Clone,
    GroupId: Ord,
{
    let entries = rects.entries();
    let bin_list = bins_for_c(entries.len(), bins)?;
    let (chosen, listed) = ffi::fit(&bin_list, &rects.collection(&entries), heuristic)?;
    let left = left_among(rects, &entries, &listed);
    let all = entries.iter().zip(listed);
    let placed = all.filter_map(|(&(id, _), at)| Some((id, at?)));
    let packed = RectanglePackOk::upright(rects, bins, placed);
    Ok((chosen, Fitted { packed, left }))
}

/// The groups of entries without placements.
pub(crate) fn left_among<'a, RectId: Ord + Clone, GroupId: Ord, T>(
    rects: &'a GroupedRectsToPlace<RectId, GroupId>,
    entries: &[(&'a RectId, u32)],
    listed: &[Option<T>],
) -> Vec<Group<'a, GroupId, RectId>> {
    let all = entries.iter().zip(listed);
    rects.groups_of(all.filter(|(_, at)| at.is_none()).map(|(&entry, _)| entry))
}
