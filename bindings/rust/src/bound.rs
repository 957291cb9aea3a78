//! How few bins will do, whatever packer is taken.

use std::collections::BTreeMap;

use crate::pack::bins_for_c;
use crate::searching::turns_for_c;
use crate::{ffi, GroupedRectsToPlace, RectanglePackError, TargetBin, Turns};

/// How many of the bins the boxes need at least: no packer that places all of them uses fewer. `None` says that it is shown that none
/// can.
///
/// A packing here puts each box inside a bin, so that no two share a cell, and groups that are excluded are in different bins. Boxes
/// of one group may be in different bins, and boxes may be turned as `turns` says. It is a lower bound: more bins may be needed.
///
/// ```
/// # use std::collections::BTreeMap;
/// # use rectangle_pack::{least_bins, GroupedRectsToPlace, RectToInsert, TargetBin};
/// # let mut rects: GroupedRectsToPlace<u32, u32> = GroupedRectsToPlace::new();
/// for id in 0..3 {
///     rects.push_rect(id, None, RectToInsert::new(6, 6, 1));
/// }
/// // No two of the boxes go into one bin.
/// let bins = (0..4).map(|id| (id, TargetBin::new(10, 10, 1))).collect();
/// assert_eq!(least_bins(&rects, &bins, &BTreeMap::new())?, Some(3));
/// # Ok::<(), rectangle_pack::RectanglePackError>(())
/// ```
///
/// # Errors
///
/// `TooMany`, `EqualGroups` or `OutOfMemory`.
pub fn least_bins<RectId, BinId, GroupId>(
    rects: &GroupedRectsToPlace<RectId, GroupId>,
    bins: &BTreeMap<BinId, TargetBin>,
    turns: &BTreeMap<RectId, Turns>,
) -> Result<Option<usize>, RectanglePackError>
where
    RectId: Ord + Clone,
    BinId: Ord + Clone,
    GroupId: Ord,
{
    let entries = rects.entries();
    let bin_list = bins_for_c(entries.len(), bins)?;
    ffi::least_bins(&bin_list, &rects.collection(&entries), &turns_for_c(&entries, turns))
}
