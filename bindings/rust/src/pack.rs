//! Packing once: bins and boxes in, placements out.

use std::collections::BTreeMap;
use std::error::Error;
use std::fmt;

use crate::{ffi, AllocError, GroupedRectsToPlace, Heuristic, PackedLocation, TargetBin};

/// Where each box is.
#[derive(Debug, Clone, PartialEq, Eq)]
pub struct RectanglePackOk<RectId, BinId> {
    packed_locations: BTreeMap<RectId, (BinId, PackedLocation)>,
    placements: Vec<(RectId, BinId, PackedLocation)>,
}

impl<RectId: Ord + Clone, BinId: Clone> RectanglePackOk<RectId, BinId> {
    /// What C placed, by its names: each box with its bin, by its place in the map, and where it stands there.
    pub(crate) fn named<'a>(
        bins: &BTreeMap<BinId, TargetBin>,
        placed: impl Iterator<Item = (&'a RectId, u32, PackedLocation)>,
    ) -> Self
    where
        RectId: 'a,
    {
        let bin_ids: Vec<&BinId> = bins.keys().collect();
        let mut packed = RectanglePackOk {
            packed_locations: BTreeMap::new(),
            placements: Vec::new(),
        };
        for (id, bin, location) in placed {
            let bin = bin_ids[bin as usize].clone();
            packed
                .packed_locations
                .insert(id.clone(), (bin.clone(), location));
            packed.placements.push((id.clone(), bin, location));
        }
        packed
    }

    /// The same of boxes that stand as they are.
    pub(crate) fn upright<'a, GroupId>(
        rects: &GroupedRectsToPlace<RectId, GroupId>,
        bins: &BTreeMap<BinId, TargetBin>,
        placed: impl Iterator<Item = (&'a RectId, ffi::RpPlacement)>,
    ) -> Self
    where
        RectId: 'a,
    {
        let located = placed.map(|(id, at)| (id, at.bin, PackedLocation::upright(rects.sizes[id], &at)));
        Self::named(bins, located)
    }
}

impl<RectId, BinId> RectanglePackOk<RectId, BinId> {
    /// The bin and the location of each box; of a box in several groups, those in the greatest of them.
    pub fn packed_locations(&self) -> &BTreeMap<RectId, (BinId, PackedLocation)> {
        &self.packed_locations
    }

    /// One placement for each box and group that it is in: boxes that are alone by their ids, then groups by theirs, each with
    /// its boxes as they were pushed.
    pub fn placements(&self) -> &[(RectId, BinId, PackedLocation)] {
        &self.placements
    }
}

/// Why nothing was packed.
#[derive(Debug, Clone, Copy, PartialEq, Eq)]
#[non_exhaustive]
pub enum RectanglePackError {
    /// For some group each bin is excluded or does not take all of its boxes, as the groups before it left the bins; of
    /// [`pack_rects_best`], with each heuristic.
    NotEnoughBinSpace,
    /// Memory was refused.
    OutOfMemory,
    /// There are 2^32 boxes or bins, or more.
    TooMany,
    /// A group is excluded with itself.
    EqualGroups,
}

impl fmt::Display for RectanglePackError {
    fn fmt(&self, f: &mut fmt::Formatter<'_>) -> fmt::Result {
        f.write_str(match self {
            RectanglePackError::NotEnoughBinSpace => "Not enough space to place all of the rectangles.",
            RectanglePackError::OutOfMemory => "Out of memory.",
            RectanglePackError::TooMany => "Too many bins or boxes.",
            RectanglePackError::EqualGroups => "A group is excluded with itself.",
        })
    }
}

impl Error for RectanglePackError {}

impl From<AllocError> for RectanglePackError {
    fn from(_: AllocError) -> Self {
        RectanglePackError::OutOfMemory
    }
}

/// Packs all boxes into the bins, each group whole into one of them, and groups that are excluded into different ones. Equal boxes
/// and bins are packed alike, on every machine.
///
/// Groups go in falling order of the sum of their volumes, each into the first bin that takes it, by rising volume.
///
/// ```
/// # use std::collections::BTreeMap;
/// # use rectangle_pack::{pack_rects, GroupedRectsToPlace, RectToInsert, TargetBin};
/// # let mut rects: GroupedRectsToPlace<&str, &str> = GroupedRectsToPlace::new();
/// # let mut bins = BTreeMap::new();
/// rects.push_rect("hat", Some(vec!["sprites"]), RectToInsert::new(10, 20, 1));
/// bins.insert("small", TargetBin::new(64, 64, 1));
/// let packed = pack_rects(&rects, &bins)?;
/// # assert_eq!(packed.packed_locations()["hat"].0, "small");
/// # Ok::<(), rectangle_pack::RectanglePackError>(())
/// ```
///
/// # Errors
///
/// `TooMany`, `EqualGroups`, `NotEnoughBinSpace` or `OutOfMemory`.
pub fn pack_rects<RectId, BinId, GroupId>(
    rects: &GroupedRectsToPlace<RectId, GroupId>,
    bins: &BTreeMap<BinId, TargetBin>,
) -> Result<RectanglePackOk<RectId, BinId>, RectanglePackError>
where
    RectId: Ord + Clone,
    BinId: Ord + Clone,
    GroupId: Ord,
{
    pack_rects_by(rects, bins, Heuristic::Volume)
}

/// Packs as [`pack_rects`] does, with another heuristic in place of the volume.
///
/// ```
/// # use std::collections::BTreeMap;
/// # use rectangle_pack::{pack_rects, pack_rects_by, GroupedRectsToPlace, Heuristic, RectToInsert, RectanglePackError, TargetBin};
/// # let mut rects: GroupedRectsToPlace<u32, u32> = GroupedRectsToPlace::new();
/// # let bins = BTreeMap::from([("sheet", TargetBin::new(4, 4, 1))]);
/// for (id, width, height) in [(1, 1, 3), (2, 3, 2), (3, 3, 1)] {
///     rects.push_rect(id, None, RectToInsert::new(width, height, 1));
/// }
/// // By their volumes these three do not go into 4x4, and by their heights they do.
/// assert_eq!(pack_rects(&rects, &bins), Err(RectanglePackError::NotEnoughBinSpace));
/// assert_eq!(pack_rects_by(&rects, &bins, Heuristic::Height)?.placements().len(), 3);
/// # Ok::<(), RectanglePackError>(())
/// ```
///
/// # Errors
///
/// As of `pack_rects`.
pub fn pack_rects_by<RectId, BinId, GroupId>(
    rects: &GroupedRectsToPlace<RectId, GroupId>,
    bins: &BTreeMap<BinId, TargetBin>,
    heuristic: Heuristic,
) -> Result<RectanglePackOk<RectId, BinId>, RectanglePackError>
where
    RectId: Ord + Clone,
    BinId: Ord + Clone,
    GroupId: Ord,
{
    let (_, packed) = pack_asked(rects, bins, heuristic.number())?;
    Ok(packed)
}

/// Packs as [`pack_rects`] does, with the heuristic of [`Heuristic::ALL`] that uses the bins best, and answers this heuristic too:
/// it places cells in the fewest bins, and of several such the fewest cells in the last of these bins, in the order of their ids.
/// Of several that are as good it is the first in the list. It takes as long as a packing with each of them and one more.
///
/// ```
/// # use std::collections::BTreeMap;
/// # use rectangle_pack::{pack_rects_best, GroupedRectsToPlace, Heuristic, RectToInsert, TargetBin};
/// # let mut rects: GroupedRectsToPlace<u32, u32> = GroupedRectsToPlace::new();
/// for (id, width, height) in [(1, 6, 2), (2, 3, 3), (3, 2, 5), (4, 1, 5)] {
///     rects.push_rect(id, None, RectToInsert::new(width, height, 1));
/// }
/// let bins = BTreeMap::from([("sheet", TargetBin::new(6, 7, 1))]);
/// let (best, packed) = pack_rects_best(&rects, &bins)?;
/// assert_eq!((best, packed.placements().len()), (Heuristic::Width, 4));
/// # Ok::<(), rectangle_pack::RectanglePackError>(())
/// ```
///
/// # Errors
///
/// As of `pack_rects`. `NotEnoughBinSpace` says that there is no space with any of the heuristics.
pub fn pack_rects_best<RectId, BinId, GroupId>(
    rects: &GroupedRectsToPlace<RectId, GroupId>,
    bins: &BTreeMap<BinId, TargetBin>,
) -> Result<(Heuristic, RectanglePackOk<RectId, BinId>), RectanglePackError>
where
    RectId: Ord + Clone,
    BinId: Ord + Clone,
    GroupId: Ord,
{
    pack_asked(rects, bins, ffi::BEST)
}

fn pack_asked<RectId, BinId, GroupId>(
    rects: &GroupedRectsToPlace<RectId, GroupId>,
    bins: &BTreeMap<BinId, TargetBin>,
    heuristic: u32,
) -> Result<(Heuristic, RectanglePackOk<RectId, BinId>), RectanglePackError>
where
    RectId: Ord + Clone,
    BinId: Ord + Clone,
    GroupId: Ord,
{
    let entries = rects.entries();
    let bin_list = bins_for_c(entries.len(), bins)?;
    let (chosen, placed) = ffi::pack(&bin_list, &rects.collection(&entries), heuristic)?;
    let ids = entries.iter().map(|&(id, _)| id);
    Ok((chosen, RectanglePackOk::upright(rects, bins, ids.zip(placed))))
}

/// The bins as C takes them, unless there are too many of them, or of entries.
pub(crate) fn bins_for_c<BinId>(
    entries: usize,
    bins: &BTreeMap<BinId, TargetBin>,
) -> Result<Vec<ffi::RpBin>, RectanglePackError> {
    if u32::try_from(entries).is_err() || u32::try_from(bins.len()).is_err() {
        return Err(RectanglePackError::TooMany);
    }
    Ok(bins.values().map(ffi::RpBin::from).collect())
}
