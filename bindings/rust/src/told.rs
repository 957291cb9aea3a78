//! Packing as it is told: step by step, each a group, a bin and a heuristic.

use std::collections::BTreeMap;
use std::error::Error;
use std::fmt;

use crate::pack::bins_for_c;
use crate::{ffi, Group, GroupedRectsToPlace, Heuristic, RectanglePackError, RectanglePackOk, TargetBin};

/// A step of a packing as it is told.
#[derive(Debug, Clone, Copy, PartialEq, Eq)]
pub struct Step<'a, RectId, GroupId, BinId> {
    /// The group, which goes whole into the bin.
    pub group: Group<'a, GroupId, RectId>,
    /// The id of the bin.
    pub bin: BinId,
    /// The heuristic by which the rest of each free section is cut.
    pub heuristic: Heuristic,
}

/// Why a step is refused: the first of these that is so.
#[derive(Debug, Clone, Copy, PartialEq, Eq, Hash)]
pub enum StepFault {
    /// There is no such group among the boxes.
    UnknownGroup,
    /// There is no such bin.
    UnknownBin,
    /// An earlier step names the group.
    NamedTwice,
    /// A group that is excluded with this one went into the bin by an earlier step.
    Excluded,
    /// The bin does not take all boxes of the group.
    NoRoom,
}

/// Why a packing as it is told is refused. All is then as it was before.
#[derive(Debug, Clone, Copy, PartialEq, Eq)]
#[non_exhaustive]
pub enum ToldError {
    /// The step at this index is refused, for this reason.
    StepRefused(usize, StepFault),
    /// The numbers of the placements would reach 2^64 - 1, which is never given. Only a session answers so.
    NumbersUsedUp,
    /// Memory was refused.
    OutOfMemory,
    /// There are 2^32 boxes or bins, or more.
    TooMany,
    /// A group is excluded with itself.
    EqualGroups,
}

impl fmt::Display for ToldError {
    fn fmt(&self, f: &mut fmt::Formatter<'_>) -> fmt::Result {
        f.write_str(match self {
            ToldError::StepRefused(_, StepFault::UnknownGroup) => {
                "A step names a group that is not in the collection."
            }
            ToldError::StepRefused(_, StepFault::UnknownBin) => "A step names a bin that is not there.",
            ToldError::StepRefused(_, StepFault::NamedTwice) => "Two steps name one group.",
            ToldError::StepRefused(_, StepFault::Excluded) => {
                "A step puts a group into a bin that is excluded for it."
            }
            ToldError::StepRefused(_, StepFault::NoRoom) => {
                "The bin of a step does not take all boxes of its group."
            }
            ToldError::NumbersUsedUp => "The numbers of placements are used up.",
            ToldError::OutOfMemory => "Out of memory.",
            ToldError::TooMany => "Too many bins or boxes.",
            ToldError::EqualGroups => "A group is excluded with itself.",
        })
    }
}

impl Error for ToldError {}

/// Packs as it is told: step by step, each group into the bin of its step. The steps may come from anyone: a person, an optimiser, a
/// plan that was saved. Groups that no step names are left. Within its bin each box is placed as
/// [`pack_rects_by`](crate::pack_rects_by) places it there, by the heuristic of the step.
///
/// ```
/// use rectangle_pack::{pack_rects_told, Group, Heuristic, Step, StepFault, ToldError};
/// # use std::collections::BTreeMap;
/// # use rectangle_pack::{GroupedRectsToPlace, RectToInsert, TargetBin};
/// # let mut rects: GroupedRectsToPlace<&str, &str> = GroupedRectsToPlace::new();
/// rects.push_rect("hat", None, RectToInsert::new(4, 10, 1));
/// rects.push_rect("shoe", None, RectToInsert::new(7, 10, 1));
/// let bins = BTreeMap::from([("left", TargetBin::new(10, 10, 1)), ("right", TargetBin::new(10, 10, 1))]);
/// let step = |id, bin| Step { group: Group::Ungrouped(id), bin, heuristic: Heuristic::Volume };
/// let packed = pack_rects_told(&rects, &bins, &[step(&"hat", "right")])?;
/// assert_eq!(packed.packed_locations()["hat"].0, "right");
///
/// let both = [step(&"hat", "right"), step(&"shoe", "right")];
/// let refused = ToldError::StepRefused(1, StepFault::NoRoom);
/// assert_eq!(pack_rects_told(&rects, &bins, &both), Err(refused));
/// # Ok::<(), ToldError>(())
/// ```
///
/// # Errors
///
/// `TooMany`, `EqualGroups` or `OutOfMemory`; or `StepRefused`, of the first step that cannot be done.
pub fn pack_rects_told<RectId, BinId, GroupId>(
    rects: &GroupedRectsToPlace<RectId, GroupId>,
    bins: &BTreeMap<BinId, TargetBin>,
    steps: &[Step<'_, RectId, GroupId, BinId>],
) -> Result<RectanglePackOk<RectId, BinId>, ToldError>
where
    RectId: Ord + Clone,
    BinId: Ord + Clone,
    GroupId: Ord,
{
    let entries = rects.entries();
    let bin_list = bins_for_c(entries.len(), bins)?;
    let numbers: BTreeMap<&BinId, u32> = bins.keys().zip(0..).collect();
    let told = Told::of(rects, &entries, steps, |bin| numbers.get(bin).copied(), bins.len() as u32);
    let listed = told.answer(|list| ffi::tell(&bin_list, &rects.collection(&entries), list))?;
    let all = entries.iter().zip(listed);
    let placed = all.filter_map(|(&(id, _), at)| Some((id, at?)));
    Ok(RectanglePackOk::upright(rects, bins, placed))
}

impl From<RectanglePackError> for ToldError {
    fn from(error: RectanglePackError) -> Self {
        match error {
            RectanglePackError::OutOfMemory => ToldError::OutOfMemory,
            RectanglePackError::EqualGroups => ToldError::EqualGroups,
            _ => ToldError::TooMany,
        }
    }
}

/// Steps as C takes them.
pub(crate) struct Told {
    list: Vec<ffi::RpStep>,
    unknown_group: Option<usize>,
}

impl Told {
    /// The steps before the first one whose group is not there, and that one with a bin of the number `no_bin`, which C refuses.
    pub(crate) fn of<RectId, GroupId, BinId>(
        rects: &GroupedRectsToPlace<RectId, GroupId>,
        entries: &[(&RectId, u32)],
        steps: &[Step<'_, RectId, GroupId, BinId>],
        number_of: impl Fn(&BinId) -> Option<u32>,
        no_bin: u32,
    ) -> Self
    where
        RectId: Ord + Clone,
        GroupId: Ord,
    {
        let places = rects.places_of_groups(entries);
        let unknown_group = steps.iter().position(|step| places.of(&step.group).is_none());
        let taken = unknown_group.map_or(steps, |last| &steps[..=last]);
        let list = taken.iter().map(|step| {
            let index = places.of(&step.group);
            ffi::RpStep {
                index: index.unwrap_or(0),
                bin: index.and_then(|_| number_of(&step.bin)).unwrap_or(no_bin),
                heuristic: step.heuristic.number(),
            }
        });
        Told {
            list: if entries.is_empty() { Vec::new() } else { list.collect() },
            unknown_group,
        }
    }

    /// What C answers to the steps. Without boxes there is none that a step could name.
    pub(crate) fn answer<T>(
        &self,
        tell: impl FnOnce(&[ffi::RpStep]) -> Result<T, ToldError>,
    ) -> Result<T, ToldError> {
        let unknown = |at| ToldError::StepRefused(at, StepFault::UnknownGroup);
        match (tell(&self.list), self.unknown_group) {
            (Err(ToldError::StepRefused(at, _)), Some(last)) if at == last => Err(unknown(at)),
            (Ok(_), Some(last)) => Err(unknown(last)),
            (answer, _) => answer,
        }
    }
}
