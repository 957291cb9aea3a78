//! The judge: what is wrong with a packing, whoever made it.

use std::collections::BTreeMap;

use crate::{ffi, GroupedRectsToPlace, PackedLocation, RectanglePackError, TargetBin};

/// About which axes a box may be turned, by quarters.
#[derive(Debug, Clone, Copy, PartialEq, Eq, Hash, Default)]
pub struct Turns {
    /// Whether height and depth may change places.
    pub about_x: bool,
    /// Whether width and depth may change places.
    pub about_y: bool,
    /// Whether width and height may change places.
    pub about_z: bool,
}

impl Turns {
    /// About no axis: the box stands as it is.
    pub const NONE: Turns = Turns {
        about_x: false,
        about_y: false,
        about_z: false,
    };

    /// About z alone, as a sprite on its page or a panel on its sheet.
    pub const FLAT: Turns = Turns {
        about_x: false,
        about_y: false,
        about_z: true,
    };

    /// As C has them.
    fn number(self) -> u32 {
        u32::from(self.about_x) + 2 * u32::from(self.about_y) + 4 * u32::from(self.about_z)
    }

    /// How a box may be turned, as C has it. One whose id is not there stands as it is.
    pub(crate) fn of<RectId: Ord>(turns: &BTreeMap<RectId, Turns>, id: &RectId) -> u32 {
        turns.get(id).map_or(0, |it| it.number())
    }
}

/// Where somebody put a box.
#[derive(Debug, Clone, PartialEq, Eq)]
pub struct Claim<RectId, GroupId, BinId> {
    /// The id of the box.
    pub id: RectId,
    /// The group for which it stands there; `None` where it is alone.
    pub group: Option<GroupId>,
    /// The id of the bin.
    pub bin: BinId,
    /// The corner of the box, and its size there.
    pub location: PackedLocation,
}

/// What may be wrong with a claim alone, in the order in which it is looked for.
#[derive(Debug, Clone, Copy, PartialEq, Eq, Hash)]
pub enum AloneFault {
    /// There is no such bin.
    UnknownBin,
    /// There is no such box in this group.
    UnknownBox,
    /// The size is not that of the box, nor one in which it may be turned.
    WrongSize,
    /// The box is not inside the bin.
    Outside,
}

/// What may be wrong with two claims, each of which may stand alone, in the order in which it is looked for.
#[derive(Debug, Clone, Copy, PartialEq, Eq, Hash)]
pub enum Conflict {
    /// More claims place the box for this group than the group names it.
    PlacedTwice,
    /// They share a cell of a bin.
    SharesCell,
    /// They are of one group, in two bins.
    GroupInTwoBins,
    /// They are of two groups that are excluded, in one bin.
    ExcludedTogether,
}

/// What is wrong with a packing. Claims are named by their places in the list.
#[derive(Debug, Clone, Copy, PartialEq, Eq, Hash)]
pub enum Fault<'a, RectId, GroupId> {
    /// A claim may not stand, even alone.
    Alone {
        /// The claim.
        claim: usize,
        /// What is wrong with it.
        fault: AloneFault,
    },
    /// Two claims may not stand together.
    Together {
        /// The earlier claim.
        first: usize,
        /// The later one.
        second: usize,
        /// What is wrong with them.
        conflict: Conflict,
    },
    /// Fewer claims place this box for this group than the group names it.
    NotPlaced {
        /// The id of the box.
        id: &'a RectId,
        /// The group; `None` where it is alone.
        group: Option<&'a GroupId>,
    },
}

/// What is wrong first with a packing, whoever made it; `None` where it is one: each box stands once for each group that it is in,
/// in a size in which it may, inside its bin, and shares no cell with another; each group is in one bin, and excluded groups are in
/// different ones. Boxes that are not in `turns` stand as they are.
///
/// The fault is that of the first claim that may not stand with those before it: what is wrong with it alone, or else with earlier
/// ones, with the first of these. Where all may stand it is the first box that is not placed, in the order of
/// [`placements`](crate::RectanglePackOk::placements). Where a group names a box several times, its claims take these in turn. What the
/// library answers by numbers is proved; the change from ids to numbers is tested.
///
/// ```
/// # use std::collections::BTreeMap;
/// # use rectangle_pack::{first_fault, Claim, Conflict, Fault, GroupedRectsToPlace, PackedLocation, RectToInsert, TargetBin, Turns};
/// let mut rects: GroupedRectsToPlace<&str, &str> = GroupedRectsToPlace::new();
/// rects.push_rect("hat", None, RectToInsert::new(6, 10, 1));
/// rects.push_rect("cap", None, RectToInsert::new(6, 10, 1));
/// let bins = BTreeMap::from([("page", TargetBin::new(10, 10, 1))]);
/// let at = |id, x| Claim {
///     id,
///     group: None,
///     bin: "page",
///     location: PackedLocation::new(x, 0, 0, RectToInsert::new(6, 10, 1)),
/// };
/// let fault = first_fault(&rects, &BTreeMap::new(), &bins, &[at("hat", 0), at("cap", 4)])?;
/// let shares = Fault::Together { first: 0, second: 1, conflict: Conflict::SharesCell };
/// assert_eq!(fault, Some(shares));
/// # Ok::<(), rectangle_pack::RectanglePackError>(())
/// ```
///
/// # Errors
///
/// `EqualGroups`, `TooMany` or `OutOfMemory`.
pub fn first_fault<'a, RectId, BinId, GroupId>(
    rects: &'a GroupedRectsToPlace<RectId, GroupId>,
    turns: &BTreeMap<RectId, Turns>,
    bins: &BTreeMap<BinId, TargetBin>,
    claims: &[Claim<RectId, GroupId, BinId>],
) -> Result<Option<Fault<'a, RectId, GroupId>>, RectanglePackError>
where
    RectId: Ord + Clone,
    BinId: Ord + Clone,
    GroupId: Ord,
{
    let entries = rects.entries();
    if [entries.len(), bins.len(), claims.len()].iter().any(|&count| u32::try_from(count).is_err()) {
        return Err(RectanglePackError::TooMany);
    }
    let collection = rects.collection(&entries);
    if collection.exclusions.iter().any(|it| it.one == it.other) {
        return Err(RectanglePackError::EqualGroups);
    }
    let boxes = entries.iter().zip(collection.boxes);
    let listed: Vec<ffi::RpEntry> = boxes
        .map(|(&(id, _), rect)| ffi::RpEntry {
            rect,
            turns: Turns::of(turns, id),
        })
        .collect();
    let bin_list: Vec<ffi::RpBin> = bins.values().map(ffi::RpBin::from).collect();
    let told = numbered(rects, &entries, bins, claims);
    let found = ffi::check(&bin_list, &listed, &collection.exclusions, &told)?;
    Ok(found.map(|it| fault_of(rects, &entries, it)))
}

/// The indices of the entries of one box in one group, and how many of them claims have taken.
#[derive(Default)]
struct Own {
    indices: Vec<u32>,
    taken: usize,
}

impl Own {
    /// The next index; of those that are too many the first.
    fn next(&mut self) -> Option<u32> {
        let turn = self.taken;
        self.taken += 1;
        self.indices.get(turn).or(self.indices.first()).copied()
    }
}

/// The claims as C takes them. A box or a bin that is not there has a number behind all others. Where a group names a box several
/// times, its claims take these in turn; those that are too many take the first.
fn numbered<RectId, BinId, GroupId>(
    rects: &GroupedRectsToPlace<RectId, GroupId>,
    entries: &[(&RectId, u32)],
    bins: &BTreeMap<BinId, TargetBin>,
    claims: &[Claim<RectId, GroupId, BinId>],
) -> Vec<ffi::RpClaim>
where
    RectId: Ord + Clone,
    BinId: Ord,
    GroupId: Ord,
{
    let bin_numbers: BTreeMap<&BinId, u32> = bins.keys().zip(0..).collect();
    let group_numbers = rects.group_numbers();
    let mut places: BTreeMap<(u32, &RectId), Own> = BTreeMap::new();
    for (&(id, group), index) in entries.iter().zip(0..) {
        places.entry((group, id)).or_default().indices.push(index);
    }
    let (no_entry, no_bin) = (entries.len() as u32, bins.len() as u32);
    claims
        .iter()
        .map(|claim| {
            let group = claim.group.as_ref();
            let number = group.map_or(Some(0), |it| group_numbers.get(it).copied());
            let own = number.and_then(|it| places.get_mut(&(it, &claim.id)));
            ffi::RpClaim {
                entry: own.and_then(Own::next).unwrap_or(no_entry),
                bin: bin_numbers.get(&claim.bin).copied().unwrap_or(no_bin),
                section: ffi::RpSection::from(&claim.location),
            }
        })
        .collect()
}

/// What C says, by claims and ids.
fn fault_of<'a, RectId: Ord + Clone, GroupId: Ord>(
    rects: &'a GroupedRectsToPlace<RectId, GroupId>,
    entries: &[(&'a RectId, u32)],
    found: ffi::RpFault,
) -> Fault<'a, RectId, GroupId> {
    let (first, second) = (found.first as usize, found.second as usize);
    let alone = |fault| Fault::Alone { claim: first, fault };
    let together = |conflict| Fault::Together {
        first,
        second,
        conflict,
    };
    match found.kind {
        ffi::FAULT_UNKNOWN_BIN => alone(AloneFault::UnknownBin),
        ffi::FAULT_UNKNOWN_BOX => alone(AloneFault::UnknownBox),
        ffi::FAULT_WRONG_SIZE => alone(AloneFault::WrongSize),
        ffi::FAULT_OUTSIDE => alone(AloneFault::Outside),
        ffi::FAULT_PLACED_TWICE => together(Conflict::PlacedTwice),
        ffi::FAULT_SHARES_CELL => together(Conflict::SharesCell),
        ffi::FAULT_GROUP_IN_TWO_BINS => together(Conflict::GroupInTwoBins),
        ffi::FAULT_EXCLUDED_TOGETHER => together(Conflict::ExcludedTogether),
        _ => {
            let (id, group) = entries[first];
            Fault::NotPlaced {
                id,
                group: rects.group_of(group),
            }
        }
    }
}
