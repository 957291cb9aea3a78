//! What a session answers.

use std::error::Error;
use std::fmt;

use crate::{AllocError, PackedLocation};

/// A placement that is outstanding: it was not released, nor was its bin cleared.
#[derive(Debug, Clone, PartialEq, Eq)]
pub struct Outstanding<RectId, BinId> {
    /// Its number, by which it is released.
    pub number: u64,
    /// The id of the box.
    pub id: RectId,
    /// The id of the bin.
    pub bin: BinId,
    /// The corner and the size of the box.
    pub location: PackedLocation,
}

/// What is free and what is placed in a bin. Each cell is one or the other: `free_volume` and `placed_volume` add up to
/// `bin_volume`.
#[derive(Debug, Clone, Copy, PartialEq, Eq)]
pub struct BinStats {
    /// The volume of the bin, in cells.
    pub bin_volume: u128,
    /// The volumes of its free sections, added up.
    pub free_volume: u128,
    /// The volumes of the outstanding placements in it, added up.
    pub placed_volume: u128,
    /// How many free sections it has.
    pub free_sections: usize,
    /// How many placements are outstanding in it. Boxes without cells are counted too.
    pub placements: usize,
}

/// A free section of a bin: its corner with the least coordinates, and its size, in cells.
#[derive(Debug, Clone, Copy, PartialEq, Eq, Hash)]
pub struct Section {
    /// The distance of the corner from the bin's left side.
    pub x: u32,
    /// Its distance from the bottom.
    pub y: u32,
    /// Its distance from the front.
    pub z: u32,
    /// The width.
    pub width: u32,
    /// The height.
    pub height: u32,
    /// The depth.
    pub depth: u32,
}

/// An axis: `X` with widths, `Y` with heights, `Z` with depths.
#[derive(Debug, Clone, Copy, PartialEq, Eq, Hash)]
pub enum Axis {
    /// From left to right.
    X,
    /// From bottom to top.
    Y,
    /// From front to back.
    Z,
}

/// A step of a cutting plan. The plan of a part is a `Leaf`, where it is not cut, or a `Cut` followed by the plan of its lower
/// and then the plan of its upper part.
#[derive(Debug, Clone, Copy, PartialEq, Eq, Hash)]
pub enum CutStep {
    /// A straight cut across the whole part.
    Cut {
        /// The axis that the cut stands across.
        axis: Axis,
        /// Where it stands: so many cells from the corner of the bin, not of the part.
        place: u32,
    },
    /// The part is one free section or one box, or has no cells.
    Leaf,
}

/// Why a session refused a call. The session is then as it was.
#[derive(Debug, Clone, Copy, PartialEq, Eq)]
#[non_exhaustive]
pub enum SessionError {
    /// The bin is there already.
    DuplicateBin,
    /// There is no such bin.
    UnknownBin,
    /// No placement of this number is outstanding.
    UnknownPlacement,
    /// The numbers of the placements would reach 2^64 - 1, which is never given.
    NumbersUsedUp,
    /// For some group each bin is excluded or does not take all of its boxes, as the groups before it left the bins; of
    /// `pack_best`, with each heuristic. Or no free section holds a box of `place_best`.
    NotEnoughBinSpace,
    /// Placements are outstanding in the bin.
    BinInUse,
    /// A side of the bin would exceed the greatest `u32`.
    TooLarge,
    /// No free section of the bin holds the box there.
    NotFree,
    /// No straight cuts part the boxes that stand in the bin.
    NotFromCuts,
    /// Memory was refused.
    OutOfMemory,
    /// There are 2^32 boxes or bins, or more.
    TooMany,
    /// A group is excluded with itself.
    EqualGroups,
}

impl fmt::Display for SessionError {
    fn fmt(&self, f: &mut fmt::Formatter<'_>) -> fmt::Result {
        f.write_str(match self {
            SessionError::DuplicateBin => "The bin is there already.",
            SessionError::UnknownBin => "There is no such bin.",
            SessionError::UnknownPlacement => "No placement of this number is outstanding.",
            SessionError::NumbersUsedUp => "The numbers of placements are used up.",
            SessionError::NotEnoughBinSpace => "Not enough space to place all of the rectangles.",
            SessionError::BinInUse => "Placements are outstanding in the bin.",
            SessionError::TooLarge => "A side of the bin would exceed the greatest number of 32 bits.",
            SessionError::NotFree => "No free section holds the box there.",
            SessionError::NotFromCuts => "No straight cuts part the boxes that stand in the bin.",
            SessionError::OutOfMemory => "Out of memory.",
            SessionError::TooMany => "Too many bins or boxes.",
            SessionError::EqualGroups => "A group is excluded with itself.",
        })
    }
}

impl Error for SessionError {}

impl From<AllocError> for SessionError {
    fn from(_: AllocError) -> Self {
        SessionError::OutOfMemory
    }
}
