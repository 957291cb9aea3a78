//! Packs boxes into bins, in two and three dimensions, without overlaps, by the proved library `rectangle_pack`.
//!
//! The types have the names that users of the crate `rectangle-pack` know. What is packed into which bin, and where, is what
//! the library's `pack_rects` answers with `contains_smallest_box` and with `volume_heuristic`, or with another [`Heuristic`]; its
//! contract is proved, this wrapper is not. Heuristics and comparisons of one's own, which that library takes as closures, cannot
//! be given to this crate.
//!
//! ```
//! use std::collections::BTreeMap;
//! use rectangle_pack::{pack_rects, GroupedRectsToPlace, RectToInsert, TargetBin};
//!
//! let mut rects = GroupedRectsToPlace::new();
//! rects.push_rect("hat", Some(vec!["sprites"]), RectToInsert::new(10, 20, 1));
//! rects.push_rect("shoe", Some(vec!["sprites"]), RectToInsert::new(5, 50, 1));
//! rects.push_rect("tree", None, RectToInsert::new(60, 60, 1));
//!
//! let mut bins = BTreeMap::new();
//! bins.insert("small", TargetBin::new(64, 64, 1));
//! bins.insert("large", TargetBin::new(128, 128, 1));
//!
//! let packed = pack_rects(&rects, &bins)?;
//! let locations = packed.packed_locations();
//! // Boxes of one group are in one bin.
//! assert_eq!(locations["hat"].0, locations["shoe"].0);
//! # Ok::<(), rectangle_pack::RectanglePackError>(())
//! ```
//!
//! [`pack_rects_by`] packs by another heuristic than the volume, and [`pack_rects_best`] by the one with which the bins are used
//! best. Groups that are [excluded](GroupedRectsToPlace::exclude) go into different bins. [`pack_rects_fitting`] packs what fits, and
//! answers the groups that are left.
//!
//! [`pack_rects_searched`] looks for a packing that is better than that of any heuristic, and may turn boxes; [`begin_search`] does so
//! in pieces. [`pack_rects_told`] packs by a list of steps that anyone made. [`least_bins`] says how many bins are needed, whatever
//! packer is taken.
//!
//! [`first_fault`] says what is wrong first with a packing, whoever made it. [`straight_cuts`] says how straight cuts part a bin into
//! boxes that stand in it.
//!
//! These pack once. A [`Session`] keeps its bins: boxes are packed into them and released again, free sections are
//! listed and joined, and a bin has a plan of the cuts that part it. Boxes are also placed where you say, or where they fit best,
//! and bins are cleared, made larger, cut anew and removed. [`Session::parts`] has all of it as values, and [`Session::restore`] makes
//! a session of such.

#![warn(missing_docs)]

mod bound;
mod cutting;
mod ffi;
mod fitting;
mod heuristic;
mod judge;
mod pack;
mod rects;
mod searching;
mod session;
mod told;

pub use bound::least_bins;
pub use cutting::{straight_cuts, SectionsError};
pub use fitting::{pack_rects_fitting, pack_rects_fitting_best, Fitted, Group};
pub use heuristic::{Heuristic, UnknownHeuristic};
pub use judge::{first_fault, AloneFault, Claim, Conflict, Fault, Turns};
pub use pack::{pack_rects, pack_rects_best, pack_rects_by, RectanglePackError, RectanglePackOk};
pub use rects::GroupedRectsToPlace;
pub use searching::{
    begin_search, pack_rects_found, pack_rects_searched, AllocError, Progress, Search,
    SearchOptions, Searched,
};
pub use session::{
    Axis, BinStats, CutStep, Outstanding, RestoreError, SavedBin, Section, Session, SessionError,
    SessionParts,
};
pub use told::{pack_rects_told, Step, StepFault, ToldError};

/// The size of a box that is to be placed, in cells.
#[derive(Debug, Clone, Copy, PartialEq, Eq, Hash)]
pub struct RectToInsert {
    width: u32,
    height: u32,
    depth: u32,
}

impl RectToInsert {
    /// A box of this size; any size will do, also 0. In two dimensions the depth is 1.
    pub fn new(width: u32, height: u32, depth: u32) -> Self {
        RectToInsert {
            width,
            height,
            depth,
        }
    }
}

/// The size of a bin, in cells.
#[derive(Debug, Clone, Copy, PartialEq, Eq, Hash)]
pub struct TargetBin {
    width: u32,
    height: u32,
    depth: u32,
}

impl TargetBin {
    /// An empty bin of this size; any size will do, also 0. In two dimensions the depth is 1.
    pub fn new(width: u32, height: u32, depth: u32) -> Self {
        TargetBin {
            width,
            height,
            depth,
        }
    }

    /// The bin's width.
    pub fn width(&self) -> u32 {
        self.width
    }

    /// The bin's height.
    pub fn height(&self) -> u32 {
        self.height
    }

    /// The bin's depth.
    pub fn depth(&self) -> u32 {
        self.depth
    }
}

/// Where a box is: its corner, and its size, in cells.
#[derive(Debug, Clone, Copy, PartialEq, Eq, Hash)]
pub struct PackedLocation {
    corner: (u32, u32, u32),
    size: RectToInsert,
}

impl PackedLocation {
    /// A box of this size at this corner: so far from the bin's left side, its bottom and its front. It is what
    /// [`Session::place_at`] takes.
    pub fn new(x: u32, y: u32, z: u32, size: RectToInsert) -> Self {
        PackedLocation {
            corner: (x, y, z),
            size,
        }
    }

    /// Where C placed a box that stands as it is.
    pub(crate) fn upright(size: RectToInsert, at: &ffi::RpPlacement) -> Self {
        PackedLocation {
            corner: (at.x, at.y, at.z),
            size,
        }
    }

    /// The distance from the bin's left side.
    pub fn x(&self) -> u32 {
        self.corner.0
    }

    /// The distance from the bin's bottom.
    pub fn y(&self) -> u32 {
        self.corner.1
    }

    /// The distance from the bin's front.
    pub fn z(&self) -> u32 {
        self.corner.2
    }

    /// The box's width.
    pub fn width(&self) -> u32 {
        self.size.width
    }

    /// The box's height.
    pub fn height(&self) -> u32 {
        self.size.height
    }

    /// The box's depth.
    pub fn depth(&self) -> u32 {
        self.size.depth
    }
}
