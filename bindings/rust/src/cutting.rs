//! Straight cuts that part a bin into boxes, whoever put them there.

use std::error::Error;
use std::fmt;

use crate::{ffi, CutStep, Section, TargetBin};

/// Why boxes do not stand in a bin. They are named by their places in the list.
#[derive(Debug, Clone, Copy, PartialEq, Eq)]
#[non_exhaustive]
pub enum SectionsError {
    /// A box is not inside the bin.
    Outside {
        /// The box.
        index: usize,
    },
    /// Two boxes share a cell.
    SharesCell {
        /// The earlier box.
        first: usize,
        /// The later one.
        second: usize,
    },
    /// Memory was refused.
    OutOfMemory,
}

impl fmt::Display for SectionsError {
    fn fmt(&self, f: &mut fmt::Formatter<'_>) -> fmt::Result {
        f.write_str(match self {
            SectionsError::Outside { .. } => "A box is not inside the bin.",
            SectionsError::SharesCell { .. } => "Two boxes share a cell.",
            SectionsError::OutOfMemory => "Out of memory.",
        })
    }
}

impl Error for SectionsError {}

/// The cutting plan of a bin in which these boxes stand, whoever put them there: straight cuts, each across a whole part, that part
/// the bin into the boxes and what is free beside them; `None` where no straight cuts leave the boxes whole. Boxes without cells
/// have no part in it, but are to be inside too.
///
/// Each part that is cut is cut at the first place of the first axis that goes through no box and no free section. What is free is
/// parted as [`Session::recut`](crate::Session::recut) does it.
///
/// ```
/// use rectangle_pack::{straight_cuts, Axis, CutStep, Section, SectionsError, TargetBin};
/// let sheet = TargetBin::new(10, 10, 1);
/// let at = |x, width| Section { x, y: 0, z: 0, width, height: 10, depth: 1 };
/// let cut = CutStep::Cut { axis: Axis::X, place: 4 };
/// let plan = straight_cuts(&sheet, &[at(0, 4)])?;
/// assert_eq!(plan, Some(vec![cut, CutStep::Leaf, CutStep::Leaf]));
///
/// let shares = SectionsError::SharesCell { first: 0, second: 1 };
/// assert_eq!(straight_cuts(&sheet, &[at(0, 4), at(3, 7)]), Err(shares));
/// # Ok::<(), SectionsError>(())
/// ```
///
/// # Errors
///
/// `Outside`, of the first box that is not inside the bin; or, where all are, `SharesCell`, of the first box that shares a cell with
/// an earlier one; or `OutOfMemory`.
pub fn straight_cuts(bin: &TargetBin, boxes: &[Section]) -> Result<Option<Vec<CutStep>>, SectionsError> {
    let listed: Vec<ffi::RpSection> = boxes.iter().map(ffi::RpSection::from).collect();
    ffi::straight_cuts(&ffi::RpBin::from(bin), &listed)
}
