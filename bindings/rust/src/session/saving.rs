//! Sessions that are saved: their parts as values, and sessions that are made of them.

use std::collections::BTreeMap;
use std::error::Error;
use std::fmt;

use super::{Outstanding, Section, Session, SessionError};
use crate::{ffi, TargetBin};

/// A bin of a session, as values.
#[derive(Debug, Clone, PartialEq, Eq)]
pub struct SavedBin<BinId> {
    /// Its id.
    pub id: BinId,
    /// Its size.
    pub size: TargetBin,
    /// Whether it counts as coalesced.
    pub was_coalesced: bool,
    /// Its free sections, the newest last.
    pub free_sections: Vec<Section>,
}

/// The parts of a session, as values that can be saved.
#[derive(Debug, Clone, PartialEq, Eq)]
pub struct SessionParts<RectId, BinId> {
    /// Its bins, in the order in which they were added.
    pub bins: Vec<SavedBin<BinId>>,
    /// Its outstanding placements, in the order of their numbers.
    pub outstanding: Vec<Outstanding<RectId, BinId>>,
    /// The number of the next placement.
    pub next: u64,
}

/// Why no session has such parts. Bins and placements are named by their places in the lists, and the boxes of a bin by their places
/// among its free sections and then its placements.
#[derive(Debug, Clone, Copy, PartialEq, Eq)]
#[non_exhaustive]
pub enum RestoreError {
    /// The id of a bin is that of an earlier one.
    DuplicateBin {
        /// The bin.
        bin: usize,
    },
    /// The number of a placement is not above that of an earlier one.
    NotRising {
        /// The placement.
        placement: usize,
    },
    /// The number of a placement is not below the next number.
    NotBelowNext {
        /// The placement.
        placement: usize,
    },
    /// The bin of a placement is not there.
    UnknownBin {
        /// The placement.
        placement: usize,
    },
    /// A box of a bin is not inside it.
    Outside {
        /// The bin.
        bin: usize,
        /// The box.
        index: usize,
    },
    /// Two boxes of a bin share a cell.
    SharesCell {
        /// The bin.
        bin: usize,
        /// The earlier box.
        first: usize,
        /// The later one.
        second: usize,
    },
    /// Some cell of a bin is in none of its boxes.
    CellInNone {
        /// The bin.
        bin: usize,
    },
    /// A bin does not count as coalesced, and no straight cuts leave its boxes.
    NotFromCuts {
        /// The bin.
        bin: usize,
    },
    /// There are 2^32 bins or free sections of one bin, or more.
    TooMany,
    /// Memory was refused.
    OutOfMemory,
}

impl fmt::Display for RestoreError {
    fn fmt(&self, f: &mut fmt::Formatter<'_>) -> fmt::Result {
        f.write_str(match self {
            RestoreError::DuplicateBin { .. } => "Two bins have one id.",
            RestoreError::NotRising { .. } => "The number of a placement is not above that of an earlier one.",
            RestoreError::NotBelowNext { .. } => "The number of a placement is not below the next number.",
            RestoreError::UnknownBin { .. } => "The bin of a placement is not there.",
            RestoreError::Outside { .. } => "A free section or a placement is not inside its bin.",
            RestoreError::SharesCell { .. } => "Two free sections or placements of a bin share a cell.",
            RestoreError::CellInNone { .. } => "A cell of a bin is in none of its free sections and placements.",
            RestoreError::NotFromCuts { .. } => "No straight cuts part a bin that does not count as coalesced.",
            RestoreError::TooMany => "Too many bins or free sections.",
            RestoreError::OutOfMemory => "Out of memory.",
        })
    }
}

impl Error for RestoreError {}

impl<RectId: Ord + Clone, BinId: Ord + Clone> Session<RectId, BinId> {
    /// The parts of the session.
    ///
    /// # Errors
    ///
    /// `OutOfMemory`.
    pub fn parts(&self) -> Result<SessionParts<RectId, BinId>, SessionError> {
        let bins = self.ids.iter().map(|(&number, id)| {
            let size = self.handle.bin_size(number)?;
            Ok(SavedBin {
                id: id.clone(),
                size: TargetBin::new(size.width, size.height, size.depth),
                was_coalesced: self.handle.was_coalesced(number)?,
                free_sections: self.handle.free_sections(number)?,
            })
        });
        Ok(SessionParts {
            bins: bins.collect::<Result<_, SessionError>>()?,
            outstanding: self.outstanding.values().cloned().collect(),
            next: self.next_number(),
        })
    }

    /// The session that has these parts, of any origin. The library, which is proved here too, looks at all of them: so no file,
    /// whoever wrote it, makes a session that gives a cell twice, or loses one.
    ///
    /// ```
    /// # use rectangle_pack::{RestoreError, Section, Session, TargetBin};
    /// let mut session: Session<&str, &str> = Session::new()?;
    /// session.add_bin("sheet", TargetBin::new(10, 10, 1))?;
    /// let mut parts = session.parts()?;
    /// assert_eq!(Session::restore(parts.clone())?.parts()?, parts);
    ///
    /// parts.bins[0].free_sections[0].width = 9;
    /// assert_eq!(Session::restore(parts).unwrap_err(), RestoreError::CellInNone { bin: 0 });
    /// # Ok::<(), Box<dyn std::error::Error>>(())
    /// ```
    ///
    /// # Errors
    ///
    /// What is wrong first with the parts; or `TooMany` or `OutOfMemory`.
    pub fn restore(parts: SessionParts<RectId, BinId>) -> Result<Self, RestoreError> {
        let saved = ffi::Saved::of(&parts)?;
        let handle = ffi::Handle::restore(&saved)?;
        let ids: BTreeMap<u32, BinId> = (0..).zip(parts.bins.into_iter().map(|bin| bin.id)).collect();
        Ok(Session {
            handle,
            numbers: ids.iter().map(|(&number, id)| (id.clone(), number)).collect(),
            next_bin: ids.len() as u32,
            ids,
            outstanding: parts.outstanding.into_iter().map(|it| (it.number, it)).collect(),
        })
    }
}
