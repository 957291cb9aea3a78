//! The parts of a session as C takes them.

use std::cell::UnsafeCell;
use std::collections::BTreeMap;
use std::ptr;

use super::calls::*;
use super::Handle;
use crate::{RestoreError, Section, SessionParts};

/// Lists of C. The ids of bins are their places in the list.
pub(crate) struct Saved {
    bins: Vec<RpSavedBin>,
    sections: Vec<RpSection>,
    placements: Vec<RpStanding>,
    next: u64,
}

impl From<&Section> for RpSection {
    fn from(it: &Section) -> Self {
        RpSection {
            x: it.x,
            y: it.y,
            z: it.z,
            width: it.width,
            height: it.height,
            depth: it.depth,
        }
    }
}

impl Saved {
    pub(crate) fn of<RectId, BinId: Ord>(parts: &SessionParts<RectId, BinId>) -> Result<Self, RestoreError> {
        let mut numbers: BTreeMap<&BinId, u32> = BTreeMap::new();
        let mut bins = Vec::with_capacity(parts.bins.len());
        for (place, bin) in parts.bins.iter().enumerate() {
            let id = u32::try_from(place).map_err(|_| RestoreError::TooMany)?;
            if numbers.insert(&bin.id, id).is_some() {
                return Err(RestoreError::DuplicateBin { bin: place });
            }
            bins.push(RpSavedBin {
                id,
                size: RpBin::from(&bin.size),
                coalesced: u32::from(bin.was_coalesced),
                section_count: u32::try_from(bin.free_sections.len()).map_err(|_| RestoreError::TooMany)?,
            });
        }
        // A bin that is not there has a number behind all others.
        let none = bins.len() as u32;
        let placements = parts.outstanding.iter().map(|it| RpStanding {
            number: it.number,
            index: 0,
            bin: numbers.get(&it.bin).copied().unwrap_or(none),
            section: RpSection::from(&it.location),
        });
        Ok(Saved {
            placements: placements.collect(),
            sections: parts.bins.iter().flat_map(|bin| &bin.free_sections).map(RpSection::from).collect(),
            bins,
            next: parts.next,
        })
    }
}

impl Handle {
    pub(crate) fn restore(saved: &Saved) -> Result<Self, RestoreError> {
        let mut session = RpSession { at: ptr::null_mut() };
        let lists = RpSaved {
            bins: saved.bins.as_ptr(),
            bin_count: saved.bins.len(),
            sections: saved.sections.as_ptr(),
            section_count: saved.sections.len(),
            placements: saved.placements.as_ptr(),
            placement_count: saved.placements.len(),
            next_number: saved.next,
        };
        let mut wrong = RpWrong::default();
        // SAFETY: the pointers are those of vectors, each with its length, which are there during the call, and of variables of
        // this function: so they are aligned and not null, and nobody else reads or writes them. The handle has no session.
        let status = unsafe { rectangle_pack_session_restore(&mut session, &lists, &mut wrong) };
        match status {
            DONE => Ok(Handle(UnsafeCell::new(session))),
            WRONG_PARTS => Err(error_of(&wrong)),
            _ => Err(RestoreError::OutOfMemory),
        }
    }
}

/// What C says of parts. It does not speak of the counts of free sections, nor of ids: those are right.
fn error_of(wrong: &RpWrong) -> RestoreError {
    let (bin, first, second) = (wrong.bin, wrong.first, wrong.second);
    match wrong.kind {
        WRONG_NUMBER => RestoreError::NotRising { placement: first },
        WRONG_NEXT => RestoreError::NotBelowNext { placement: first },
        WRONG_UNKNOWN_BIN => RestoreError::UnknownBin { placement: first },
        WRONG_OUTSIDE => RestoreError::Outside { bin, index: first },
        WRONG_SHARED_CELL => RestoreError::SharesCell { bin, first, second },
        WRONG_CELL_IN_NONE => RestoreError::CellInNone { bin },
        _ => RestoreError::NotFromCuts { bin },
    }
}
