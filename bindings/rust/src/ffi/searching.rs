//! Packings that are searched for.

use std::fmt;
use std::ptr;

use super::calls::*;
use super::fitting::unless_left;
use super::{answer, packed, volume, Handle};
use crate::{AllocError, Progress, RectanglePackError, SessionError};

/// What a search found, and for each box, in the same place of the list, where it stands, or `None` where it is left.
pub(crate) struct Found<T> {
    pub(crate) listed: Vec<Option<T>>,
    pub(crate) used: usize,
    pub(crate) least: Option<usize>,
    pub(crate) is_optimal: bool,
    pub(crate) tries: u64,
}

impl<T> Found<T> {
    fn of(listed: Vec<Option<T>>, said: &RpSearched) -> Self {
        debug_assert_eq!(said.left, listed.iter().filter(|it| it.is_none()).count());
        Found {
            listed,
            used: said.used,
            least: Some(said.least).filter(|&least| least != NO_PACKING),
            is_optimal: said.is_optimal != 0,
            tries: said.tries,
        }
    }
}

/// A search of the C library, from `rectangle_pack_search_begin` on and until it ends or is dropped. Where memory was refused the
/// library has freed it, and the handle has none.
pub(crate) struct Begun(RpSearch);

// SAFETY: a search owns nothing that belongs to one thread, as a session does not.
unsafe impl Send for Begun {}

impl Begun {
    fn none() -> Self {
        Begun(RpSearch { at: ptr::null_mut() })
    }

    /// The search, unless memory was refused to it before.
    fn there(&mut self) -> Result<&mut RpSearch, AllocError> {
        if self.0.at.is_null() {
            return Err(AllocError);
        }
        Ok(&mut self.0)
    }

    /// Makes so many tries: how far the search is, and whether there is nothing to be bettered.
    pub(crate) fn run(&mut self, tries: u64) -> Result<(Progress, bool), AllocError> {
        let mut now = RpProgress::default();
        // SAFETY: the handle has a search, and is borrowed. The progress is a variable of this function.
        let status = unsafe { rectangle_pack_search_run(self.there()?, tries, &mut now) };
        if status != DONE {
            return Err(AllocError);
        }
        let progress = Progress {
            tries: now.tries,
            left: volume(&now.left),
            cost: volume(&now.cost),
            bins: now.bins,
        };
        Ok((progress, now.is_over != 0))
    }
}

impl fmt::Debug for Begun {
    fn fmt(&self, f: &mut fmt::Formatter<'_>) -> fmt::Result {
        f.debug_struct("Begun").finish_non_exhaustive()
    }
}

impl Drop for Begun {
    fn drop(&mut self) {
        if let Ok(search) = self.there() {
            // SAFETY: the handle has a search, and is not used any more.
            unsafe { rectangle_pack_search_free(search) }
        }
    }
}

/// A search in bins of one call.
pub(crate) fn begin_search(
    bins: &[RpBin],
    collection: &Collection,
    wanted: &Wanted,
) -> Result<Begun, RectanglePackError> {
    let mut search = Begun::none();
    // SAFETY: each pointer is that of a slice, with its length, or of a variable of this function, so it is aligned and not null;
    // the handle is this function's own, and has no search.
    packed(unsafe {
        rectangle_pack_search_begin(
            bins.as_ptr(),
            bins.len(),
            &collection.lists(),
            &wanted.options(),
            &mut search.0,
        )
    })?;
    Ok(search)
}

/// Packs what was found in bins of one call.
pub(crate) fn found(
    bins: &[RpBin],
    collection: &Collection,
    wanted: &Wanted,
    mut search: Begun,
) -> Result<Found<RpLocation>, RectanglePackError> {
    let mut placements = vec![RpLocation::default(); collection.boxes.len()];
    let mut said = RpSearched::default();
    // SAFETY: each pointer is that of a slice, with its length, or of a variable of this function, so it is aligned and not null;
    // the placements and what is written of the search are this function's own. The handle has a search, which ends.
    packed(unsafe {
        rectangle_pack_found(
            bins.as_ptr(),
            bins.len(),
            &collection.lists(),
            &wanted.options(),
            search.there()?,
            placements.as_mut_ptr(),
            placements.len(),
            &mut said,
        )
    })?;
    Ok(Found::of(unless_left(placements, |it| it.bin == LEFT_BIN), &said))
}

impl Handle {
    /// A search in the bins of the session, which stays as it is.
    pub(crate) fn begin_search(&self, collection: &Collection, wanted: &Wanted) -> Result<Begun, SessionError> {
        let mut search = Begun::none();
        // SAFETY: the handle has a session. It is not `Sync`, so nobody else reads or writes it during the call. The other
        // pointers are those of slices, each with its length, or of variables of this function, so they are aligned and not null;
        // the handle of the search is this function's own, and has none.
        answer(unsafe {
            rectangle_pack_session_search_begin(
                self.0.get(),
                &collection.lists(),
                &wanted.options(),
                &mut search.0,
            )
        })?;
        Ok(search)
    }

    /// Packs what was found into the session.
    pub(crate) fn pack_found(
        &mut self,
        collection: &Collection,
        wanted: &Wanted,
        mut search: Begun,
    ) -> Result<Found<RpStanding>, SessionError> {
        let mut placements = vec![RpStanding::default(); collection.boxes.len()];
        let mut said = RpSearched::default();
        // SAFETY: the handle has a session, and nobody else reads or writes it during the call. The other pointers are those
        // of slices, each with its length, or of variables of this function, so they are aligned and not null; the placements
        // and what is written of the search are this function's own. The handle of the search has one, which ends.
        answer(unsafe {
            rectangle_pack_session_pack_found(
                self.0.get(),
                &collection.lists(),
                &wanted.options(),
                search.there()?,
                placements.as_mut_ptr(),
                placements.len(),
                &mut said,
            )
        })?;
        Ok(Found::of(unless_left(placements, |it| it.number == LEFT_NUMBER), &said))
    }
}
