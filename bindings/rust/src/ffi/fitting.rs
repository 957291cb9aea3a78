//! Packing what fits.

use super::calls::*;
use super::{answer, packed, Handle};
use crate::{Heuristic, RectanglePackError, SessionError};

/// The heuristic that packed, and for each box, in the same place of the list, its placement, or `None` where it is left. The
/// heuristic is asked for by its number, or `BEST`.
pub(crate) fn fit(
    bins: &[RpBin],
    collection: &Collection,
    heuristic: u32,
) -> Result<(Heuristic, Vec<Option<RpPlacement>>), RectanglePackError> {
    let mut placements = vec![RpPlacement::default(); collection.boxes.len()];
    let mut fitted = RpFitted::default();
    // SAFETY: each pointer is that of a slice, with its length, or of a variable of this function, so it is aligned and not null;
    // the placements and what is written of the packing are this function's own, which nobody else reads or writes during the call.
    let status = unsafe {
        rectangle_pack_fitting(
            bins.as_ptr(),
            bins.len(),
            &collection.lists(),
            heuristic,
            placements.as_mut_ptr(),
            placements.len(),
            &mut fitted,
        )
    };
    packed(status)?;
    Ok(said(&fitted, unless_left(placements, |it| it.bin == LEFT_BIN)))
}

impl Handle {
    /// The same in a session, where a bin may have any number, and no placement has that of what is left.
    pub(crate) fn fit(
        &mut self,
        collection: &Collection,
        heuristic: u32,
    ) -> Result<(Heuristic, Vec<Option<RpOutstanding>>), SessionError> {
        let mut placements = vec![RpOutstanding::default(); collection.boxes.len()];
        let mut fitted = RpFitted::default();
        // SAFETY: the handle has a session, and nobody else reads or writes it during the call. The other pointers are those
        // of slices, each with its length, or of variables of this function, so they are aligned and not null; the placements
        // and what is written of the packing are this function's own.
        answer(unsafe {
            rectangle_pack_session_pack_fitting(
                self.0.get(),
                &collection.lists(),
                heuristic,
                placements.as_mut_ptr(),
                placements.len(),
                &mut fitted,
            )
        })?;
        Ok(said(&fitted, unless_left(placements, |it| it.number == LEFT_NUMBER)))
    }
}

/// The heuristic that packed, and what it placed.
fn said<T>(fitted: &RpFitted, listed: Vec<Option<T>>) -> (Heuristic, Vec<Option<T>>) {
    debug_assert_eq!(fitted.left, listed.iter().filter(|it| it.is_none()).count());
    (Heuristic::of(fitted.heuristic), listed)
}

/// The placements, `None` for those of what is left.
pub(super) fn unless_left<T>(placements: Vec<T>, is_left: impl Fn(&T) -> bool) -> Vec<Option<T>> {
    let all = placements.into_iter();
    all.map(|it| Some(it).filter(|it| !is_left(it))).collect()
}
