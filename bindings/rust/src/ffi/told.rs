//! Packing as it is told.

use super::calls::*;
use super::fitting::unless_left;
use super::Handle;
use crate::{StepFault, ToldError};

/// For each box, in the same place of the list, its placement, or `None` where no step names its group.
pub(crate) fn tell(
    bins: &[RpBin],
    collection: &Collection,
    steps: &[RpStep],
) -> Result<Vec<Option<RpPlacement>>, ToldError> {
    let mut placements = vec![RpPlacement::default(); collection.boxes.len()];
    let mut refused = RpRefused::default();
    // SAFETY: each pointer is that of a slice, with its length, or of a variable of this function, so it is aligned and not null;
    // the placements and the step that is refused are this function's own, which nobody else reads or writes during the call.
    let status = unsafe {
        rectangle_pack_told(
            bins.as_ptr(),
            bins.len(),
            &collection.lists(),
            steps.as_ptr(),
            steps.len(),
            placements.as_mut_ptr(),
            placements.len(),
            &mut refused,
        )
    };
    answer(status, &refused)?;
    Ok(unless_left(placements, |it| it.bin == LEFT_BIN))
}

impl Handle {
    /// The same in a session, where a bin may have any number, and no placement has that of what is left.
    pub(crate) fn tell(
        &mut self,
        collection: &Collection,
        steps: &[RpStep],
    ) -> Result<Vec<Option<RpOutstanding>>, ToldError> {
        let mut placements = vec![RpOutstanding::default(); collection.boxes.len()];
        let mut refused = RpRefused::default();
        // SAFETY: the handle has a session, and nobody else reads or writes it during the call. The other pointers are those
        // of slices, each with its length, or of variables of this function, so they are aligned and not null; the placements
        // and the step that is refused are this function's own.
        let status = unsafe {
            rectangle_pack_session_pack_told(
                self.0.get(),
                &collection.lists(),
                steps.as_ptr(),
                steps.len(),
                placements.as_mut_ptr(),
                placements.len(),
                &mut refused,
            )
        };
        answer(status, &refused)?;
        Ok(unless_left(placements, |it| it.number == LEFT_NUMBER))
    }
}

fn answer(status: u32, refused: &RpRefused) -> Result<(), ToldError> {
    match status {
        DONE => Ok(()),
        STEP_REFUSED => Err(ToldError::StepRefused(refused.step, fault(refused.fault))),
        OUT_OF_MEMORY => Err(ToldError::OutOfMemory),
        NUMBERS_USED_UP => Err(ToldError::NumbersUsedUp),
        EQUAL_GROUPS => Err(ToldError::EqualGroups),
        _ => Err(ToldError::TooMany),
    }
}

fn fault(number: u32) -> StepFault {
    match number {
        STEP_UNKNOWN_BIN => StepFault::UnknownBin,
        STEP_NAMED_TWICE => StepFault::NamedTwice,
        STEP_EXCLUDED => StepFault::Excluded,
        _ => StepFault::NoRoom,
    }
}
