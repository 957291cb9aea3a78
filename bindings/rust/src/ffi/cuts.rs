//! The call that says how straight cuts part a bin into boxes.

use super::calls::*;
use super::{cut_step, read};
use crate::{CutStep, SectionsError};

/// The plan, or `None` where there is none.
pub(crate) fn straight_cuts(bin: &RpBin, boxes: &[RpSection]) -> Result<Option<Vec<CutStep>>, SectionsError> {
    let mut wrong = RpWrong::default();
    // To ask twice would be to plan twice. For each box there are seldom more than three free sections, so four leaves.
    let steps = read(8 * (boxes.len() + 1), |steps, length, count| {
        // SAFETY: the bin is borrowed, the boxes are a slice with its length, and what is wrong is a variable of this function,
        // which nobody else reads or writes during the call: so they are aligned and not null. The array and the count are those
        // of `read`.
        unsafe {
            rectangle_pack_straight_cuts(bin, boxes.as_ptr(), boxes.len(), steps, length, count, &mut wrong)
        }
    });
    match steps {
        Ok(steps) => Ok(Some(steps.iter().map(cut_step).collect())),
        Err(NO_PLAN) => Ok(None),
        Err(WRONG_BOXES) => Err(error_of(&wrong)),
        Err(_) => Err(SectionsError::OutOfMemory),
    }
}

/// What C says of boxes: one is outside, or two share a cell.
fn error_of(wrong: &RpWrong) -> SectionsError {
    let (first, second) = (wrong.first, wrong.second);
    match wrong.kind {
        WRONG_OUTSIDE => SectionsError::Outside { index: first },
        _ => SectionsError::SharesCell { first, second },
    }
}
