//! How many bins are needed at least.

use super::calls::*;
use crate::RectanglePackError;

/// How many of the bins are needed at least, or `None` where no packer can place all boxes.
pub(crate) fn least_bins(
    bins: &[RpBin],
    collection: &Collection,
    turns: &[u32],
) -> Result<Option<usize>, RectanglePackError> {
    let mut least = 0;
    // SAFETY: each pointer is that of a slice, with its length, or of a variable of this function, so it is aligned and not null;
    // what is written is this function's own, which nobody else reads or writes during the call.
    let status = unsafe {
        rectangle_pack_least_bins(
            bins.as_ptr(),
            bins.len(),
            &collection.lists(),
            turns.as_ptr(),
            turns.len(),
            &mut least,
        )
    };
    match super::packed(status) {
        Ok(()) => Ok(Some(least)),
        Err(RectanglePackError::NotEnoughBinSpace) => Ok(None),
        Err(error) => Err(error),
    }
}
