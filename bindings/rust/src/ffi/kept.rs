//! Lists of C that this crate keeps on its own side, to be compared with these.

use super::calls::RpStanding;
use super::{read, refusal, section, Handle, RpSession};
use crate::{Section, SessionError};

extern "C" {
    fn rectangle_pack_session_bins(
        session: *mut RpSession,
        bins: *mut u32,
        length: usize,
        count: *mut usize,
    ) -> u32;
    fn rectangle_pack_session_outstanding_in(
        session: *mut RpSession,
        bin: u32,
        placements: *mut RpStanding,
        length: usize,
        count: *mut usize,
    ) -> u32;
    fn rectangle_pack_session_outstanding(
        session: *mut RpSession,
        placements: *mut RpStanding,
        length: usize,
        count: *mut usize,
    ) -> u32;
}

impl Handle {
    /// The ids of the bins.
    pub(crate) fn bins(&self) -> Result<Vec<u32>, SessionError> {
        read(0, |bins, length, count| {
            // SAFETY: the handle has a session. It is not `Sync`, so nobody else reads or writes it
            // during the call. The array and the count are those of `read`.
            unsafe { rectangle_pack_session_bins(self.0.get(), bins, length, count) }
        })
        .map_err(refusal)
    }

    /// The number of each placement, the index of its box, its bin, and where it stands.
    pub(crate) fn outstanding(&self) -> Result<Vec<(u64, u32, u32, Section)>, SessionError> {
        let placements = read(0, |placements: *mut RpStanding, length, count| {
            // SAFETY: as above.
            unsafe {
                rectangle_pack_session_outstanding(self.0.get(), placements, length, count)
            }
        });
        let all = placements.map_err(refusal)?;
        let told = all.iter().map(|it| (it.number, it.index, it.bin, section(&it.section)));
        Ok(told.collect())
    }

    /// The number of each placement in a bin.
    pub(crate) fn outstanding_in(&self, bin: u32) -> Result<Vec<u64>, SessionError> {
        let placements = read(0, |placements: *mut RpStanding, length, count| {
            // SAFETY: as above.
            unsafe {
                rectangle_pack_session_outstanding_in(self.0.get(), bin, placements, length, count)
            }
        });
        let all = placements.map_err(refusal)?;
        Ok(all.iter().map(|it| it.number).collect())
    }
}
