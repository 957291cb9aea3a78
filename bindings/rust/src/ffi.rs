//! The one place where the calls of C are made.

mod bound;
mod calls;
mod cuts;
mod fitting;
#[cfg(test)]
mod kept;
mod saved;
mod searching;
mod told;

use std::cell::UnsafeCell;
use std::fmt;
use std::ops::Range;
use std::ptr;

use calls::*;
pub(crate) use bound::least_bins;
pub(crate) use cuts::straight_cuts;
pub(crate) use fitting::fit;
pub(crate) use saved::Saved;
pub(crate) use searching::{begin_search, found, Begun, Found};
pub(crate) use told::tell;
pub(crate) use calls::{
    Collection, RpBin, RpBox, RpClaim, RpCost, RpEntry, RpExclusion, RpFault, RpOutstanding,
    RpPlacement, RpSection, RpStanding, RpStep, Wanted, BEST, FAULT_EXCLUDED_TOGETHER,
    FAULT_GROUP_IN_TWO_BINS, FAULT_OUTSIDE, FAULT_PLACED_TWICE, FAULT_SHARES_CELL,
    FAULT_UNKNOWN_BIN, FAULT_UNKNOWN_BOX, FAULT_WRONG_SIZE,
};

use crate::{
    Axis, BinStats, CutStep, Heuristic, PackedLocation, RectToInsert, RectanglePackError, Section,
    SessionError, TargetBin,
};

impl From<&TargetBin> for RpBin {
    fn from(bin: &TargetBin) -> Self {
        RpBin {
            width: bin.width,
            height: bin.height,
            depth: bin.depth,
        }
    }
}

impl From<&PackedLocation> for RpSection {
    fn from(location: &PackedLocation) -> Self {
        RpSection {
            x: location.x(),
            y: location.y(),
            z: location.z(),
            width: location.width(),
            height: location.height(),
            depth: location.depth(),
        }
    }
}

impl From<&RpSection> for PackedLocation {
    fn from(it: &RpSection) -> Self {
        PackedLocation::new(it.x, it.y, it.z, RectToInsert::new(it.width, it.height, it.depth))
    }
}

/// The heuristic that was packed with, and one placement for each box, in the same place of the list. The heuristic is asked for
/// by its number, or `BEST`.
pub(crate) fn pack(
    bins: &[RpBin],
    collection: &Collection,
    heuristic: u32,
) -> Result<(Heuristic, Vec<RpPlacement>), RectanglePackError> {
    let mut placements = vec![RpPlacement::default(); collection.boxes.len()];
    let mut chosen = 0;
    // SAFETY: each pointer is that of a slice, with its length, or of a variable of this function, so it is aligned and not null;
    // the placements and the heuristic that is chosen are this function's own, which nobody else reads or writes during the call.
    let status = unsafe {
        rectangle_pack_collection(
            bins.as_ptr(),
            bins.len(),
            &collection.lists(),
            heuristic,
            placements.as_mut_ptr(),
            placements.len(),
            &mut chosen,
        )
    };
    packed(status)?;
    Ok((Heuristic::of(chosen), placements))
}

/// What a call that packs once answers.
fn packed(status: u32) -> Result<(), RectanglePackError> {
    match status {
        DONE => Ok(()),
        NOT_ENOUGH_SPACE => Err(RectanglePackError::NotEnoughBinSpace),
        OUT_OF_MEMORY => Err(RectanglePackError::OutOfMemory),
        EQUAL_GROUPS => Err(RectanglePackError::EqualGroups),
        _ => Err(RectanglePackError::TooMany),
    }
}

/// What is wrong first with claims of these boxes, if something is.
pub(crate) fn check(
    bins: &[RpBin],
    entries: &[RpEntry],
    exclusions: &[RpExclusion],
    claims: &[RpClaim],
) -> Result<Option<RpFault>, RectanglePackError> {
    let mut fault = RpFault::default();
    // SAFETY: each pointer is that of a slice, with its length, or of a variable of this function, so it is aligned and not null;
    // the fault is this function's own, which nobody else reads or writes during the call.
    let status = unsafe {
        rectangle_pack_check(
            bins.as_ptr(),
            bins.len(),
            entries.as_ptr(),
            entries.len(),
            exclusions.as_ptr(),
            exclusions.len(),
            claims.as_ptr(),
            claims.len(),
            &mut fault,
        )
    };
    match status {
        DONE => Ok(Some(fault).filter(|it| it.kind != NO_FAULT)),
        OUT_OF_MEMORY => Err(RectanglePackError::OutOfMemory),
        _ => Err(RectanglePackError::TooMany),
    }
}

/// A session of the C library, from `rectangle_pack_session_new` on and until it is dropped.
///
/// Its cell keeps it from being `Sync`, and no call calls back, so that calls come one at a time.
pub(crate) struct Handle(UnsafeCell<RpSession>);

// SAFETY: a session owns nothing that belongs to one thread: `Send` is proved of the type by which C holds it. The thread that
// sends it does not use it any more, and what it did comes before what the other does, by a lock, the start or the join of a
// thread, or as by a lock: by what is released there and acquired here.
unsafe impl Send for Handle {}

impl Handle {
    pub(crate) fn new() -> Result<Self, SessionError> {
        let mut session = RpSession { at: ptr::null_mut() };
        // SAFETY: the pointer is that of a handle of this function, which has no session.
        answer(unsafe { rectangle_pack_session_new(&mut session) })?;
        Ok(Handle(UnsafeCell::new(session)))
    }

    pub(crate) fn add_bin(&mut self, bin: u32, size: &RpBin) -> Result<(), SessionError> {
        // SAFETY: the handle has a session, and nobody else reads or writes it during the call.
        answer(unsafe {
            rectangle_pack_session_add_bin(self.0.get(), bin, size.width, size.height, size.depth)
        })
    }

    /// The heuristic that was packed with, and one placement for each box, in the same place of the list. The heuristic is asked
    /// for by its number, or `BEST`.
    pub(crate) fn pack(
        &mut self,
        collection: &Collection,
        heuristic: u32,
    ) -> Result<(Heuristic, Vec<RpOutstanding>), SessionError> {
        let mut placements = vec![RpOutstanding::default(); collection.boxes.len()];
        let mut chosen = 0;
        // SAFETY: the handle has a session, and nobody else reads or writes it during the call. The other pointers are those
        // of slices, each with its length, or of variables of this function, so they are aligned and not null; the placements
        // and the heuristic that is chosen are this function's own.
        answer(unsafe {
            rectangle_pack_session_pack_collection(
                self.0.get(),
                &collection.lists(),
                heuristic,
                placements.as_mut_ptr(),
                placements.len(),
                &mut chosen,
            )
        })?;
        Ok((Heuristic::of(chosen), placements))
    }

    pub(crate) fn release(&mut self, number: u64) -> Result<(), SessionError> {
        // SAFETY: the handle has a session, and nobody else reads or writes it during the call.
        answer(unsafe { rectangle_pack_session_release(self.0.get(), number) })
    }

    pub(crate) fn release_all(&mut self, numbers: &[u64]) -> Result<(), SessionError> {
        // SAFETY: the handle has a session, and nobody else reads or writes it during the call. The numbers are a slice with
        // its length, so they are aligned and not null.
        answer(unsafe {
            rectangle_pack_session_release_all(self.0.get(), numbers.as_ptr(), numbers.len())
        })
    }

    pub(crate) fn coalesce_all(&mut self, bin: u32) -> Result<(), SessionError> {
        // SAFETY: the handle has a session, and nobody else reads or writes it during the call.
        answer(unsafe { rectangle_pack_session_coalesce_all(self.0.get(), bin) })
    }

    pub(crate) fn coalesce(
        &mut self,
        bin: u32,
        index: usize,
        range: &Range<usize>,
    ) -> Result<(), SessionError> {
        // SAFETY: the handle has a session, and nobody else reads or writes it during the call.
        answer(unsafe {
            rectangle_pack_session_coalesce(self.0.get(), bin, index, range.start, range.end)
        })
    }

    pub(crate) fn clear_bin(&mut self, bin: u32) -> Result<(), SessionError> {
        // SAFETY: the handle has a session, and nobody else reads or writes it during the call.
        answer(unsafe { rectangle_pack_session_clear_bin(self.0.get(), bin) })
    }

    pub(crate) fn remove_bin(&mut self, bin: u32) -> Result<(), SessionError> {
        // SAFETY: the handle has a session, and nobody else reads or writes it during the call.
        answer(unsafe { rectangle_pack_session_remove_bin(self.0.get(), bin) })
    }

    pub(crate) fn grow_bin(&mut self, bin: u32, axis: Axis, by: u32) -> Result<(), SessionError> {
        // SAFETY: the handle has a session, and nobody else reads or writes it during the call.
        answer(unsafe {
            rectangle_pack_session_grow_bin(self.0.get(), bin, axis_number(axis), by)
        })
    }

    /// The number of the placement.
    pub(crate) fn place_at(&mut self, bin: u32, location: &RpSection) -> Result<u64, SessionError> {
        let mut number = 0;
        // SAFETY: the handle has a session, and nobody else reads or writes it during the call. The location is borrowed, and
        // the number that is written is that of this function.
        answer(unsafe {
            rectangle_pack_session_place_at(self.0.get(), bin, location, &mut number)
        })?;
        Ok(number)
    }

    /// The placement with its number. Without a bin any will do. The heuristic is asked for by its number.
    pub(crate) fn place_best(
        &mut self,
        bin: Option<u32>,
        one_box: &RpBox,
        heuristic: u32,
    ) -> Result<RpOutstanding, SessionError> {
        let (session, mut place) = (self.0.get(), RpOutstanding::default());
        // SAFETY: the handle has a session, and nobody else reads or writes it during the call. The box is borrowed, and the
        // placement that is written is that of this function.
        answer(unsafe {
            match bin {
                Some(bin) => rectangle_pack_session_place_best(session, bin, one_box, heuristic, &mut place),
                None => rectangle_pack_session_place_best_anywhere(session, one_box, heuristic, &mut place),
            }
        })?;
        Ok(place)
    }

    pub(crate) fn recut(&mut self, bin: u32) -> Result<(), SessionError> {
        // SAFETY: the handle has a session, and nobody else reads or writes it during the call.
        answer(unsafe { rectangle_pack_session_recut(self.0.get(), bin) })
    }

    pub(crate) fn stats(&self, bin: u32) -> Result<BinStats, SessionError> {
        let mut stats = RpStats::default();
        // SAFETY: the handle has a session. It is not `Sync`, so nobody else reads or writes it
        // during the call. The statistics are those of this function.
        answer(unsafe { rectangle_pack_session_stats(self.0.get(), bin, &mut stats) })?;
        Ok(BinStats {
            bin_volume: volume(&stats.bin_volume),
            free_volume: volume(&stats.free_volume),
            placed_volume: volume(&stats.placed_volume),
            free_sections: stats.free_sections,
            placements: stats.placements,
        })
    }

    pub(crate) fn free_sections(&self, bin: u32) -> Result<Vec<Section>, SessionError> {
        let sections = read(self.stats(bin)?.free_sections, |sections, length, count| {
            // SAFETY: the handle has a session. It is not `Sync`, so nobody else reads or writes it
            // during the call. The array and the count are those of `read`.
            unsafe {
                rectangle_pack_session_free_sections(self.0.get(), bin, sections, length, count)
            }
        });
        Ok(sections.map_err(refusal)?.iter().map(section).collect())
    }

    /// The plan, or `None` where there is none.
    pub(crate) fn cut_plan(&self, bin: u32) -> Result<Option<Vec<CutStep>>, SessionError> {
        // To ask twice would be to plan twice. Each box has one leaf, and there is one cut less than there are leaves.
        let stats = self.stats(bin)?;
        let longest = (stats.free_sections + stats.placements) * 2;
        let steps = read(longest, |steps, length, count| {
            // SAFETY: the handle has a session. It is not `Sync`, so nobody else reads or writes it
            // during the call. The array and the count are those of `read`.
            unsafe { rectangle_pack_session_cut_plan(self.0.get(), bin, steps, length, count) }
        });
        match steps {
            Ok(steps) => Ok(Some(steps.iter().map(cut_step).collect())),
            Err(NO_PLAN) => Ok(None),
            Err(status) => Err(refusal(status)),
        }
    }

    pub(crate) fn was_coalesced(&self, bin: u32) -> Result<bool, SessionError> {
        let mut coalesced = 0;
        // SAFETY: the handle has a session. It is not `Sync`, so nobody else reads or writes it
        // during the call. The number that is written is that of this function.
        answer(unsafe {
            rectangle_pack_session_was_coalesced(self.0.get(), bin, &mut coalesced)
        })?;
        Ok(coalesced != 0)
    }

    pub(crate) fn bin_size(&self, bin: u32) -> Result<RpBin, SessionError> {
        let mut size = RpBin {
            width: 0,
            height: 0,
            depth: 0,
        };
        // SAFETY: the handle has a session. It is not `Sync`, so nobody else reads or writes it
        // during the call. The size that is written is that of this function.
        answer(unsafe { rectangle_pack_session_bin_size(self.0.get(), bin, &mut size) })?;
        Ok(size)
    }

    pub(crate) fn next_number(&self) -> u64 {
        // SAFETY: the handle has a session. It is not `Sync`, so nobody else reads or writes it
        // during the call.
        unsafe { rectangle_pack_session_next_number(self.0.get()) }
    }
}

impl fmt::Debug for Handle {
    fn fmt(&self, f: &mut fmt::Formatter<'_>) -> fmt::Result {
        f.debug_struct("Handle").finish_non_exhaustive()
    }
}

impl Drop for Handle {
    fn drop(&mut self) {
        // SAFETY: the handle has a session, and is not used any more.
        unsafe { rectangle_pack_session_free(self.0.get()) }
    }
}

fn volume(parts: &RpVolume) -> u128 {
    u128::from(parts.low) | u128::from(parts.high) << 64
}

fn section(it: &RpSection) -> Section {
    Section {
        x: it.x,
        y: it.y,
        z: it.z,
        width: it.width,
        height: it.height,
        depth: it.depth,
    }
}

fn axis_number(axis: Axis) -> u32 {
    match axis {
        Axis::X => 0,
        Axis::Y => 1,
        Axis::Z => 2,
    }
}

fn cut_step(it: &RpCutStep) -> CutStep {
    let axis = match it.axis {
        0 => Axis::X,
        1 => Axis::Y,
        2 => Axis::Z,
        _ => return CutStep::Leaf,
    };
    CutStep::Cut {
        axis,
        place: it.place,
    }
}

/// The list that a call writes, or its status where it writes none. The call gets an array, its length, and where the length of
/// the list goes. Where the list is longer than it was guessed to be, the call is made again.
fn read<T: Clone + Default>(
    guess: usize,
    mut call: impl FnMut(*mut T, usize, *mut usize) -> u32,
) -> Result<Vec<T>, u32> {
    let mut list = vec![T::default(); guess];
    loop {
        let mut count = 0;
        match call(list.as_mut_ptr(), list.len(), &mut count) {
            DONE => {
                list.truncate(count);
                return Ok(list);
            }
            SHORT_ARRAY => list.resize(count, T::default()),
            status => return Err(status),
        }
    }
}

fn answer(status: u32) -> Result<(), SessionError> {
    match status {
        DONE => Ok(()),
        _ => Err(refusal(status)),
    }
}

fn refusal(status: u32) -> SessionError {
    match status {
        NOT_ENOUGH_SPACE => SessionError::NotEnoughBinSpace,
        OUT_OF_MEMORY => SessionError::OutOfMemory,
        DUPLICATE_BIN => SessionError::DuplicateBin,
        UNKNOWN_BIN => SessionError::UnknownBin,
        UNKNOWN_PLACEMENT => SessionError::UnknownPlacement,
        NUMBERS_USED_UP => SessionError::NumbersUsedUp,
        EQUAL_GROUPS => SessionError::EqualGroups,
        BIN_IN_USE => SessionError::BinInUse,
        TOO_LARGE => SessionError::TooLarge,
        NOT_FREE => SessionError::NotFree,
        NOT_FROM_CUTS => SessionError::NotFromCuts,
        _ => SessionError::TooMany,
    }
}
