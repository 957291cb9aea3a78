//! The types, the numbers and the calls of `include/rectangle_pack.h`.

use std::mem;

#[repr(C)]
pub(crate) struct RpBin {
    pub(crate) width: u32,
    pub(crate) height: u32,
    pub(crate) depth: u32,
}

#[repr(C)]
pub(crate) struct RpBox {
    pub(crate) width: u32,
    pub(crate) height: u32,
    pub(crate) depth: u32,
    pub(crate) group: u32,
}

/// A box in one group more. This crate has such a box twice among the boxes, since in a group they go by their places there: its
/// lists of members are empty.
#[repr(C)]
pub(super) struct RpMember {
    index: u32,
    group: u32,
}

#[repr(C)]
pub(crate) struct RpExclusion {
    pub(crate) one: u32,
    pub(crate) other: u32,
}

#[repr(C)]
pub(super) struct RpCollection {
    boxes: *const RpBox,
    box_count: usize,
    members: *const RpMember,
    member_count: usize,
    exclusions: *const RpExclusion,
    exclusion_count: usize,
}

/// What is to be packed: boxes, and groups that are excluded.
pub(crate) struct Collection {
    pub(crate) boxes: Vec<RpBox>,
    pub(crate) exclusions: Vec<RpExclusion>,
}

impl Collection {
    /// The lists as C takes them. The pointers are those of vectors, each with its length, so they are aligned and not null; they
    /// are good for as long as the collection is borrowed.
    pub(super) fn lists(&self) -> RpCollection {
        let members: &[RpMember] = &[];
        RpCollection {
            boxes: self.boxes.as_ptr(),
            box_count: self.boxes.len(),
            members: members.as_ptr(),
            member_count: members.len(),
            exclusions: self.exclusions.as_ptr(),
            exclusion_count: self.exclusions.len(),
        }
    }
}

#[repr(C)]
#[derive(Clone, Copy, Default)]
pub(crate) struct RpPlacement {
    pub(crate) bin: u32,
    pub(crate) x: u32,
    pub(crate) y: u32,
    pub(crate) z: u32,
}

#[repr(C)]
#[derive(Clone, Copy, Default)]
pub(crate) struct RpOutstanding {
    pub(crate) number: u64,
    pub(crate) placement: RpPlacement,
}

/// What is written of a packing of what fits.
#[repr(C)]
#[derive(Default)]
pub(super) struct RpFitted {
    pub(super) heuristic: u32,
    pub(super) left: usize,
}

/// In place of a bin, in one call, and of a number, in a session: the box is left.
pub(super) const LEFT_BIN: u32 = u32::MAX;
pub(super) const LEFT_NUMBER: u64 = u64::MAX;

/// A step of a packing as it is told.
#[repr(C)]
pub(crate) struct RpStep {
    pub(crate) index: u32,
    pub(crate) bin: u32,
    pub(crate) heuristic: u32,
}

/// The first step that is refused.
#[repr(C)]
#[derive(Default)]
pub(super) struct RpRefused {
    pub(super) step: usize,
    pub(super) fault: u32,
}

pub(super) const STEP_UNKNOWN_BIN: u32 = 1;
pub(super) const STEP_NAMED_TWICE: u32 = 2;
pub(super) const STEP_EXCLUDED: u32 = 3;

/// What it costs to use a bin.
#[repr(C)]
pub(crate) struct RpCost {
    pub(crate) bin: u32,
    pub(crate) cost: u64,
}

/// How a search goes on, and what it may do.
#[repr(C)]
pub(super) struct RpSearchOptions {
    size: usize,
    tries: u64,
    seed: u64,
    may_leave: u32,
    turns: *const u32,
    turn_count: usize,
    costs: *const RpCost,
    cost_count: usize,
}

/// What a search is asked for, but for its tries: how boxes may be turned, what bins cost, and what else counts.
pub(crate) struct Wanted {
    pub(crate) seed: u64,
    pub(crate) may_leave: bool,
    pub(crate) turns: Vec<u32>,
    pub(crate) costs: Vec<RpCost>,
}

impl Wanted {
    /// The options as C takes them, without tries. The pointers are those of vectors, each with its length, so they are aligned and
    /// not null; they are good for as long as the lists are borrowed.
    pub(super) fn options(&self) -> RpSearchOptions {
        RpSearchOptions {
            size: mem::size_of::<RpSearchOptions>(),
            tries: 0,
            seed: self.seed,
            may_leave: u32::from(self.may_leave),
            turns: self.turns.as_ptr(),
            turn_count: self.turns.len(),
            costs: self.costs.as_ptr(),
            cost_count: self.costs.len(),
        }
    }
}

/// Where a box stands that may be turned.
#[repr(C)]
#[derive(Clone, Copy, Default)]
pub(crate) struct RpLocation {
    pub(crate) bin: u32,
    pub(crate) section: RpSection,
}

/// What a search found.
#[repr(C)]
#[derive(Default)]
pub(crate) struct RpSearched {
    pub(crate) left: usize,
    pub(crate) used: usize,
    pub(crate) least: usize,
    pub(crate) is_optimal: u32,
    pub(crate) tries: u64,
}

/// In place of how many bins are needed: no packer can place all boxes.
pub(super) const NO_PACKING: usize = usize::MAX;

#[repr(C)]
pub(super) struct RpSearch {
    pub(super) at: *mut u8,
}

/// How far a search is.
#[repr(C)]
#[derive(Default)]
pub(super) struct RpProgress {
    pub(super) tries: u64,
    pub(super) left: RpVolume,
    pub(super) cost: RpVolume,
    pub(super) bins: usize,
    pub(super) is_over: u32,
}

#[repr(C)]
pub(super) struct RpSession {
    pub(super) at: *mut u8,
}

#[repr(C)]
#[derive(Default)]
pub(super) struct RpVolume {
    pub(super) low: u64,
    pub(super) high: u64,
}

#[repr(C)]
#[derive(Default)]
pub(super) struct RpStats {
    pub(super) bin_volume: RpVolume,
    pub(super) free_volume: RpVolume,
    pub(super) placed_volume: RpVolume,
    pub(super) free_sections: usize,
    pub(super) placements: usize,
}

#[repr(C)]
#[derive(Clone, Copy, Default)]
pub(crate) struct RpSection {
    pub(crate) x: u32,
    pub(crate) y: u32,
    pub(crate) z: u32,
    pub(crate) width: u32,
    pub(crate) height: u32,
    pub(crate) depth: u32,
}

#[repr(C)]
#[derive(Clone, Copy, Default)]
pub(super) struct RpCutStep {
    pub(super) axis: u32,
    pub(super) place: u32,
}

/// An outstanding placement.
#[repr(C)]
#[derive(Clone, Copy, Default)]
pub(crate) struct RpStanding {
    pub(crate) number: u64,
    pub(crate) index: u32,
    pub(crate) bin: u32,
    pub(crate) section: RpSection,
}

/// A bin of a saved session.
#[repr(C)]
pub(super) struct RpSavedBin {
    pub(super) id: u32,
    pub(super) size: RpBin,
    pub(super) coalesced: u32,
    pub(super) section_count: u32,
}

/// The parts of a session.
#[repr(C)]
pub(super) struct RpSaved {
    pub(super) bins: *const RpSavedBin,
    pub(super) bin_count: usize,
    pub(super) sections: *const RpSection,
    pub(super) section_count: usize,
    pub(super) placements: *const RpStanding,
    pub(super) placement_count: usize,
    pub(super) next_number: u64,
}

/// What is wrong with parts.
#[repr(C)]
#[derive(Default)]
pub(super) struct RpWrong {
    pub(super) kind: u32,
    pub(super) bin: usize,
    pub(super) first: usize,
    pub(super) second: usize,
}

pub(super) const WRONG_NUMBER: u32 = 3;
pub(super) const WRONG_NEXT: u32 = 4;
pub(super) const WRONG_UNKNOWN_BIN: u32 = 5;
pub(super) const WRONG_OUTSIDE: u32 = 6;
pub(super) const WRONG_SHARED_CELL: u32 = 7;
pub(super) const WRONG_CELL_IN_NONE: u32 = 8;

/// A box that is to be placed once, and how it may be turned.
#[repr(C)]
pub(crate) struct RpEntry {
    pub(crate) rect: RpBox,
    pub(crate) turns: u32,
}

/// Where somebody put a box.
#[repr(C)]
pub(crate) struct RpClaim {
    pub(crate) entry: u32,
    pub(crate) bin: u32,
    pub(crate) section: RpSection,
}

/// What is wrong with a packing.
#[repr(C)]
#[derive(Clone, Copy, Default)]
pub(crate) struct RpFault {
    pub(crate) kind: u32,
    pub(crate) first: u32,
    pub(crate) second: u32,
}

pub(super) const NO_FAULT: u32 = 0;
pub(crate) const FAULT_UNKNOWN_BIN: u32 = 1;
pub(crate) const FAULT_UNKNOWN_BOX: u32 = 2;
pub(crate) const FAULT_WRONG_SIZE: u32 = 3;
pub(crate) const FAULT_OUTSIDE: u32 = 4;
pub(crate) const FAULT_PLACED_TWICE: u32 = 5;
pub(crate) const FAULT_SHARES_CELL: u32 = 6;
pub(crate) const FAULT_GROUP_IN_TWO_BINS: u32 = 7;
pub(crate) const FAULT_EXCLUDED_TOGETHER: u32 = 8;

pub(super) const DONE: u32 = 0;
pub(super) const NOT_ENOUGH_SPACE: u32 = 1;
pub(super) const OUT_OF_MEMORY: u32 = 2;
pub(super) const DUPLICATE_BIN: u32 = 4;
pub(super) const UNKNOWN_BIN: u32 = 5;
pub(super) const UNKNOWN_PLACEMENT: u32 = 6;
pub(super) const NUMBERS_USED_UP: u32 = 7;
pub(super) const SHORT_ARRAY: u32 = 8;
pub(super) const NO_PLAN: u32 = 9;
pub(super) const EQUAL_GROUPS: u32 = 12;
pub(super) const BIN_IN_USE: u32 = 13;
pub(super) const TOO_LARGE: u32 = 14;
pub(super) const NOT_FREE: u32 = 15;
pub(super) const NOT_FROM_CUTS: u32 = 17;
pub(super) const WRONG_PARTS: u32 = 18;
pub(super) const WRONG_BOXES: u32 = 19;
pub(super) const STEP_REFUSED: u32 = 20;

/// Asks for the best heuristic of all.
pub(crate) const BEST: u32 = 0xffff;

extern "C" {
    pub(super) fn rectangle_pack_collection(
        bins: *const RpBin,
        bin_count: usize,
        collection: *const RpCollection,
        heuristic: u32,
        placements: *mut RpPlacement,
        placement_count: usize,
        chosen: *mut u32,
    ) -> u32;
    pub(super) fn rectangle_pack_fitting(
        bins: *const RpBin,
        bin_count: usize,
        collection: *const RpCollection,
        heuristic: u32,
        placements: *mut RpPlacement,
        placement_count: usize,
        fitted: *mut RpFitted,
    ) -> u32;
    pub(super) fn rectangle_pack_told(
        bins: *const RpBin,
        bin_count: usize,
        collection: *const RpCollection,
        steps: *const RpStep,
        step_count: usize,
        placements: *mut RpPlacement,
        placement_count: usize,
        refused: *mut RpRefused,
    ) -> u32;
    pub(super) fn rectangle_pack_least_bins(
        bins: *const RpBin,
        bin_count: usize,
        collection: *const RpCollection,
        turns: *const u32,
        turn_count: usize,
        least: *mut usize,
    ) -> u32;
    pub(super) fn rectangle_pack_search_begin(
        bins: *const RpBin,
        bin_count: usize,
        collection: *const RpCollection,
        options: *const RpSearchOptions,
        search: *mut RpSearch,
    ) -> u32;
    pub(super) fn rectangle_pack_search_run(search: *mut RpSearch, tries: u64, progress: *mut RpProgress) -> u32;
    pub(super) fn rectangle_pack_search_free(search: *mut RpSearch);
    pub(super) fn rectangle_pack_found(
        bins: *const RpBin,
        bin_count: usize,
        collection: *const RpCollection,
        options: *const RpSearchOptions,
        search: *mut RpSearch,
        placements: *mut RpLocation,
        placement_count: usize,
        searched: *mut RpSearched,
    ) -> u32;
    pub(super) fn rectangle_pack_session_new(session: *mut RpSession) -> u32;
    pub(super) fn rectangle_pack_session_restore(
        session: *mut RpSession,
        saved: *const RpSaved,
        wrong: *mut RpWrong,
    ) -> u32;
    pub(super) fn rectangle_pack_session_bin_size(session: *mut RpSession, bin: u32, size: *mut RpBin) -> u32;
    pub(super) fn rectangle_pack_session_free(session: *mut RpSession);
    pub(super) fn rectangle_pack_session_add_bin(
        session: *mut RpSession,
        bin: u32,
        width: u32,
        height: u32,
        depth: u32,
    ) -> u32;
    pub(super) fn rectangle_pack_session_pack_collection(
        session: *mut RpSession,
        collection: *const RpCollection,
        heuristic: u32,
        placements: *mut RpOutstanding,
        placement_count: usize,
        chosen: *mut u32,
    ) -> u32;
    pub(super) fn rectangle_pack_session_pack_fitting(
        session: *mut RpSession,
        collection: *const RpCollection,
        heuristic: u32,
        placements: *mut RpOutstanding,
        placement_count: usize,
        fitted: *mut RpFitted,
    ) -> u32;
    pub(super) fn rectangle_pack_session_pack_told(
        session: *mut RpSession,
        collection: *const RpCollection,
        steps: *const RpStep,
        step_count: usize,
        placements: *mut RpOutstanding,
        placement_count: usize,
        refused: *mut RpRefused,
    ) -> u32;
    pub(super) fn rectangle_pack_session_search_begin(
        session: *mut RpSession,
        collection: *const RpCollection,
        options: *const RpSearchOptions,
        search: *mut RpSearch,
    ) -> u32;
    pub(super) fn rectangle_pack_session_pack_found(
        session: *mut RpSession,
        collection: *const RpCollection,
        options: *const RpSearchOptions,
        search: *mut RpSearch,
        placements: *mut RpStanding,
        placement_count: usize,
        searched: *mut RpSearched,
    ) -> u32;
    pub(super) fn rectangle_pack_session_release(session: *mut RpSession, number: u64) -> u32;
    pub(super) fn rectangle_pack_session_release_all(
        session: *mut RpSession,
        numbers: *const u64,
        count: usize,
    ) -> u32;
    pub(super) fn rectangle_pack_session_coalesce_all(session: *mut RpSession, bin: u32) -> u32;
    pub(super) fn rectangle_pack_session_coalesce(
        session: *mut RpSession,
        bin: u32,
        index: usize,
        start: usize,
        end: usize,
    ) -> u32;
    pub(super) fn rectangle_pack_session_clear_bin(session: *mut RpSession, bin: u32) -> u32;
    pub(super) fn rectangle_pack_session_remove_bin(session: *mut RpSession, bin: u32) -> u32;
    pub(super) fn rectangle_pack_session_grow_bin(
        session: *mut RpSession,
        bin: u32,
        axis: u32,
        by: u32,
    ) -> u32;
    pub(super) fn rectangle_pack_session_place_at(
        session: *mut RpSession,
        bin: u32,
        location: *const RpSection,
        number: *mut u64,
    ) -> u32;
    pub(super) fn rectangle_pack_session_place_best(
        session: *mut RpSession,
        bin: u32,
        one_box: *const RpBox,
        heuristic: u32,
        place: *mut RpOutstanding,
    ) -> u32;
    pub(super) fn rectangle_pack_session_place_best_anywhere(
        session: *mut RpSession,
        one_box: *const RpBox,
        heuristic: u32,
        place: *mut RpOutstanding,
    ) -> u32;
    pub(super) fn rectangle_pack_session_recut(session: *mut RpSession, bin: u32) -> u32;
    pub(super) fn rectangle_pack_session_stats(session: *mut RpSession, bin: u32, stats: *mut RpStats) -> u32;
    pub(super) fn rectangle_pack_session_free_sections(
        session: *mut RpSession,
        bin: u32,
        sections: *mut RpSection,
        length: usize,
        count: *mut usize,
    ) -> u32;
    pub(super) fn rectangle_pack_session_cut_plan(
        session: *mut RpSession,
        bin: u32,
        steps: *mut RpCutStep,
        length: usize,
        count: *mut usize,
    ) -> u32;
    pub(super) fn rectangle_pack_session_was_coalesced(
        session: *mut RpSession,
        bin: u32,
        coalesced: *mut u32,
    ) -> u32;
    pub(super) fn rectangle_pack_session_next_number(session: *mut RpSession) -> u64;
    pub(super) fn rectangle_pack_check(
        bins: *const RpBin,
        bin_count: usize,
        entries: *const RpEntry,
        entry_count: usize,
        exclusions: *const RpExclusion,
        exclusion_count: usize,
        claims: *const RpClaim,
        claim_count: usize,
        fault: *mut RpFault,
    ) -> u32;
    pub(super) fn rectangle_pack_straight_cuts(
        bin: *const RpBin,
        boxes: *const RpSection,
        box_count: usize,
        steps: *mut RpCutStep,
        length: usize,
        count: *mut usize,
        wrong: *mut RpWrong,
    ) -> u32;
}
