//! Packing a session with what a search finds.

use std::collections::BTreeMap;

use super::{Outstanding, Session, SessionError};
use crate::searching::{searched, wanted_for_c};
use crate::{ffi, Group, GroupedRectsToPlace, PackedLocation, Progress, Search, SearchOptions, Searched};

/// What was found for boxes, in a session.
type SearchedIn<'a, RectId, BinId, GroupId> =
    Searched<Vec<Outstanding<RectId, BinId>>, Group<'a, GroupId, RectId>>;

impl<RectId: Ord + Clone, BinId: Ord + Clone> Session<RectId, BinId> {
    /// Searches for a packing that is better than that of any heuristic, as
    /// [`pack_rects_searched`](crate::pack_rects_searched) does, into what is free, and keeps the best that is found. What stood in the
    /// bins before does not count for how many are used and needed.
    ///
    /// ```
    /// # use std::collections::BTreeMap;
    /// # use rectangle_pack::{GroupedRectsToPlace, RectToInsert, SearchOptions, Session, TargetBin};
    /// # let mut session: Session<u32, &str> = Session::new()?;
    /// session.add_bin("sheet", TargetBin::new(10, 10, 1))?;
    /// session.add_bin("dear", TargetBin::new(10, 10, 1))?;
    /// # let mut rects: GroupedRectsToPlace<u32, u32> = GroupedRectsToPlace::new();
    /// for id in 0..4 {
    ///     rects.push_rect(id, None, RectToInsert::new(5, 5, 1));
    /// }
    /// let (turns, costs) = (BTreeMap::new(), BTreeMap::from([("dear", 20)]));
    /// let options = SearchOptions { tries: 1000, seed: 0, may_leave: false, turns: &turns, costs: &costs };
    /// let found = session.pack_searched(&rects, &options, |_| true)?;
    /// assert!(found.packed.iter().all(|it| it.bin == "sheet"));
    /// # Ok::<(), rectangle_pack::SessionError>(())
    /// ```
    ///
    /// # Errors
    ///
    /// `TooMany`, `EqualGroups`, `NumbersUsedUp` or `OutOfMemory`; or `NotEnoughBinSpace` where nothing may be left, the packing is
    /// refused with each heuristic, and none was found.
    pub fn pack_searched<'a, GroupId: Ord>(
        &mut self,
        rects: &'a GroupedRectsToPlace<RectId, GroupId>,
        options: &SearchOptions<'_, RectId, BinId>,
        go_on: impl FnMut(&Progress) -> bool,
    ) -> Result<SearchedIn<'a, RectId, BinId, GroupId>, SessionError> {
        let mut search = self.begin_search(rects, options)?;
        search.run(options.tries, go_on)?;
        self.pack_found(rects, options, search)
    }

    /// Begins a search for such a packing into the bins as they are now. What it finds is packed by [`pack_found`](Self::pack_found).
    ///
    /// # Errors
    ///
    /// `TooMany`, `EqualGroups` or `OutOfMemory`.
    pub fn begin_search<GroupId: Ord>(
        &self,
        rects: &GroupedRectsToPlace<RectId, GroupId>,
        options: &SearchOptions<'_, RectId, BinId>,
    ) -> Result<Search, SessionError> {
        let entries = self.entries_of(rects)?;
        let wanted = wanted_for_c(&entries, options, &self.bin_numbers());
        let begun = self.handle.begin_search(&rects.collection(&entries), &wanted)?;
        Ok(Search::of(begun)?)
    }

    /// Packs what a search found, or the best that a heuristic finds where that is as good, as
    /// [`pack_searched`](Self::pack_searched) does. Where the search was begun with other boxes or options, or the bins have changed
    /// since, what it found may be of no use; what is proved of the packing holds nevertheless.
    ///
    /// # Errors
    ///
    /// As of `pack_searched`.
    pub fn pack_found<'a, GroupId: Ord>(
        &mut self,
        rects: &'a GroupedRectsToPlace<RectId, GroupId>,
        options: &SearchOptions<'_, RectId, BinId>,
        search: Search,
    ) -> Result<SearchedIn<'a, RectId, BinId, GroupId>, SessionError> {
        let entries = self.entries_of(rects)?;
        let wanted = wanted_for_c(&entries, options, &self.bin_numbers());
        let collection = rects.collection(&entries);
        let found = self.handle.pack_found(&collection, &wanted, search.into_begun())?;
        let all = entries.iter().zip(&found.listed);
        let placed = all.filter_map(|(&(id, _), at)| Some((id, at.as_ref()?)));
        let packed = placed.map(|(id, at)| self.standing(id, at)).collect();
        let packed = self.taken_up(packed);
        Ok(searched(rects, &entries, packed, found))
    }

    fn bin_numbers(&self) -> BTreeMap<&BinId, u32> {
        self.numbers.iter().map(|(id, &number)| (id, number)).collect()
    }

    fn standing(&self, id: &RectId, at: &ffi::RpStanding) -> Outstanding<RectId, BinId> {
        self.named_at(id, at.number, at.bin, PackedLocation::from(&at.section))
    }
}
