//! A session: bins that stay, and boxes that are packed into them and released by number.

mod fitting;
mod parts;
mod saving;
mod searching;
#[cfg(test)]
mod tests;
mod told;
mod upkeep;

use std::collections::BTreeMap;
use std::ops::Range;

use crate::{ffi, GroupedRectsToPlace, Heuristic, PackedLocation, RectToInsert, TargetBin};
pub use parts::{Axis, BinStats, CutStep, Outstanding, Section, SessionError};
pub use saving::{RestoreError, SavedBin, SessionParts};

/// Bins, and the boxes that stand in them.
///
/// Each cell of a bin is in exactly one free section or outstanding placement, and each of these is inside the bin. A call that
/// is refused leaves the session as it was.
///
/// ```
/// use rectangle_pack::{GroupedRectsToPlace, RectToInsert, Session, TargetBin};
///
/// let mut session = Session::new()?;
/// session.add_bin("sheet", TargetBin::new(10, 10, 1))?;
///
/// let mut rects: GroupedRectsToPlace<&str, &str> = GroupedRectsToPlace::new();
/// rects.push_rect("hat", None, RectToInsert::new(4, 10, 1));
/// let hat = session.pack(&rects)?.remove(0);
/// assert_eq!((hat.id, hat.bin), ("hat", "sheet"));
/// assert_eq!(session.stats(&"sheet")?.free_volume, 60);
///
/// // The hat is given back by its number, and all of the sheet is one section again.
/// session.release(hat.number)?;
/// session.coalesce_all(&"sheet")?;
/// assert_eq!(session.stats(&"sheet")?.free_volume, 100);
/// assert_eq!(session.stats(&"sheet")?.free_sections, 1);
/// # Ok::<(), rectangle_pack::SessionError>(())
/// ```
///
/// It may go to another thread, if its ids may:
///
/// ```
/// # use rectangle_pack::Session;
/// fn sent<T: Send>() {}
/// sent::<Session<u32, u32>>();
/// ```
///
/// But it is not shared, since its calls come one at a time:
///
/// ```compile_fail,E0277
/// # use rectangle_pack::Session;
/// fn shared<T: Sync>() {}
/// shared::<Session<u32, u32>>();
/// ```
#[derive(Debug)]
pub struct Session<RectId, BinId> {
    handle: ffi::Handle,
    // The bins, by the numbers that C knows them by: 0, 1, 2 and so on, as they were added. No number is given again.
    ids: BTreeMap<u32, BinId>,
    numbers: BTreeMap<BinId, u32>,
    next_bin: u32,
    outstanding: BTreeMap<u64, Outstanding<RectId, BinId>>,
}

impl<RectId: Ord + Clone, BinId: Ord + Clone> Session<RectId, BinId> {
    /// A session without bins.
    ///
    /// # Errors
    ///
    /// `OutOfMemory`.
    pub fn new() -> Result<Self, SessionError> {
        Ok(Session {
            handle: ffi::Handle::new()?,
            ids: BTreeMap::new(),
            numbers: BTreeMap::new(),
            next_bin: 0,
            outstanding: BTreeMap::new(),
        })
    }

    /// Adds a bin of this size, all of it free. It stays until it is removed, or as long as the session.
    ///
    /// # Errors
    ///
    /// `DuplicateBin` or `OutOfMemory`; or `TooMany`, once 2^32 - 1 bins were added, also where they were removed.
    pub fn add_bin(&mut self, id: BinId, bin: TargetBin) -> Result<(), SessionError> {
        if self.numbers.contains_key(&id) {
            return Err(SessionError::DuplicateBin);
        }
        let number = self.next_bin;
        let next = number.checked_add(1).ok_or(SessionError::TooMany)?;
        let named = id.clone();
        let size = ffi::RpBin {
            width: bin.width,
            height: bin.height,
            depth: bin.depth,
        };
        self.handle.add_bin(number, &size)?;
        self.next_bin = next;
        self.ids.insert(number, named);
        self.numbers.insert(id, number);
        Ok(())
    }

    /// Packs all boxes into what is free, each group whole into one bin, and groups that are excluded into different bins: one
    /// placement for each box and group that it is in, in the order of
    /// [`RectanglePackOk::placements`](crate::RectanglePackOk::placements). What was placed before stays where it is, and does not
    /// exclude anything.
    ///
    /// Placements are numbered 0, 1, 2 and so on, in the order in which they are made. Groups go in falling order of the sum of
    /// their volumes, at equal sums boxes that are alone by their ids, and then groups by theirs. Each goes into the first bin
    /// that takes all of its boxes, by rising volume; bins of equal volume are tried in the order in which they were added.
    ///
    /// # Errors
    ///
    /// `EqualGroups`, `NotEnoughBinSpace`, `OutOfMemory`, `TooMany` or `NumbersUsedUp`.
    pub fn pack<GroupId: Ord>(
        &mut self,
        rects: &GroupedRectsToPlace<RectId, GroupId>,
    ) -> Result<Vec<Outstanding<RectId, BinId>>, SessionError> {
        self.pack_by(rects, Heuristic::Volume)
    }

    /// Packs as [`pack`](Self::pack) does, with another heuristic in place of the volume.
    ///
    /// ```
    /// use rectangle_pack::Heuristic;
    /// # use rectangle_pack::{GroupedRectsToPlace, RectToInsert, Session, SessionError, TargetBin};
    /// # let mut session: Session<u32, &str> = Session::new()?;
    /// # session.add_bin("sheet", TargetBin::new(4, 4, 1))?;
    /// # let mut rects: GroupedRectsToPlace<u32, u32> = GroupedRectsToPlace::new();
    /// for (id, width, height) in [(1, 1, 3), (2, 3, 2), (3, 3, 1)] {
    ///     rects.push_rect(id, None, RectToInsert::new(width, height, 1));
    /// }
    /// // By their volumes these three do not go into 4x4, and by their heights they do.
    /// assert_eq!(session.pack(&rects), Err(SessionError::NotEnoughBinSpace));
    /// assert_eq!(session.pack_by(&rects, Heuristic::Height)?.len(), 3);
    /// # Ok::<(), SessionError>(())
    /// ```
    ///
    /// # Errors
    ///
    /// As of `pack`.
    pub fn pack_by<GroupId: Ord>(
        &mut self,
        rects: &GroupedRectsToPlace<RectId, GroupId>,
        heuristic: Heuristic,
    ) -> Result<Vec<Outstanding<RectId, BinId>>, SessionError> {
        let (_, placed) = self.pack_asked(rects, heuristic.number())?;
        Ok(placed)
    }

    /// Packs as [`pack`](Self::pack) does, with the heuristic of [`Heuristic::ALL`] that uses the bins best, and answers this
    /// heuristic too: it places cells in the fewest bins, and of several such the fewest cells in the last of these bins, in the
    /// order in which they were added. What stood in the bins before does not count. Of several that are as good it is the first
    /// in the list. It takes as long as a packing with each of them and one more.
    ///
    /// ```
    /// use rectangle_pack::Heuristic;
    /// # use rectangle_pack::{GroupedRectsToPlace, RectToInsert, Session, TargetBin};
    /// # let mut session: Session<u32, &str> = Session::new()?;
    /// # session.add_bin("sheet", TargetBin::new(4, 4, 1))?;
    /// # let mut rects: GroupedRectsToPlace<u32, u32> = GroupedRectsToPlace::new();
    /// # for (id, width, height) in [(1, 1, 3), (2, 3, 2), (3, 3, 1)] {
    /// #     rects.push_rect(id, None, RectToInsert::new(width, height, 1));
    /// # }
    /// let (best, placed) = session.pack_best(&rects)?;
    /// assert_eq!((best, placed.len()), (Heuristic::Height, 3));
    /// # Ok::<(), rectangle_pack::SessionError>(())
    /// ```
    ///
    /// # Errors
    ///
    /// As of `pack`. `NotEnoughBinSpace` says that there is no space with any of the heuristics.
    pub fn pack_best<GroupId: Ord>(
        &mut self,
        rects: &GroupedRectsToPlace<RectId, GroupId>,
    ) -> Result<(Heuristic, Vec<Outstanding<RectId, BinId>>), SessionError> {
        self.pack_asked(rects, ffi::BEST)
    }

    fn pack_asked<GroupId: Ord>(
        &mut self,
        rects: &GroupedRectsToPlace<RectId, GroupId>,
        heuristic: u32,
    ) -> Result<(Heuristic, Vec<Outstanding<RectId, BinId>>), SessionError> {
        let entries = self.entries_of(rects)?;
        let (chosen, placed) = self.handle.pack(&rects.collection(&entries), heuristic)?;
        let all = entries.iter().zip(&placed);
        let added = all.map(|(&(id, _), at)| self.named(id, rects.sizes[id], at));
        let added = added.collect();
        Ok((chosen, self.taken_up(added)))
    }

    /// The entries of boxes, unless there are too many of them.
    fn entries_of<'a, GroupId: Ord>(
        &self,
        rects: &'a GroupedRectsToPlace<RectId, GroupId>,
    ) -> Result<Vec<(&'a RectId, u32)>, SessionError> {
        let entries = rects.entries();
        match u32::try_from(entries.len()) {
            Ok(_) => Ok(entries),
            Err(_) => Err(SessionError::TooMany),
        }
    }

    /// Placements that C made: they are outstanding on this side too.
    fn taken_up(
        &mut self,
        added: Vec<Outstanding<RectId, BinId>>,
    ) -> Vec<Outstanding<RectId, BinId>> {
        let numbered = added.iter().map(|it| (it.number, it.clone()));
        self.outstanding.extend(numbered);
        added
    }

    /// The placement of a box that stands as it is, by its names.
    fn named(
        &self,
        id: &RectId,
        size: RectToInsert,
        at: &ffi::RpOutstanding,
    ) -> Outstanding<RectId, BinId> {
        let location = PackedLocation::upright(size, &at.placement);
        self.named_at(id, at.number, at.placement.bin, location)
    }

    fn named_at(
        &self,
        id: &RectId,
        number: u64,
        bin: u32,
        location: PackedLocation,
    ) -> Outstanding<RectId, BinId> {
        Outstanding {
            number,
            id: id.clone(),
            bin: self.ids[&bin].clone(),
            location,
        }
    }

    /// Releases a placement by its number: its cells are free again, as the newest free section of its bin. The number is not
    /// given again.
    ///
    /// # Errors
    ///
    /// `UnknownPlacement` or `OutOfMemory`.
    pub fn release(&mut self, number: u64) -> Result<(), SessionError> {
        self.handle.release(number)?;
        self.outstanding.remove(&number);
        Ok(())
    }

    /// Joins free sections of a bin until no two share a whole face. It is worth while after releases: a box goes into one free
    /// section, and not across two. A bin that is empty again need not become one section;
    /// [`clear_bin`](Self::clear_bin) makes it whole.
    ///
    /// # Errors
    ///
    /// `UnknownBin`.
    pub fn coalesce_all(&mut self, bin: &BinId) -> Result<(), SessionError> {
        let number = self.number_of(bin)?;
        self.handle.coalesce_all(number)
    }

    /// Joins one free section of a bin, by its index in the list of [`free_sections`](Self::free_sections), with those of the
    /// range that share a whole face with it. The joined section stands in its place, and those that it took up leave the list.
    /// An index or a range past the end of the list joins nothing there.
    ///
    /// What was released last is the last of the list. To join this alone is cheaper than to join all:
    ///
    /// ```
    /// # use rectangle_pack::{GroupedRectsToPlace, RectToInsert, Session, TargetBin};
    /// # let mut session: Session<&str, &str> = Session::new()?;
    /// # session.add_bin("sheet", TargetBin::new(10, 10, 1))?;
    /// # let mut rects: GroupedRectsToPlace<&str, &str> = GroupedRectsToPlace::new();
    /// # rects.push_rect("hat", None, RectToInsert::new(4, 10, 1));
    /// let hat = session.pack(&rects)?.remove(0);
    /// session.release(hat.number)?;
    /// let last = session.stats(&"sheet")?.free_sections - 1;
    /// session.coalesce(&"sheet", last, 0..last)?;
    /// assert_eq!(session.free_sections(&"sheet")?.len(), 1);
    /// # Ok::<(), rectangle_pack::SessionError>(())
    /// ```
    ///
    /// # Errors
    ///
    /// `UnknownBin`.
    pub fn coalesce(
        &mut self,
        bin: &BinId,
        index: usize,
        range: Range<usize>,
    ) -> Result<(), SessionError> {
        let number = self.number_of(bin)?;
        self.handle.coalesce(number, index, &range)
    }

    /// Whether free sections of a bin were joined since it was added or last cleared, also where nothing was there to join.
    ///
    /// # Errors
    ///
    /// `UnknownBin`.
    pub fn was_coalesced(&self, bin: &BinId) -> Result<bool, SessionError> {
        self.handle.was_coalesced(self.number_of(bin)?)
    }

    /// The ids of all bins, in their order.
    pub fn bins(&self) -> impl Iterator<Item = &BinId> {
        self.numbers.keys()
    }

    /// The free sections of a bin, the newest last.
    ///
    /// # Errors
    ///
    /// `UnknownBin`.
    pub fn free_sections(&self, bin: &BinId) -> Result<Vec<Section>, SessionError> {
        self.handle.free_sections(self.number_of(bin)?)
    }

    /// The cutting plan of a bin: straight cuts, each across a whole part, that leave its free sections and its boxes. A part
    /// with two of these or more is cut on the first axis of x, y and z on which it can be, at the least place. `None` where no
    /// straight cuts leave them, which is so only where sections of the bin were joined.
    ///
    /// ```
    /// use rectangle_pack::{Axis, CutStep};
    /// # use rectangle_pack::{GroupedRectsToPlace, RectToInsert, Session, TargetBin};
    /// # let mut session: Session<&str, &str> = Session::new()?;
    /// # session.add_bin("sheet", TargetBin::new(10, 10, 1))?;
    /// # let mut rects: GroupedRectsToPlace<&str, &str> = GroupedRectsToPlace::new();
    /// # rects.push_rect("hat", None, RectToInsert::new(4, 10, 1));
    /// // The hat is 4 wide and as high as the sheet: one cut parts it from what is free.
    /// session.pack(&rects)?;
    /// let cut = CutStep::Cut { axis: Axis::X, place: 4 };
    /// assert_eq!(session.cut_plan(&"sheet")?, Some(vec![cut, CutStep::Leaf, CutStep::Leaf]));
    /// # Ok::<(), rectangle_pack::SessionError>(())
    /// ```
    ///
    /// # Errors
    ///
    /// `UnknownBin` or `OutOfMemory`.
    pub fn cut_plan(&self, bin: &BinId) -> Result<Option<Vec<CutStep>>, SessionError> {
        self.handle.cut_plan(self.number_of(bin)?)
    }

    /// What is free and what is placed in a bin.
    ///
    /// # Errors
    ///
    /// `UnknownBin`.
    pub fn stats(&self, bin: &BinId) -> Result<BinStats, SessionError> {
        self.handle.stats(self.number_of(bin)?)
    }

    /// The outstanding placements, in the order of their numbers.
    pub fn outstanding(&self) -> impl Iterator<Item = &Outstanding<RectId, BinId>> {
        self.outstanding.values()
    }

    /// The outstanding placements of one bin, in the order of their numbers. This looks at each outstanding placement of the session.
    ///
    /// ```
    /// # use rectangle_pack::{Heuristic, RectToInsert, Session, SessionError, TargetBin};
    /// # let mut session: Session<&str, &str> = Session::new()?;
    /// session.add_bin("left", TargetBin::new(4, 4, 1))?;
    /// session.add_bin("right", TargetBin::new(9, 9, 1))?;
    /// let hat = session.place_best(Some(&"right"), "hat", RectToInsert::new(2, 2, 1), Heuristic::Volume)?;
    /// assert!(session.outstanding_in(&"left")?.is_empty());
    /// assert_eq!(session.outstanding_in(&"right")?[0].number, hat);
    /// assert_eq!(session.outstanding_in(&"none"), Err(SessionError::UnknownBin));
    /// # Ok::<(), SessionError>(())
    /// ```
    ///
    /// # Errors
    ///
    /// `UnknownBin`.
    pub fn outstanding_in(&self, bin: &BinId) -> Result<Vec<&Outstanding<RectId, BinId>>, SessionError> {
        self.number_of(bin)?;
        Ok(self.outstanding().filter(|it| it.bin == *bin).collect())
    }

    /// The number that the next placement gets, or the greatest `u64` where numbers are used up.
    pub fn next_number(&self) -> u64 {
        self.handle.next_number()
    }

    fn number_of(&self, bin: &BinId) -> Result<u32, SessionError> {
        let number = self.numbers.get(bin).copied();
        number.ok_or(SessionError::UnknownBin)
    }
}
