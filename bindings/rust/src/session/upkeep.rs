//! Bins that are cleared, removed, made larger and cut anew, and boxes that are placed one by one.

use super::{Axis, Outstanding, Session, SessionError};
use crate::{ffi, Heuristic, PackedLocation, RectToInsert};

impl<RectId: Ord + Clone, BinId: Ord + Clone> Session<RectId, BinId> {
    /// Makes a bin whole again: it has one free section, which is all of it, and does not count as coalesced. Its placements are
    /// no longer outstanding. No number is given again.
    ///
    /// # Errors
    ///
    /// `UnknownBin` or `OutOfMemory`.
    pub fn clear_bin(&mut self, bin: &BinId) -> Result<(), SessionError> {
        let number = self.number_of(bin)?;
        self.handle.clear_bin(number)?;
        self.outstanding.retain(|_, it| it.bin != *bin);
        Ok(())
    }

    /// Takes out a bin in which no placement is outstanding. Another may be added under its id.
    ///
    /// # Errors
    ///
    /// `UnknownBin` or `BinInUse`.
    pub fn remove_bin(&mut self, bin: &BinId) -> Result<(), SessionError> {
        let number = self.number_of(bin)?;
        self.handle.remove_bin(number)?;
        self.numbers.remove(bin);
        self.ids.remove(&number);
        Ok(())
    }

    /// Makes a bin larger by so many cells on an axis. What is new is its newest free section, where it has cells. All else in
    /// the bin stays where it is.
    ///
    /// ```
    /// use rectangle_pack::Axis;
    /// # use rectangle_pack::{Session, TargetBin};
    /// # let mut session: Session<&str, &str> = Session::new()?;
    /// session.add_bin("sheet", TargetBin::new(4, 10, 1))?;
    /// session.grow_bin(&"sheet", Axis::X, 6)?;
    /// let free = session.free_sections(&"sheet")?;
    /// assert_eq!((free[0].x, free[0].width), (0, 4));
    /// assert_eq!((free[1].x, free[1].width), (4, 6));
    /// # Ok::<(), rectangle_pack::SessionError>(())
    /// ```
    ///
    /// # Errors
    ///
    /// `UnknownBin`, `TooLarge` or `OutOfMemory`.
    pub fn grow_bin(&mut self, bin: &BinId, axis: Axis, by: u32) -> Result<(), SessionError> {
        let number = self.number_of(bin)?;
        self.handle.grow_bin(number, axis, by)
    }

    /// Cuts the free part of a bin anew, where boxes that came and went left it in many small sections. Placements stay where they
    /// are, and straight cuts part the bin into them and the new free sections. The section whose least side is the greatest
    /// stands first, and of those that tie the smallest; an axis on which the bin has one cell does not count. A bin without
    /// placements becomes one section. Whether sections were joined stays known.
    ///
    /// ```
    /// use rectangle_pack::PackedLocation;
    /// # use rectangle_pack::{RectToInsert, Session, TargetBin};
    /// # let mut session: Session<&str, &str> = Session::new()?;
    /// session.add_bin("board", TargetBin::new(10, 10, 1))?;
    /// let knot = PackedLocation::new(4, 3, 0, RectToInsert::new(2, 2, 1));
    /// let number = session.place_at(&"board", "knot", knot)?;
    /// session.release(number)?;
    /// assert_eq!(session.free_sections(&"board")?.len(), 5);
    /// session.recut(&"board")?;
    /// assert_eq!(session.free_sections(&"board")?.len(), 1);
    /// # Ok::<(), rectangle_pack::SessionError>(())
    /// ```
    ///
    /// # Errors
    ///
    /// `UnknownBin`, `NotFromCuts` or `OutOfMemory`. `NotFromCuts` comes only where sections of the bin were joined.
    pub fn recut(&mut self, bin: &BinId) -> Result<(), SessionError> {
        let number = self.number_of(bin)?;
        self.handle.recut(number)
    }

    /// Places one box at a place of the caller's choice, and answers the number by which it is released. So go in knots, pillars,
    /// and a layout that was made elsewhere.
    ///
    /// ```
    /// use rectangle_pack::PackedLocation;
    /// # use rectangle_pack::{RectToInsert, Session, SessionError, TargetBin};
    /// # let mut session: Session<&str, &str> = Session::new()?;
    /// session.add_bin("board", TargetBin::new(10, 10, 1))?;
    /// let knot = PackedLocation::new(4, 3, 0, RectToInsert::new(2, 2, 1));
    /// assert_eq!(session.place_at(&"board", "knot", knot), Ok(0));
    /// assert_eq!(session.place_at(&"board", "again", knot), Err(SessionError::NotFree));
    /// # Ok::<(), SessionError>(())
    /// ```
    ///
    /// # Errors
    ///
    /// `UnknownBin`, `NumbersUsedUp` or `OutOfMemory`; or `NotFree` where no free section of the bin holds the box there, also
    /// where its cells are free in several.
    pub fn place_at(
        &mut self,
        bin: &BinId,
        id: RectId,
        location: PackedLocation,
    ) -> Result<u64, SessionError> {
        let target = self.number_of(bin)?;
        let named = self.ids[&target].clone();
        let place = ffi::RpSection {
            x: location.x(),
            y: location.y(),
            z: location.z(),
            width: location.width(),
            height: location.height(),
            depth: location.depth(),
        };
        let number = self.handle.place_at(target, &place)?;
        let placed = Outstanding {
            number,
            id,
            bin: named,
            location,
        };
        self.outstanding.insert(number, placed);
        Ok(number)
    }

    /// Places one box into the free section that it fits best, of this bin or, without one, of any, and answers the number by
    /// which it is released. It fits that section best of which it leaves the least on its tightest side: of several such in one
    /// bin the newest, of several such bins the one that was added first. An axis on which the bin has one cell does not count.
    /// The rest of the section is cut by the heuristic.
    ///
    /// ```
    /// use rectangle_pack::Heuristic;
    /// # use rectangle_pack::{RectToInsert, Session, SessionError, TargetBin};
    /// # let mut session: Session<&str, &str> = Session::new()?;
    /// session.add_bin("large", TargetBin::new(20, 20, 1))?;
    /// session.add_bin("small", TargetBin::new(10, 8, 1))?;
    /// let size = RectToInsert::new(9, 5, 1);
    /// session.place_best(None, "shelf", size, Heuristic::Volume)?;
    /// assert_eq!(session.outstanding().next().map(|it| it.bin), Some("small"));
    /// assert_eq!(
    ///     session.place_best(Some(&"small"), "wall", size, Heuristic::Volume),
    ///     Err(SessionError::NotEnoughBinSpace)
    /// );
    /// # Ok::<(), SessionError>(())
    /// ```
    ///
    /// # Errors
    ///
    /// `UnknownBin`, `NumbersUsedUp` or `OutOfMemory`; or `NotEnoughBinSpace` where no free section holds the box.
    pub fn place_best(
        &mut self,
        bin: Option<&BinId>,
        id: RectId,
        size: RectToInsert,
        heuristic: Heuristic,
    ) -> Result<u64, SessionError> {
        let target = bin.map(|bin| self.number_of(bin)).transpose()?;
        let one_box = ffi::RpBox {
            width: size.width,
            height: size.height,
            depth: size.depth,
            group: 0,
        };
        let place = self.handle.place_best(target, &one_box, heuristic.number())?;
        let placed = self.named(&id, size, &place);
        self.outstanding.insert(place.number, placed);
        Ok(place.number)
    }

    /// Releases placements by their numbers, all or none, each as [`release`](Self::release) does it, in the order of the list.
    ///
    /// ```
    /// # use rectangle_pack::{Heuristic, RectToInsert, Session, SessionError, TargetBin};
    /// # let mut session: Session<&str, &str> = Session::new()?;
    /// # session.add_bin("sheet", TargetBin::new(10, 10, 1))?;
    /// # let size = RectToInsert::new(4, 4, 1);
    /// let hat = session.place_best(None, "hat", size, Heuristic::Volume)?;
    /// let cap = session.place_best(None, "cap", size, Heuristic::Volume)?;
    /// assert_eq!(session.release_all(&[hat, 7]), Err(SessionError::UnknownPlacement));
    /// session.release_all(&[hat, cap])?;
    /// assert_eq!(session.outstanding().count(), 0);
    /// # Ok::<(), SessionError>(())
    /// ```
    ///
    /// # Errors
    ///
    /// `UnknownPlacement`, also where a number stands twice, or `OutOfMemory`.
    pub fn release_all(&mut self, numbers: &[u64]) -> Result<(), SessionError> {
        self.handle.release_all(numbers)?;
        for number in numbers {
            self.outstanding.remove(number);
        }
        Ok(())
    }
}
