//! Packing what fits into a session.

use super::{Outstanding, Session, SessionError};
use crate::fitting::left_among;
use crate::{ffi, Fitted, Group, GroupedRectsToPlace, Heuristic};

/// What fits of boxes, in a session.
type FittedIn<'a, RectId, BinId, GroupId> =
    Fitted<Vec<Outstanding<RectId, BinId>>, Group<'a, GroupId, RectId>>;

impl<RectId: Ord + Clone, BinId: Ord + Clone> Session<RectId, BinId> {
    /// Packs what fits into what is free, by a heuristic, in the orders of [`pack_by`](Self::pack_by): each group whole into the first
    /// bin that takes it. A group that no bin takes is left, and the next one is tried. Answers the placements, in the order of
    /// [`RectanglePackOk::placements`](crate::RectanglePackOk::placements), and the groups that are left. Only what is placed gets
    /// numbers. Space is no reason to fail.
    ///
    /// ```
    /// use rectangle_pack::{Group, Heuristic};
    /// # use rectangle_pack::{GroupedRectsToPlace, RectToInsert, Session, TargetBin};
    /// # let mut session: Session<u32, &str> = Session::new()?;
    /// session.add_bin("sheet", TargetBin::new(10, 10, 1))?;
    /// # let mut rects: GroupedRectsToPlace<u32, &str> = GroupedRectsToPlace::new();
    /// for (id, side) in [(1, 6), (2, 5), (3, 4)] {
    ///     rects.push_rect(id, None, RectToInsert::new(side, side, 1));
    /// }
    /// // Beside a square of 6 cells a side there is no room for one of 5.
    /// let fitted = session.pack_fitting(&rects, Heuristic::Volume)?;
    /// let placed: Vec<_> = fitted.packed.iter().map(|it| (it.id, it.number)).collect();
    /// assert_eq!(placed, [(1, 0), (3, 1)]);
    /// assert_eq!(fitted.left, [Group::Ungrouped(&2)]);
    /// # Ok::<(), rectangle_pack::SessionError>(())
    /// ```
    ///
    /// # Errors
    ///
    /// `EqualGroups`, `OutOfMemory`, `TooMany` or `NumbersUsedUp`.
    pub fn pack_fitting<'a, GroupId: Ord>(
        &mut self,
        rects: &'a GroupedRectsToPlace<RectId, GroupId>,
        heuristic: Heuristic,
    ) -> Result<FittedIn<'a, RectId, BinId, GroupId>, SessionError> {
        let (_, fitted) = self.fit_asked(rects, heuristic.number())?;
        Ok(fitted)
    }

    /// Packs what fits as [`pack_fitting`](Self::pack_fitting) does, with the heuristic of [`Heuristic::ALL`] that leaves the fewest
    /// cells, and answers this heuristic too. Of several such it is the one that uses the bins best, as
    /// [`pack_best`](Self::pack_best) says it, and of several that are as good the first in the list.
    ///
    /// ```
    /// # use rectangle_pack::{GroupedRectsToPlace, Heuristic, RectToInsert, Session, TargetBin};
    /// # let mut session: Session<u32, &str> = Session::new()?;
    /// session.add_bin("sheet", TargetBin::new(4, 4, 1))?;
    /// # let mut rects: GroupedRectsToPlace<u32, u32> = GroupedRectsToPlace::new();
    /// for (id, width, height) in [(1, 1, 3), (2, 3, 2), (3, 3, 1), (4, 5, 1)] {
    ///     rects.push_rect(id, None, RectToInsert::new(width, height, 1));
    /// }
    /// // By their volumes two of these are left, and by their heights only the one that is too wide.
    /// let (best, fitted) = session.pack_fitting_best(&rects)?;
    /// assert_eq!((best, fitted.packed.len(), fitted.left.len()), (Heuristic::Height, 3, 1));
    /// # Ok::<(), rectangle_pack::SessionError>(())
    /// ```
    ///
    /// # Errors
    ///
    /// As of `pack_fitting`.
    pub fn pack_fitting_best<'a, GroupId: Ord>(
        &mut self,
        rects: &'a GroupedRectsToPlace<RectId, GroupId>,
    ) -> Result<(Heuristic, FittedIn<'a, RectId, BinId, GroupId>), SessionError> {
        self.fit_asked(rects, ffi::BEST)
    }

    fn fit_asked<'a, GroupId: Ord>(
        &mut self,
        rects: &'a GroupedRectsToPlace<RectId, GroupId>,
        heuristic: u32,
    ) -> Result<(Heuristic, FittedIn<'a, RectId, BinId, GroupId>), SessionError> {
        let entries = self.entries_of(rects)?;
        let (chosen, listed) = self.handle.fit(&rects.collection(&entries), heuristic)?;
        let left = left_among(rects, &entries, &listed);
        let all = entries.iter().zip(&listed);
        let placed = all.filter_map(|(&(id, _), at)| Some((id, at.as_ref()?)));
        let packed = placed.map(|(id, at)| self.named(id, rects.sizes[id], at));
        let packed = packed.collect();
        let packed = self.taken_up(packed);
        Ok((chosen, Fitted { packed, left }))
    }
}
