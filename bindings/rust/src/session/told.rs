//! Packing a session as it is told.

use super::{Outstanding, Session};
use crate::told::Told;
use crate::{GroupedRectsToPlace, Step, ToldError};

impl<RectId: Ord + Clone, BinId: Ord + Clone> Session<RectId, BinId> {
    /// Packs into what is free as it is told, step by step, as [`pack_rects_told`](crate::pack_rects_told) does it in bins of one call:
    /// one placement for each box of the groups that steps name, in the order of
    /// [`RectanglePackOk::placements`](crate::RectanglePackOk::placements). On each error the session is as it was.
    ///
    /// ```
    /// use rectangle_pack::{Group, Heuristic, Step};
    /// # use rectangle_pack::{GroupedRectsToPlace, RectToInsert, Session, TargetBin};
    /// # let mut session: Session<u32, &str> = Session::new()?;
    /// session.add_bin("left", TargetBin::new(10, 10, 1))?;
    /// session.add_bin("right", TargetBin::new(10, 10, 1))?;
    /// # let mut rects: GroupedRectsToPlace<u32, u32> = GroupedRectsToPlace::new();
    /// rects.push_rect(7, None, RectToInsert::new(4, 10, 1));
    /// // A packing would take the bin that was added first. A step names the other.
    /// let step = Step { group: Group::Ungrouped(&7), bin: "right", heuristic: Heuristic::Volume };
    /// let placed = session.pack_told(&rects, &[step])?;
    /// assert_eq!((placed.len(), placed[0].bin), (1, "right"));
    /// # Ok::<(), Box<dyn std::error::Error>>(())
    /// ```
    ///
    /// # Errors
    ///
    /// `TooMany`, `EqualGroups`, `NumbersUsedUp` or `OutOfMemory`; or `StepRefused`, of the first step that cannot be done.
    pub fn pack_told<GroupId: Ord>(
        &mut self,
        rects: &GroupedRectsToPlace<RectId, GroupId>,
        steps: &[Step<'_, RectId, GroupId, BinId>],
    ) -> Result<Vec<Outstanding<RectId, BinId>>, ToldError> {
        let entries = self.entries_of(rects).map_err(|_| ToldError::TooMany)?;
        // The number of the next bin is that of none.
        let told = Told::of(rects, &entries, steps, |bin| self.number_of(bin).ok(), self.next_bin);
        let handle = &mut self.handle;
        let listed = told.answer(|list| handle.tell(&rects.collection(&entries), list))?;
        let all = entries.iter().zip(&listed);
        let placed = all.filter_map(|(&(id, _), at)| Some((id, at.as_ref()?)));
        let packed = placed.map(|(id, at)| self.named(id, rects.sizes[id], at)).collect();
        Ok(self.taken_up(packed))
    }
}
