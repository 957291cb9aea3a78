//! The boxes to place, and their groups.

use std::collections::{BTreeMap, BTreeSet};

use crate::{ffi, Group, RectToInsert};

/// The place of the first entry of each group.
pub(crate) struct GroupPlaces<'a, RectId, GroupId> {
    alone: BTreeMap<&'a RectId, u32>,
    grouped: BTreeMap<&'a GroupId, u32>,
}

impl<RectId: Ord, GroupId: Ord> GroupPlaces<'_, RectId, GroupId> {
    /// That of this group, if it is there.
    pub(crate) fn of(&self, group: &Group<'_, GroupId, RectId>) -> Option<u32> {
        match group {
            Group::Ungrouped(id) => self.alone.get(id).copied(),
            Group::Grouped(name) => self.grouped.get(name).copied(),
        }
    }
}

/// Boxes to place, and the groups that they are in. The boxes of one group go into one bin together, and groups that are excluded
/// go into different bins.
#[derive(Debug, Clone)]
pub struct GroupedRectsToPlace<RectId, GroupId> {
    pub(crate) sizes: BTreeMap<RectId, RectToInsert>,
    alone: BTreeSet<RectId>,
    groups: BTreeMap<GroupId, Vec<RectId>>,
    // Of each pair the lesser group, with the greater ones.
    exclusions: BTreeMap<GroupId, BTreeSet<GroupId>>,
}

impl<RectId: Ord + Clone, GroupId: Ord> GroupedRectsToPlace<RectId, GroupId> {
    /// No boxes.
    pub fn new() -> Self {
        GroupedRectsToPlace {
            sizes: BTreeMap::new(),
            alone: BTreeSet::new(),
            groups: BTreeMap::new(),
            exclusions: BTreeMap::new(),
        }
    }

    /// Adds a box: alone, or to each of the groups that are named, in each of which it is placed once. A box that was pushed
    /// before under an equal id gets this size.
    ///
    /// # Panics
    ///
    /// Where the list of groups is there and empty.
    pub fn push_rect(&mut self, id: RectId, groups: Option<Vec<GroupId>>, rect: RectToInsert) {
        match groups {
            None => {
                self.alone.insert(id.clone());
            }
            Some(groups) => {
                assert!(!groups.is_empty(), "a box is in no group, or in one or more");
                for group in groups {
                    self.groups.entry(group).or_default().push(id.clone());
                }
            }
        }
        self.sizes.insert(id, rect);
    }

    /// Says that two groups are excluded: within one packing neither goes into a bin that the other went into. They need not have
    /// boxes yet; a group without boxes excludes nothing. To say it again, in either order, changes nothing.
    ///
    /// To exclude a group with itself is a mistake, to which each packing, and the judge, answers `EqualGroups`.
    ///
    /// ```
    /// # use std::collections::BTreeMap;
    /// # use rectangle_pack::{pack_rects, GroupedRectsToPlace, RectToInsert, TargetBin};
    /// # let mut rects: GroupedRectsToPlace<&str, &str> = GroupedRectsToPlace::new();
    /// # let bins = BTreeMap::from([("van", TargetBin::new(9, 9, 9)), ("truck", TargetBin::new(20, 9, 9))]);
    /// rects.push_rect("paint", Some(vec!["chemicals"]), RectToInsert::new(2, 2, 2));
    /// rects.push_rect("bread", Some(vec!["food"]), RectToInsert::new(2, 2, 2));
    /// rects.exclude("chemicals", "food");
    /// let packed = pack_rects(&rects, &bins)?;
    /// assert_eq!(packed.packed_locations()["paint"].0, "van");
    /// assert_eq!(packed.packed_locations()["bread"].0, "truck");
    /// # Ok::<(), rectangle_pack::RectanglePackError>(())
    /// ```
    pub fn exclude(&mut self, one: GroupId, other: GroupId) {
        let (lesser, greater) = if one <= other { (one, other) } else { (other, one) };
        self.exclusions.entry(lesser).or_default().insert(greater);
    }

    /// Whether two groups are excluded, in either order.
    pub fn excluded(&self, one: &GroupId, other: &GroupId) -> bool {
        let partners = self.exclusions.get(one.min(other));
        partners.map_or(false, |greater| greater.contains(one.max(other)))
    }

    /// The groups that have boxes, by the numbers that entries have.
    pub(crate) fn group_numbers(&self) -> BTreeMap<&GroupId, u32> {
        self.groups.keys().zip(1..).collect()
    }

    /// The group of this number; `None` for 0, where a box is alone.
    pub(crate) fn group_of(&self, number: u32) -> Option<&GroupId> {
        let index = number.checked_sub(1)? as usize;
        self.groups.keys().nth(index)
    }

    /// One entry for each box and group that it is in, in the order that the library's ties go by: boxes that are alone by
    /// their ids, then groups by theirs, each with its boxes as they were pushed.
    pub(crate) fn entries(&self) -> Vec<(&RectId, u32)> {
        let alone = self.alone.iter().map(|id| (id, 0));
        let grouped = (1..)
            .zip(self.groups.values())
            .flat_map(|(number, ids)| ids.iter().map(move |id| (id, number)));
        alone.chain(grouped).collect()
    }

    /// Where the first entry of each group stands.
    pub(crate) fn places_of_groups<'a>(&'a self, entries: &[(&'a RectId, u32)]) -> GroupPlaces<'a, RectId, GroupId> {
        let names: Vec<&GroupId> = self.groups.keys().collect();
        let (mut alone, mut grouped) = (BTreeMap::new(), BTreeMap::new());
        for (&(id, number), place) in entries.iter().zip(0..) {
            match number {
                0 => alone.insert(id, place),
                _ => Some(*grouped.entry(names[number as usize - 1]).or_insert(place)),
            };
        }
        GroupPlaces { alone, grouped }
    }

    /// The groups of these entries, each once. The entries of a group stand side by side.
    pub(crate) fn groups_of<'a>(
        &'a self,
        entries: impl Iterator<Item = (&'a RectId, u32)>,
    ) -> Vec<Group<'a, GroupId, RectId>> {
        let names: Vec<&GroupId> = self.groups.keys().collect();
        let (mut groups, mut last) = (Vec::new(), 0);
        for (id, number) in entries {
            match number {
                0 => groups.push(Group::Ungrouped(id)),
                _ if number == last => (),
                _ => groups.push(Group::Grouped(names[number as usize - 1])),
            }
            last = number;
        }
        groups
    }

    /// The boxes of these entries, and the groups that are excluded, as C takes them.
    pub(crate) fn collection(&self, entries: &[(&RectId, u32)]) -> ffi::Collection {
        let sized = entries.iter().map(|&(id, group)| (self.sizes[id], group));
        ffi::Collection {
            boxes: sized
                .map(|(size, group)| ffi::RpBox {
                    width: size.width,
                    height: size.height,
                    depth: size.depth,
                    group,
                })
                .collect(),
            exclusions: self.numbered_exclusions(),
        }
    }

    /// The excluded pairs, by the numbers of their groups. A pair is left out where one of its groups has no boxes. A group that
    /// is excluded with itself stays, with any number, for C to refuse it.
    fn numbered_exclusions(&self) -> Vec<ffi::RpExclusion> {
        let numbers = self.group_numbers();
        let all = self.exclusions.iter();
        let pairs = all.flat_map(|(one, others)| others.iter().map(move |other| (one, other)));
        pairs
            .filter_map(|(one, other)| {
                let numbered = (numbers.get(one), numbers.get(other));
                let (one, other) = match numbered {
                    _ if one == other => (0, 0),
                    (Some(&one), Some(&other)) => (one, other),
                    _ => return None,
                };
                Some(ffi::RpExclusion { one, other })
            })
            .collect()
    }
}

impl<RectId: Ord + Clone, GroupId: Ord> Default for GroupedRectsToPlace<RectId, GroupId> {
    fn default() -> Self {
        Self::new()
    }
}
