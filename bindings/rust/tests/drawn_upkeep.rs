//! Drawn sessions of small bins, with all calls on one bin or one box, beside an account that looks at every section and cell.
//! `DRAWN_SESSIONS` says how many.
#[path = "shared/draw.rs"]
mod draw;

use draw::Draw;
use rectangle_pack::{
    Axis, Heuristic, PackedLocation, RectToInsert, Section, Session, SessionError, TargetBin,
};
use std::collections::{BTreeMap, BTreeSet};

const CALLS: u32 = 40;
const MOST_BINS: usize = 3;
const AXES: [Axis; 3] = [Axis::X, Axis::Y, Axis::Z];

type Sides = [u32; 3];

/// A section, or where a box stands.
#[derive(Debug, Clone, Copy, PartialEq)]
struct Cuboid {
    corner: Sides,
    sides: Sides,
}

impl Cuboid {
    fn end(&self, axis: usize) -> u32 {
        self.corner[axis] + self.sides[axis]
    }

    fn volume(&self) -> u32 {
        self.sides.iter().product()
    }

    fn has(&self, part: &Cuboid) -> bool {
        (0..3)
            .all(|axis| self.corner[axis] <= part.corner[axis] && part.end(axis) <= self.end(axis))
    }

    fn cells(&self) -> impl Iterator<Item = Sides> + '_ {
        let [x, y, z] = self.corner;
        (x..self.end(0)).flat_map(move |i| {
            (y..self.end(1)).flat_map(move |j| (z..self.end(2)).map(move |k| [i, j, k]))
        })
    }

    fn location(&self) -> PackedLocation {
        let ([x, y, z], [width, height, depth]) = (self.corner, self.sides);
        PackedLocation::new(x, y, z, RectToInsert::new(width, height, depth))
    }
}

impl From<Section> for Cuboid {
    fn from(it: Section) -> Self {
        Cuboid {
            corner: [it.x, it.y, it.z],
            sides: [it.width, it.height, it.depth],
        }
    }
}

/// The least of the sides, but for those along which the bin has one cell or none.
fn least(bin: &Sides, sides: &Sides) -> u32 {
    let counted = (0..3).filter(|&axis| bin[axis] > 1).map(|axis| sides[axis]);
    counted.min().unwrap_or(u32::MAX)
}

/// Whether straight cuts part boxes with cells, each across the whole of its part: any plane that no box crosses will do.
fn are_from_cuts(boxes: &[Cuboid]) -> bool {
    if boxes.len() < 2 {
        return true;
    }
    for axis in 0..3 {
        let starts: BTreeSet<u32> = boxes.iter().map(|it| it.corner[axis]).collect();
        for plane in starts.into_iter().skip(1) {
            let (lower, upper): (Vec<Cuboid>, Vec<Cuboid>) =
                boxes.iter().partition(|it| it.corner[axis] < plane);
            if lower.iter().all(|it| it.end(axis) <= plane) {
                return are_from_cuts(&lower) && are_from_cuts(&upper);
            }
        }
    }
    false
}

/// A session, and what it is to have: the bins in the order in which they were added, those that were joined, and the boxes.
struct Drawn {
    draw: Draw,
    session: Session<u64, u32>,
    sizes: Vec<(u32, Sides)>,
    joined: BTreeSet<u32>,
    placed: BTreeMap<u64, (u32, Cuboid)>,
    names: u32,
    next: u64,
}

impl Drawn {
    fn new(seed: u64) -> Self {
        Drawn {
            draw: Draw(seed),
            session: Session::new().expect("there is memory"),
            sizes: Vec::new(),
            joined: BTreeSet::new(),
            placed: BTreeMap::new(),
            names: 0,
            next: 0,
        }
    }

    fn sides(&mut self, low: u32, high: u32) -> Sides {
        [(); 3].map(|()| self.draw.within(low, high))
    }

    /// One of the bins, by its index.
    fn any_bin(&mut self) -> usize {
        let last = u32::try_from(self.sizes.len() - 1).expect("there are few");
        self.draw.within(0, last) as usize
    }

    fn free(&self, bin: u32) -> Vec<Cuboid> {
        let free = self.session.free_sections(&bin).expect("the bin is there");
        free.into_iter().map(Cuboid::from).collect()
    }

    fn standing(&self, bin: u32) -> Vec<Cuboid> {
        let here = self.placed.values().filter(|(home, _)| *home == bin);
        here.map(|(_, stands)| *stands).collect()
    }

    fn add(&mut self) {
        let (name, sides) = (self.names, self.sides(1, 5));
        let [width, height, depth] = sides;
        let flat = if self.draw.within(0, 1) == 0 {
            1
        } else {
            depth
        };
        self.session
            .add_bin(name, TargetBin::new(width, height, flat))
            .expect("the id is new");
        self.sizes.push((name, [width, height, flat]));
        self.names += 1;
    }

    fn keep(&mut self, number: u64, bin: u32, stands: Cuboid) {
        assert_eq!(number, self.next);
        self.placed.insert(number, (bin, stands));
        self.next += 1;
    }

    /// Where a box fits best, by a look at each section of these bins: in which bin, and the index there.
    fn best_place(&self, bins: &[(u32, Sides)], size: &Sides) -> Option<(u32, usize)> {
        let mut best: Option<(u32, (u32, usize))> = None;
        for (bin, sides) in bins {
            for (index, section) in self.free(*bin).iter().enumerate().rev() {
                if (0..3).all(|axis| size[axis] <= section.sides[axis]) {
                    let rests = [0, 1, 2].map(|axis| section.sides[axis] - size[axis]);
                    let rest = least(sides, &rests);
                    if best.map_or(true, |(so_far, _)| rest < so_far) {
                        best = Some((rest, (*bin, index)));
                    }
                }
            }
        }
        best.map(|(_, at)| at)
    }

    fn place_best(&mut self) {
        let (at, size) = (self.any_bin(), self.sides(0, 3));
        let name = self.sizes[at].0;
        let named = (self.draw.within(0, 1) == 0).then_some(name);
        let bins = named.map_or(self.sizes.clone(), |_| vec![self.sizes[at]]);
        let best = self.best_place(&bins, &size);
        let before = best.map(|(bin, _)| self.free(bin));
        let [width, height, depth] = size;
        let rect = RectToInsert::new(width, height, depth);
        let found = self
            .session
            .place_best(named.as_ref(), self.next, rect, Heuristic::Volume);
        let ((bin, index), mut left) = match best.zip(before) {
            Some(found) => found,
            None => return assert_eq!(found, Err(SessionError::NotEnoughBinSpace)),
        };
        let section = left.remove(index);
        let stands = Cuboid {
            corner: section.corner,
            sides: size,
        };
        self.keep(found.expect("a section holds it"), bin, stands);
        let after = self.free(bin);
        assert_eq!(after[..left.len()], left[..]);
        let pieces = &after[left.len()..];
        assert!(pieces.len() <= 3 && pieces.iter().all(|it| section.has(it)));
    }

    fn place_at(&mut self) {
        let at = self.any_bin();
        let (bin, corner, sides) = (self.sizes[at].0, self.sides(0, 4), self.sides(0, 3));
        let stands = Cuboid { corner, sides };
        let is_free = self.free(bin).iter().any(|it| it.has(&stands));
        let found = self.session.place_at(&bin, self.next, stands.location());
        if is_free {
            self.keep(found.expect("a section has it"), bin, stands);
        } else {
            assert_eq!(found, Err(SessionError::NotFree));
        }
    }

    /// Some of the numbers, in any order.
    fn some_numbers(&mut self) -> Vec<u64> {
        let mut numbers: Vec<u64> = self.placed.keys().copied().collect();
        numbers.retain(|_| self.draw.within(0, 2) > 0);
        for i in 1..numbers.len() {
            numbers.swap(i, self.draw.within(0, i as u32) as usize);
        }
        numbers
    }

    fn release_all(&mut self) {
        let mut numbers = self.some_numbers();
        let lists: Vec<Vec<Cuboid>> = self.sizes.iter().map(|it| self.free(it.0)).collect();
        if self.draw.within(0, 3) == 0 {
            numbers.push(numbers.first().copied().unwrap_or(self.next));
            let found = self.session.release_all(&numbers);
            assert_eq!(found, Err(SessionError::UnknownPlacement));
            numbers.clear();
        } else {
            self.session
                .release_all(&numbers)
                .expect("all are outstanding");
        }
        let gone: Vec<(u32, Cuboid)> = numbers
            .iter()
            .filter_map(|number| self.placed.remove(number))
            .collect();
        for ((bin, _), mut list) in self.sizes.clone().into_iter().zip(lists) {
            let back = gone
                .iter()
                .filter(|(home, it)| *home == bin && it.volume() > 0);
            list.extend(back.map(|(_, it)| *it));
            assert_eq!(self.free(bin), list);
        }
    }

    fn release(&mut self) {
        if let Some(&number) = self.some_numbers().first() {
            self.session.release(number).expect("it is outstanding");
            self.placed.remove(&number);
        }
    }

    fn join(&mut self) {
        let at = self.any_bin();
        let bin = self.sizes[at].0;
        self.session.coalesce_all(&bin).expect("the bin is there");
        self.joined.insert(bin);
    }

    fn recut(&mut self) {
        let at = self.any_bin();
        let (bin, sides) = self.sizes[at];
        let mut boxes = self.standing(bin);
        boxes.retain(|it| it.volume() > 0);
        let before = self.free(bin);
        let found = self.session.recut(&bin);
        let after = self.free(bin);
        if !are_from_cuts(&boxes) {
            assert_eq!((found, after), (Err(SessionError::NotFromCuts), before));
            return;
        }
        assert_eq!(found, Ok(()));
        let thickness: Vec<u32> = after.iter().map(|it| least(&sides, &it.sides)).collect();
        assert!(thickness.windows(2).all(|pair| pair[0] >= pair[1]));
        assert!(!boxes.is_empty() || after.len() == 1);
        boxes.extend(after);
        assert!(are_from_cuts(&boxes));
    }

    fn grow(&mut self) {
        let (at, axis, by) = (
            self.any_bin(),
            self.draw.within(0, 2) as usize,
            self.draw.within(0, 2),
        );
        if self.sizes[at].1[axis] + by < 8 {
            let bin = self.sizes[at].0;
            self.session
                .grow_bin(&bin, AXES[axis], by)
                .expect("the bin is there");
            self.sizes[at].1[axis] += by;
        }
    }

    fn clear(&mut self) {
        let at = self.any_bin();
        let bin = self.sizes[at].0;
        self.session.clear_bin(&bin).expect("the bin is there");
        self.placed.retain(|_, (home, _)| *home != bin);
        self.joined.remove(&bin);
        assert_eq!(self.free(bin).len(), 1);
    }

    fn remove(&mut self) {
        let at = self.any_bin();
        let bin = self.sizes[at].0;
        let found = self.session.remove_bin(&bin);
        if self.placed.values().any(|(home, _)| *home == bin) {
            assert_eq!(found, Err(SessionError::BinInUse));
        } else {
            assert_eq!(found, Ok(()));
            self.sizes.remove(at);
            self.joined.remove(&bin);
        }
    }

    fn call(&mut self) {
        if self.sizes.is_empty() {
            return self.add();
        }
        match self.draw.within(0, 23) {
            0 if self.sizes.len() < MOST_BINS => self.add(),
            0..=6 => self.place_best(),
            7..=10 => self.place_at(),
            11..=13 => self.release(),
            14..=15 => self.release_all(),
            16 => self.join(),
            17..=20 => self.recut(),
            21 => self.grow(),
            22 => self.clear(),
            _ => self.remove(),
        }
    }

    /// The lists are those of the account, and each cell of each bin is in one free section or one box.
    fn check(&self) {
        let known = self
            .session
            .outstanding()
            .map(|it| (it.number, (it.bin, it.location)));
        let wanted = self
            .placed
            .iter()
            .map(|(number, (bin, it))| (*number, (*bin, it.location())));
        assert!(known.eq(wanted));
        for (bin, sides) in &self.sizes {
            let whole = Cuboid {
                corner: [0; 3],
                sides: *sides,
            };
            let (free, standing) = (self.free(*bin), self.standing(*bin));
            let mut cells: Vec<Sides> = free
                .iter()
                .chain(&standing)
                .flat_map(Cuboid::cells)
                .collect();
            cells.sort_unstable();
            assert!(cells.into_iter().eq(whole.cells()));
            assert_eq!(
                self.session.was_coalesced(bin),
                Ok(self.joined.contains(bin))
            );
        }
    }
}

#[test]
fn sessions_are_as_the_account_says() {
    let sessions = std::env::var("DRAWN_SESSIONS").map_or(Ok(100), |it| it.parse::<u64>());
    for seed in 1..=sessions.expect("a number") {
        let mut drawn = Drawn::new(seed.wrapping_mul(0x9E37_79B9_7F4A_7C15));
        for _ in 0..CALLS {
            drawn.call();
            drawn.check();
        }
    }
}
