//! What fits, by hand, and beside packings of one group after another.
#[path = "shared/draw.rs"]
mod draw;

use std::cmp::Reverse;
use std::collections::{BTreeMap, BTreeSet};

use draw::Draw;
use rectangle_pack::{
    pack_rects_best, pack_rects_by, pack_rects_fitting, pack_rects_fitting_best, Group,
    GroupedRectsToPlace, Heuristic, Outstanding, PackedLocation, RectToInsert, RectanglePackError,
    RectanglePackOk, Session, SessionError, SessionParts, TargetBin,
};

type Rects = GroupedRectsToPlace<u32, &'static str>;

type Sizes = Vec<(u32, Option<&'static str>, [u32; 3])>;

fn rects(boxes: &[(u32, Option<&'static str>, [u32; 3])]) -> Rects {
    let mut rects = Rects::new();
    for &(id, group, [w, h, d]) in boxes {
        rects.push_rect(id, group.map(|it| vec![it]), RectToInsert::new(w, h, d));
    }
    rects
}

fn bins(sizes: &[[u32; 3]]) -> BTreeMap<usize, TargetBin> {
    let sized = sizes.iter().map(|&[w, h, d]| TargetBin::new(w, h, d));
    sized.enumerate().collect()
}

fn session(sizes: &[[u32; 3]]) -> Session<u32, usize> {
    let mut session = Session::new().expect("there is memory");
    for (id, bin) in bins(sizes) {
        session.add_bin(id, bin).expect("there is memory");
    }
    session
}

/// By volume: two drawers, that do not go into one sheet of 10x10 together; a board as high as it; a panel of `doors`, beside it; and
/// a box that is a tool and stands for `paint` too, which is excluded with `doors`.
fn workshop() -> Rects {
    let mut rects = rects(&[
        (1, Some("drawers"), [6, 10, 1]),
        (2, Some("drawers"), [6, 10, 1]),
        (3, None, [4, 10, 1]),
        (4, Some("doors"), [2, 2, 1]),
    ]);
    rects.push_rect(5, Some(vec!["tools", "paint"]), RectToInsert::new(1, 1, 1));
    rects.exclude("paint", "doors");
    rects
}

/// Three boxes of which there is space for all in 4x4 by their heights; by their volumes the first is left.
fn by_heights() -> Rects {
    rects(&[(1, None, [1, 3, 1]), (2, None, [3, 2, 1]), (3, None, [3, 1, 1])])
}

fn corner(at: &PackedLocation) -> (u32, u32, u32) {
    (at.x(), at.y(), at.z())
}

#[test]
fn groups_that_no_bin_takes_are_left() -> Result<(), RectanglePackError> {
    let all = workshop();
    let fitted = pack_rects_fitting(&all, &bins(&[[10, 10, 1]]), Heuristic::Volume)?;
    assert_eq!(fitted.left, [Group::Grouped(&"drawers"), Group::Grouped(&"paint")]);
    let placed: Vec<_> = fitted.packed.placements().iter().map(|(id, bin, at)| (*id, *bin, corner(at))).collect();
    // The tool stands above the panel or beside it.
    assert_eq!(placed[..2], [(3, 0, (0, 0, 0)), (4, 0, (4, 0, 0))]);
    assert_eq!((placed[2].0, placed.len()), (5, 3));
    assert!(fitted.packed.packed_locations().keys().eq([&3, &4, &5]));
    Ok(())
}

#[test]
fn more_bins_take_more() -> Result<(), RectanglePackError> {
    let all = workshop();
    // The drawers fill the second sheet, so the paint needs a third one.
    let mut sheets = bins(&[[10, 10, 1], [12, 10, 1]]);
    let fitted = pack_rects_fitting(&all, &sheets, Heuristic::Volume)?;
    assert_eq!(fitted.left, [Group::Grouped(&"paint")]);
    assert_eq!(pack_rects_by(&all, &sheets, Heuristic::Volume), Err(RectanglePackError::NotEnoughBinSpace));
    sheets.insert(2, TargetBin::new(13, 10, 1));
    let fitted = pack_rects_fitting(&all, &sheets, Heuristic::Volume)?;
    assert!(fitted.left.is_empty());
    assert_eq!(pack_rects_by(&all, &sheets, Heuristic::Volume)?, fitted.packed);
    Ok(())
}

#[test]
fn without_bins_all_is_left() -> Result<(), RectanglePackError> {
    let all = workshop();
    let (best, fitted) = pack_rects_fitting_best(&all, &bins(&[]))?;
    assert_eq!((best, fitted.packed.placements()), (Heuristic::Volume, &[][..]));
    let groups = ["doors", "drawers", "paint", "tools"];
    let right: Vec<_> = [Group::Ungrouped(&3)].into_iter().chain(groups.iter().map(Group::Grouped)).collect();
    assert_eq!(fitted.left, right);
    let nothing = Rects::new();
    assert!(pack_rects_fitting(&nothing, &bins(&[]), Heuristic::Height)?.left.is_empty());
    Ok(())
}

#[test]
fn the_best_leaves_the_fewest_cells() -> Result<(), SessionError> {
    let (all, sheet) = (by_heights(), bins(&[[4, 4, 1]]));
    let by_volume = pack_rects_fitting(&all, &sheet, Heuristic::Volume).expect("there is memory");
    assert_eq!(by_volume.left, [Group::Ungrouped(&1)]);
    let (best, fitted) = pack_rects_fitting_best(&all, &sheet).expect("there is memory");
    assert_eq!((best, fitted.left.len()), (Heuristic::Height, 0));
    assert_eq!(pack_rects_by(&all, &sheet, best), Ok(fitted.packed));
    let mut atlas = session(&[[4, 4, 1]]);
    let (best, fitted) = atlas.pack_fitting_best(&all)?;
    assert_eq!((best, fitted.packed.len(), fitted.left.len()), (Heuristic::Height, 3, 0));
    // Four cells are free, three of them in a row, which the third box fills with each heuristic.
    let (best, fitted) = atlas.pack_fitting_best(&all)?;
    let placed: Vec<_> = fitted.packed.iter().map(|it| (it.number, it.id)).collect();
    assert_eq!((best, placed), (Heuristic::Volume, vec![(3, 3)]));
    assert_eq!(fitted.left, [Group::Ungrouped(&1), Group::Ungrouped(&2)]);
    Ok(())
}

#[test]
fn a_session_keeps_what_stands_in_it() -> Result<(), SessionError> {
    let mut atlas = session(&[[10, 10, 1]]);
    let all = workshop();
    let fitted = atlas.pack_fitting(&all, Heuristic::Volume)?;
    assert_eq!(fitted.left, [Group::Grouped(&"drawers"), Group::Grouped(&"paint")]);
    let placed: Vec<_> = fitted.packed.iter().map(|it| (it.number, it.id)).collect();
    assert_eq!(placed, [(0, 3), (1, 4), (2, 5)]);
    assert!(atlas.outstanding().eq(&fitted.packed));
    // What stood there does not exclude the paint from the next call.
    let mut paint = rects(&[(5, Some("paint"), [1, 1, 1])]);
    paint.exclude("paint", "doors");
    let again = atlas.pack_fitting(&paint, Heuristic::Volume)?;
    assert_eq!((again.packed[0].number, again.left.len()), (3, 0));
    assert_eq!(atlas.outstanding().count(), 4);
    Ok(())
}

#[test]
fn what_is_refused_changes_nothing() -> Result<(), SessionError> {
    let mut all = workshop();
    all.exclude("tools", "tools");
    let (sheet, mut atlas) = (bins(&[[10, 10, 1]]), session(&[[10, 10, 1]]));
    assert_eq!(pack_rects_fitting(&all, &sheet, Heuristic::Width), Err(RectanglePackError::EqualGroups));
    assert_eq!(pack_rects_fitting_best(&all, &sheet), Err(RectanglePackError::EqualGroups));
    assert_eq!(atlas.pack_fitting(&all, Heuristic::Width), Err(SessionError::EqualGroups));
    assert_eq!(atlas.pack_fitting_best(&all), Err(SessionError::EqualGroups));
    assert_eq!((atlas.outstanding().count(), atlas.next_number()), (0, 0));
    Ok(())
}

#[test]
fn boxes_that_would_be_left_need_numbers_too() -> Result<(), SessionError> {
    let parts = SessionParts { bins: vec![], outstanding: vec![], next: u64::MAX - 1 };
    let mut atlas: Session<u32, usize> = Session::restore(parts).expect("it has no bins");
    assert_eq!(atlas.pack_fitting(&by_heights(), Heuristic::Volume), Err(SessionError::NumbersUsedUp));
    let one = rects(&[(1, None, [1, 1, 1])]);
    assert_eq!(atlas.pack_fitting(&one, Heuristic::Volume)?.left, [Group::Ungrouped(&1)]);
    assert_eq!(atlas.next_number(), u64::MAX - 1);
    Ok(())
}

/// Boxes of few cells, half of them in groups, and small bins.
fn drawn(draw: &mut Draw) -> (Sizes, Vec<[u32; 3]>) {
    let depth = if draw.within(0, 1) == 0 { 1 } else { 4 };
    let names = [None, None, Some("a"), Some("b"), Some("c")];
    let boxes = (0..draw.within(0, 14))
        .map(|id| {
            let group = names[draw.within(0, 4) as usize];
            (id, group, [draw.within(1, 6), draw.within(1, 6), draw.within(1, depth)])
        })
        .collect();
    let bins = (0..draw.within(1, 3))
        .map(|_| [draw.within(2, 9), draw.within(2, 9), draw.within(1, depth)])
        .collect();
    (boxes, bins)
}

/// What volume rates a group by, and the groups in the order in which they are packed: at equal rates those that are alone by their
/// ids, and then the others by their names.
fn in_order(boxes: &Sizes) -> Vec<Sizes> {
    let mut groups: BTreeMap<(bool, u32, &str), Sizes> = BTreeMap::new();
    for &(id, group, size) in boxes {
        let key = (group.is_some(), if group.is_some() { 0 } else { id }, group.unwrap_or(""));
        groups.entry(key).or_default().push((id, group, size));
    }
    let mut ordered: Vec<Sizes> = groups.into_values().collect();
    ordered.sort_by_key(|group| Reverse(group.iter().map(|(_, _, [w, h, d])| w * h * d).sum::<u32>()));
    ordered
}

/// By volume, what fits is what a session takes that is asked for one group after another.
#[test]
fn what_fits_is_what_one_group_after_another_finds_space_for() -> Result<(), SessionError> {
    let (mut draw, mut parted) = (Draw(0x2545_F491_4F6C_DD1D), 0);
    for run in 0..2000 {
        let (boxes, sizes) = drawn(&mut draw);
        let (all, mut whole, mut each) = (rects(&boxes), session(&sizes), session(&sizes));
        let (mut placed, mut left): (Vec<Outstanding<u32, usize>>, Vec<u32>) = (vec![], vec![]);
        for group in in_order(&boxes) {
            match each.pack(&rects(&group)) {
                Ok(more) => placed.extend(more),
                Err(SessionError::NotEnoughBinSpace) => left.extend(group.iter().map(|it| it.0)),
                Err(error) => return Err(error),
            }
        }
        let mut fitted = whole.pack_fitting(&all, Heuristic::Volume)?;
        fitted.packed.sort_by_key(|it| it.number);
        assert_eq!(fitted.packed, placed, "run {run}");
        left.sort_unstable();
        assert_eq!(ids_of(&boxes, &fitted.left), left, "run {run}");
        let once = pack_rects_fitting(&all, &bins(&sizes), Heuristic::Volume).expect("there is memory");
        assert_eq!(once.left, fitted.left, "run {run}");
        assert_eq!(once.packed.placements().len(), placed.len(), "run {run}");
        parted += usize::from(!left.is_empty() && !placed.is_empty());
    }
    assert!(parted > 500, "boxes are left and placed {parted} times");
    Ok(())
}

/// The boxes of these groups, in the order of their ids.
fn ids_of(boxes: &Sizes, groups: &[Group<&'static str, u32>]) -> Vec<u32> {
    let is_of = |id: u32, name: Option<&'static str>| match name {
        None => groups.contains(&Group::Ungrouped(&id)),
        Some(name) => groups.contains(&Group::Grouped(&name)),
    };
    boxes.iter().filter(|it| is_of(it.0, it.1)).map(|it| it.0).collect()
}

/// The cells that are left, the bins that are used, and the cells in the last of these. No box is without cells.
fn outlay(boxes: &Sizes, packed: &RectanglePackOk<u32, usize>) -> (u32, usize, u32) {
    let cells = |at: &PackedLocation| at.width() * at.height() * at.depth();
    let whole: u32 = boxes.iter().map(|(_, _, [w, h, d])| w * h * d).sum();
    let placed = packed.placements();
    let used: BTreeSet<usize> = placed.iter().map(|it| it.1).collect();
    let last = placed.iter().filter(|it| Some(&it.1) == used.iter().next_back());
    (whole - placed.iter().map(|it| cells(&it.2)).sum::<u32>(), used.len(), last.map(|it| cells(&it.2)).sum())
}

#[test]
fn the_best_is_the_first_with_the_least_outlay() -> Result<(), RectanglePackError> {
    let (mut draw, mut winners) = (Draw(0x9E37_79B9_7F4A_7C15), BTreeMap::new());
    for run in 0..1000 {
        let (boxes, sizes) = drawn(&mut draw);
        let (all, bins) = (rects(&boxes), bins(&sizes));
        let mut right = None;
        for &heuristic in Heuristic::ALL {
            let fitted = pack_rects_fitting(&all, &bins, heuristic)?;
            let next = outlay(&boxes, &fitted.packed);
            if right.as_ref().map_or(true, |(least, _)| next < *least) {
                right = Some((next, (heuristic, fitted)));
            }
        }
        let (least, best) = right.expect("there are heuristics");
        assert_eq!(pack_rects_fitting_best(&all, &bins)?, best, "run {run}");
        // Where the best leaves nothing, it is the best packing of all.
        if least.0 == 0 {
            assert_eq!(pack_rects_best(&all, &bins)?, (best.0, best.1.packed), "run {run}");
        }
        *winners.entry(best.0.to_string()).or_insert(0) += 1;
    }
    assert!(winners.len() > 4, "{winners:?}");
    Ok(())
}
