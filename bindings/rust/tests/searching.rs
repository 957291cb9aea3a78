//! Searches: by hand, and drawn ones, which are judged.
#[path = "shared/draw.rs"]
mod draw;

use std::collections::{BTreeMap, BTreeSet};

use draw::Draw;
use rectangle_pack::{
    begin_search, first_fault, least_bins, pack_rects_fitting_best, pack_rects_found,
    pack_rects_searched, Claim, Group, GroupedRectsToPlace, PackedLocation, Progress, RectToInsert,
    RectanglePackError, RectanglePackOk, SearchOptions, Session, SessionError, TargetBin, Turns,
};

type Rects = GroupedRectsToPlace<u32, &'static str>;

type Bins = BTreeMap<usize, TargetBin>;

type AllTurns = BTreeMap<u32, Turns>;

/// Boxes by their ids, each alone or in a group.
type Sizes = Vec<(u32, Option<&'static str>, [u32; 3])>;

fn rects(boxes: &[(u32, Option<&'static str>, [u32; 3])]) -> Rects {
    let mut rects = Rects::new();
    for &(id, group, [w, h, d]) in boxes {
        rects.push_rect(id, group.map(|it| vec![it]), RectToInsert::new(w, h, d));
    }
    rects
}

fn bins(sizes: &[[u32; 3]]) -> Bins {
    let sized = sizes.iter().map(|&[w, h, d]| TargetBin::new(w, h, d));
    sized.enumerate().collect()
}

fn session(sizes: &[[u32; 3]]) -> Result<Session<u32, usize>, SessionError> {
    let mut session = Session::new()?;
    for (id, bin) in bins(sizes) {
        session.add_bin(id, bin)?;
    }
    Ok(session)
}

fn options<'t>(
    tries: u64,
    may_leave: bool,
    turns: &'t AllTurns,
    costs: &'t BTreeMap<usize, u64>,
) -> SearchOptions<'t, u32, usize> {
    SearchOptions { tries, seed: 7, may_leave, turns, costs }
}

const SHEETS: [[u32; 3]; 2] = [[10, 10, 1], [10, 10, 1]];

/// Two panels that go on one sheet where the second is turned.
fn panels() -> Rects {
    rects(&[(1, None, [4, 10, 1]), (2, None, [10, 6, 1])])
}

/// Squares of which four go on a sheet.
fn squares(count: u32) -> Rects {
    let all: Sizes = (0..count).map(|id| (id, None, [5, 5, 1])).collect();
    rects(&all)
}

#[test]
fn panels_are_turned_only_where_they_may_be() -> Result<(), RectanglePackError> {
    let (all, sheets, none) = (panels(), bins(&SHEETS), BTreeMap::new());
    let upright = pack_rects_searched(&all, &sheets, &options(500, false, &AllTurns::new(), &none), |_| true)?;
    assert_eq!((upright.used, upright.least, upright.is_optimal), (2, Some(2), true));
    let turns = AllTurns::from([(2, Turns::FLAT)]);
    let found = pack_rects_searched(&all, &sheets, &options(500, false, &turns, &none), |_| true)?;
    assert_eq!((found.used, found.least, found.is_optimal), (1, Some(1), true));
    let second = found.packed.packed_locations()[&2].1;
    assert_eq!((second.width(), second.height(), second.depth()), (6, 10, 1));
    Ok(())
}

#[test]
fn dear_bins_are_left_empty() -> Result<(), SessionError> {
    let (all, turns, costs) = (squares(2), AllTurns::new(), BTreeMap::from([(0, 9), (77, 1)]));
    let asked = options(100, false, &turns, &costs);
    let once = pack_rects_searched(&all, &bins(&SHEETS), &asked, |_| true).expect("there is space");
    assert!(once.packed.placements().iter().all(|it| it.1 == 1));
    let mut atlas = session(&SHEETS)?;
    let found = atlas.pack_searched(&all, &asked, |_| true)?;
    assert!(found.packed.iter().all(|it| it.bin == 1));
    Ok(())
}

#[test]
fn what_finds_no_space_is_left_where_it_may_be() -> Result<(), SessionError> {
    let (all, turns, none) = (squares(5), AllTurns::new(), BTreeMap::new());
    let mut sheet = session(&SHEETS[..1])?;
    let may_not = sheet.pack_searched(&all, &options(100, false, &turns, &none), |_| true);
    assert_eq!(may_not, Err(SessionError::NotEnoughBinSpace));
    assert_eq!((sheet.outstanding().count(), sheet.next_number()), (0, 0));
    let found = sheet.pack_searched(&all, &options(100, true, &turns, &none), |_| true)?;
    assert_eq!((found.packed.len(), found.left.len()), (4, 1));
    assert!(matches!(found.left[0], Group::Ungrouped(_)));
    assert_eq!((found.used, found.least, found.is_optimal), (1, None, false));
    assert!(sheet.outstanding().eq(&found.packed));
    Ok(())
}

#[test]
fn a_group_stays_together_and_excluded_groups_apart() -> Result<(), RectanglePackError> {
    let mut all = rects(&[(1, Some("food"), [5, 5, 1]), (2, Some("food"), [5, 5, 1]), (3, Some("paint"), [5, 5, 1])]);
    all.exclude("paint", "food");
    let (turns, none) = (AllTurns::new(), BTreeMap::new());
    let found = pack_rects_searched(&all, &bins(&SHEETS), &options(100, true, &turns, &none), |_| true)?;
    let at = found.packed.packed_locations();
    assert_eq!(at[&1].0, at[&2].0);
    assert_ne!(at[&1].0, at[&3].0);
    let one = bins(&SHEETS[..1]);
    let found = pack_rects_searched(&all, &one, &options(100, true, &turns, &none), |_| true)?;
    assert_eq!(found.left, [Group::Grouped(&"paint")]);
    Ok(())
}

#[test]
fn equal_groups_are_refused() -> Result<(), SessionError> {
    let (mut all, turns, none) = (panels(), AllTurns::new(), BTreeMap::new());
    all.exclude("tools", "tools");
    let asked = options(10, true, &turns, &none);
    let once = begin_search(&all, &bins(&SHEETS), &asked);
    assert_eq!(once.map(|_| ()), Err(RectanglePackError::EqualGroups));
    let mut atlas = session(&SHEETS)?;
    assert_eq!(atlas.begin_search(&all, &asked).map(|_| ()), Err(SessionError::EqualGroups));
    assert_eq!(atlas.pack_searched(&all, &asked, |_| true), Err(SessionError::EqualGroups));
    assert_eq!(least_bins(&all, &bins(&SHEETS), &turns), Err(RectanglePackError::EqualGroups));
    Ok(())
}

#[test]
fn a_search_is_asked_whether_to_go_on() -> Result<(), RectanglePackError> {
    let (all, turns, none) = (squares(5), AllTurns::new(), BTreeMap::new());
    let (sheet, asked) = (bins(&SHEETS[..1]), options(1000, true, &turns, &none));
    let mut seen: Vec<Progress> = Vec::new();
    let found = pack_rects_searched(&all, &sheet, &asked, |now| {
        seen.push(*now);
        true
    })?;
    assert_eq!((seen[0].tries, seen[0].bins.max(1)), (0, 1));
    assert!(seen.windows(2).all(|two| two[0].tries < two[1].tries));
    assert!(found.tries <= 1000);
    let stopped = pack_rects_searched(&all, &sheet, &asked, |_| false)?;
    assert_eq!((stopped.tries, stopped.left.len()), (0, 1));
    Ok(())
}

#[test]
fn a_search_that_was_begun_for_other_boxes_finds_a_packing() -> Result<(), RectanglePackError> {
    let (turns, none) = (AllTurns::new(), BTreeMap::new());
    let asked = options(0, false, &turns, &none);
    let mut search = begin_search(&squares(3), &bins(&SHEETS[..1]), &asked)?;
    search.run(50, |_| true)?;
    let all = panels();
    let found = pack_rects_found(&all, &bins(&SHEETS), &asked, search)?;
    assert_eq!((found.used, found.left.len()), (2, 0));
    Ok(())
}

#[test]
fn a_search_may_go_to_another_thread() -> Result<(), RectanglePackError> {
    let (all, sheets, turns, none) = (squares(5), bins(&SHEETS), AllTurns::new(), BTreeMap::new());
    let asked = options(0, false, &turns, &none);
    let mut search = begin_search(&all, &sheets, &asked)?;
    let search = std::thread::spawn(move || search.run(100, |_| true).map(|()| search));
    let search = search.join().expect("it does not panic")?;
    assert_eq!(pack_rects_found(&all, &sheets, &asked, search)?.used, 2);
    Ok(())
}

/// Few small boxes, half of them in groups, of which each third may be turned; and bins for them.
fn drawn(draw: &mut Draw) -> (Sizes, Vec<[u32; 3]>, AllTurns) {
    let depth = if draw.within(0, 1) == 0 { 1 } else { 3 };
    let names = [None, None, Some("a"), Some("b")];
    let boxes: Sizes = (0..draw.within(0, 12))
        .map(|id| {
            let group = names[draw.within(0, 3) as usize];
            (id, group, [draw.within(1, 6), draw.within(1, 6), draw.within(1, depth)])
        })
        .collect();
    let sizes = (0..draw.within(1, 3))
        .map(|_| [draw.within(2, 9), draw.within(2, 9), draw.within(1, depth)])
        .collect();
    let turning = Turns { about_x: depth > 1, about_y: false, about_z: true };
    let turns = boxes.iter().filter(|it| it.0 % 3 == 0).map(|it| (it.0, turning)).collect();
    (boxes, sizes, turns)
}

/// The boxes of groups that are not left.
fn placed_of(boxes: &Sizes, left: &[Group<&'static str, u32>]) -> Sizes {
    let is_left = |id: u32, name: Option<&'static str>| match name {
        None => left.contains(&Group::Ungrouped(&id)),
        Some(name) => left.contains(&Group::Grouped(&name)),
    };
    boxes.iter().filter(|it| !is_left(it.0, it.1)).copied().collect()
}

/// The judge finds no fault with what is placed.
fn judge(boxes: &Sizes, bins: &Bins, turns: &AllTurns, packed: &RectanglePackOk<u32, usize>) {
    let groups: BTreeMap<u32, Option<&'static str>> = boxes.iter().map(|it| (it.0, it.1)).collect();
    let claims: Vec<Claim<u32, &'static str, usize>> = packed
        .placements()
        .iter()
        .map(|&(id, bin, location)| Claim { id, group: groups[&id], bin, location })
        .collect();
    let mut all = rects(boxes);
    all.exclude("a", "b");
    assert_eq!(first_fault(&all, turns, bins, &claims), Ok(None));
}

fn cells(packed: &RectanglePackOk<u32, usize>) -> u32 {
    let of = |at: &PackedLocation| at.width() * at.height() * at.depth();
    packed.placements().iter().map(|it| of(&it.2)).sum()
}

#[test]
fn drawn_searches_are_judged() -> Result<(), RectanglePackError> {
    let (mut draw, none, mut bettered) = (Draw(0x2545_F491_4F6C_DD1D), BTreeMap::new(), 0);
    for run in 0..1000 {
        let (boxes, sizes, turns) = drawn(&mut draw);
        let (mut all, sheets, asked) = (rects(&boxes), bins(&sizes), options(300, true, &turns, &none));
        all.exclude("a", "b");
        let found = pack_rects_searched(&all, &sheets, &asked, |_| true)?;
        judge(&placed_of(&boxes, &found.left), &sheets, &turns, &found.packed);
        let used: BTreeSet<usize> = found.packed.placements().iter().map(|it| it.1).collect();
        assert_eq!(found.used, used.len(), "run {run}");
        assert_eq!(found.least, least_bins(&all, &sheets, &turns)?, "run {run}");
        if found.left.is_empty() {
            assert!(found.least.map_or(false, |least| least <= found.used), "run {run}");
        }
        let (_, guess) = pack_rects_fitting_best(&all, &sheets)?;
        assert!(cells(&guess.packed) <= cells(&found.packed), "run {run}");
        bettered += u32::from(cells(&guess.packed) < cells(&found.packed));
    }
    assert!(bettered > 50, "the best heuristic is bettered {bettered} times");
    Ok(())
}

#[test]
fn searches_in_pieces_find_what_they_find_in_one() -> Result<(), SessionError> {
    let (mut draw, none) = (Draw(0x9E37_79B9_7F4A_7C15), BTreeMap::new());
    for run in 0..300 {
        let (boxes, sizes, turns) = drawn(&mut draw);
        let (all, asked) = (rects(&boxes), options(40, true, &turns, &none));
        let (mut whole, mut pieces) = (session(&sizes)?, session(&sizes)?);
        let found = whole.pack_searched(&all, &asked, |_| true)?;
        let mut search = pieces.begin_search(&all, &asked)?;
        while !search.is_over() && search.progress().tries < asked.tries {
            let rest = asked.tries - search.progress().tries;
            search.run(rest.min(u64::from(draw.within(1, 9))), |_| true)?;
        }
        assert_eq!(pieces.pack_found(&all, &asked, search)?, found, "run {run}");
        assert!(pieces.outstanding().eq(whole.outstanding()), "run {run}");
    }
    Ok(())
}
