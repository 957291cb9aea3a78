//! Groups that are excluded, and heuristics, by hand.
use std::cmp::Reverse;
use std::collections::{BTreeMap, BTreeSet};

use rectangle_pack::{
    pack_rects, pack_rects_best, pack_rects_by, GroupedRectsToPlace, Heuristic, RectToInsert,
    RectanglePackError, Session, SessionError, TargetBin, UnknownHeuristic,
};

type Rects = GroupedRectsToPlace<u32, &'static str>;

fn rects(boxes: &[(u32, &[&'static str], [u32; 3])]) -> Rects {
    let mut rects = Rects::new();
    for &(id, groups, [w, h, d]) in boxes {
        let groups = (!groups.is_empty()).then(|| groups.to_vec());
        rects.push_rect(id, groups, RectToInsert::new(w, h, d));
    }
    rects
}

fn bins(sizes: &[[u32; 3]]) -> BTreeMap<usize, TargetBin> {
    let sized = sizes.iter().map(|&[w, h, d]| TargetBin::new(w, h, d));
    sized.enumerate().collect()
}

fn session(sizes: &[[u32; 3]]) -> Session<u32, usize> {
    let mut session = Session::new().expect("there is memory");
    for (id, bin) in bins(sizes) {
        session.add_bin(id, bin).expect("there is memory");
    }
    session
}

/// Three boxes of which there is space for all in 4x4 by their heights, and not by their volumes.
fn by_heights() -> Rects {
    rects(&[(1, &[], [1, 3, 1]), (2, &[], [3, 2, 1]), (3, &[], [3, 1, 1])])
}

#[test]
fn excluded_groups_are_in_different_bins() -> Result<(), RectanglePackError> {
    let mut rects = rects(&[(1, &["acid"], [2, 2, 1]), (2, &["food"], [2, 2, 1]), (3, &[], [2, 2, 1])]);
    let where_are = |rects: &Rects, bins: &BTreeMap<usize, TargetBin>| -> Result<Vec<usize>, RectanglePackError> {
        Ok(pack_rects(rects, bins)?.packed_locations().values().map(|it| it.0).collect())
    };
    let (one, two) = (bins(&[[9, 9, 1]]), bins(&[[9, 9, 1], [9, 9, 1]]));
    assert_eq!(where_are(&rects, &two)?, [0, 0, 0]);
    rects.exclude("food", "acid");
    assert_eq!(where_are(&rects, &two)?, [0, 1, 0]);
    assert_eq!(where_are(&rects, &one), Err(RectanglePackError::NotEnoughBinSpace));
    Ok(())
}

#[test]
fn a_box_of_two_excluded_groups_is_in_two_bins() -> Result<(), RectanglePackError> {
    let mut rects = rects(&[(7, &["a", "b"], [3, 3, 1])]);
    rects.exclude("a", "b");
    let packed = pack_rects(&rects, &bins(&[[8, 8, 1], [4, 4, 1]]))?;
    let placed: Vec<_> = packed.placements().iter().map(|(id, bin, _)| (*id, *bin)).collect();
    assert_eq!(placed, [(7, 1), (7, 0)]);
    Ok(())
}

#[test]
fn exclusions_are_those_that_were_said() {
    let mut rects = rects(&[(1, &["b"], [1, 1, 1])]);
    assert!(!rects.excluded(&"a", &"b"));
    rects.exclude("b", "a");
    rects.exclude("a", "b");
    rects.exclude("a", "c");
    for (one, other, right) in [("a", "b", true), ("a", "c", true), ("b", "c", false), ("a", "a", false)] {
        assert_eq!(rects.excluded(&one, &other), right);
        assert_eq!(rects.excluded(&other, &one), right);
    }
}

#[test]
fn groups_without_boxes_exclude_nothing() {
    let mut rects = rects(&[(1, &["a"], [2, 2, 1]), (2, &["b"], [2, 2, 1]), (3, &[], [2, 2, 1])]);
    rects.exclude("a", "nobody");
    rects.exclude("no one", "nobody");
    assert!(pack_rects(&rects, &bins(&[[9, 9, 1]])).is_ok());
}

#[test]
fn a_group_that_is_excluded_with_itself_is_refused() -> Result<(), SessionError> {
    for group in ["a", "nobody"] {
        let mut rects = rects(&[(1, &["a"], [2, 2, 1])]);
        rects.exclude(group, group);
        assert!(rects.excluded(&group, &group));
        let (sheet, mut session) = (bins(&[[9, 9, 1]]), session(&[[9, 9, 1]]));
        let before = session.stats(&0)?;
        assert_eq!(pack_rects(&rects, &sheet), Err(RectanglePackError::EqualGroups));
        assert_eq!(pack_rects_best(&rects, &sheet), Err(RectanglePackError::EqualGroups));
        assert_eq!(session.pack(&rects), Err(SessionError::EqualGroups));
        assert_eq!(session.pack_best(&rects), Err(SessionError::EqualGroups));
        assert_eq!((session.stats(&0)?, session.next_number()), (before, 0));
    }
    Ok(())
}

#[test]
fn a_session_forgets_groups_from_call_to_call() -> Result<(), SessionError> {
    let mut session = session(&[[9, 9, 1]]);
    session.pack(&rects(&[(1, &["a"], [2, 2, 1])]))?;
    let mut second = rects(&[(2, &["b"], [2, 2, 1])]);
    second.exclude("a", "b");
    assert_eq!(session.pack(&second)?[0].bin, 0);
    // Within one call they are apart, and what is refused changes nothing.
    second.push_rect(3, Some(vec!["a"]), RectToInsert::new(1, 1, 1));
    let before = (session.stats(&0)?, session.free_sections(&0)?, session.next_number());
    assert_eq!(session.pack(&second), Err(SessionError::NotEnoughBinSpace));
    assert_eq!(session.pack_best(&second), Err(SessionError::NotEnoughBinSpace));
    assert_eq!((session.stats(&0)?, session.free_sections(&0)?, session.next_number()), before);
    assert_eq!(session.outstanding().count(), 2);
    session.add_bin(1, TargetBin::new(9, 9, 1))?;
    let placed: Vec<_> = session.pack(&second)?.iter().map(|it| (it.id, it.bin, it.number)).collect();
    assert_eq!(placed, [(3, 1, 3), (2, 0, 2)]);
    Ok(())
}

#[test]
fn the_best_heuristic_is_answered() -> Result<(), SessionError> {
    let (rects, sheet) = (by_heights(), bins(&[[4, 4, 1]]));
    let (best, packed) = pack_rects_best(&rects, &sheet).expect("there is space by heights");
    assert_eq!(best, Heuristic::Height);
    assert_eq!(Ok(packed), pack_rects_by(&rects, &sheet, best));
    assert_eq!(pack_rects(&rects, &sheet), Err(RectanglePackError::NotEnoughBinSpace));
    let (mut one, mut other) = (session(&[[4, 4, 1]]), session(&[[4, 4, 1]]));
    let (best, placed) = one.pack_best(&rects)?;
    assert_eq!(best, Heuristic::Height);
    assert_eq!(placed, other.pack_by(&rects, best)?);
    assert_eq!(one.free_sections(&0)?, other.free_sections(&0)?);
    Ok(())
}

#[test]
fn the_best_use_is_of_the_fewest_bins() -> Result<(), RectanglePackError> {
    // By their volumes 1x3 goes first, and 3x1 finds no space beside it or above it. By their widths 3x1 goes first, and the others
    // stand above it.
    let rects = rects(&[(1, &[], [1, 1, 1]), (2, &[], [1, 3, 1]), (3, &[], [3, 1, 1])]);
    let bins = bins(&[[3, 4, 1], [5, 5, 1]]);
    let used = |heuristic| -> Result<usize, RectanglePackError> {
        let packed = pack_rects_by(&rects, &bins, heuristic)?;
        Ok(packed.placements().iter().map(|it| it.1).collect::<BTreeSet<_>>().len())
    };
    assert_eq!((used(Heuristic::Volume)?, used(Heuristic::Width)?), (2, 1));
    let (best, packed) = pack_rects_best(&rects, &bins)?;
    assert_eq!(best, Heuristic::Width);
    assert!(packed.placements().iter().all(|it| it.1 == 0));
    for &heuristic in Heuristic::ALL {
        let is_earlier = Heuristic::ALL.iter().take_while(|&&it| it != best).any(|&it| it == heuristic);
        assert!(used(heuristic)? > usize::from(is_earlier), "{heuristic}");
    }
    Ok(())
}

/// What each heuristic rates a size by, in numbers of which the first counts most.
fn rate(heuristic: Heuristic, [w, h, d]: [u32; 3]) -> [u32; 3] {
    let mut sides = [w, h, d];
    sides.sort_unstable();
    let [shortest, middle, longest] = sides;
    match heuristic {
        Heuristic::Volume => [w * h * d, 0, 0],
        Heuristic::Height => [h, w, d],
        Heuristic::Width => [w, h, d],
        Heuristic::Depth => [d, w, h],
        Heuristic::SideSum => [w + h + d, 0, 0],
        Heuristic::LongestSide => [longest, middle, shortest],
        Heuristic::ShortestSide => [shortest, middle, longest],
        Heuristic::SideArea => [h * d, 0, 0],
        _ => unreachable!("all are listed"),
    }
}

#[test]
fn boxes_go_in_the_order_of_their_rates() -> Result<(), SessionError> {
    let sizes = [[1, 9, 2], [2, 3, 9], [8, 1, 1], [5, 4, 4], [4, 6, 3], [7, 2, 5], [3, 7, 4], [6, 5, 1]];
    let all = rects(&sizes.iter().zip(0..).map(|(&size, id)| (id, &[][..], size)).collect::<Vec<_>>());
    let mut orders = BTreeSet::new();
    for &heuristic in Heuristic::ALL {
        let mut placed = session(&[[200, 200, 200]]).pack_by(&all, heuristic)?;
        placed.sort_by_key(|it| it.number);
        let order: Vec<u32> = placed.iter().map(|it| it.id).collect();
        let mut right: Vec<u32> = (0..8).collect();
        right.sort_by_key(|&id| Reverse(rate(heuristic, sizes[id as usize])));
        assert_eq!(order, right, "by {heuristic}");
        orders.insert(order);
    }
    // So each name is that of another heuristic.
    assert_eq!(orders.len(), Heuristic::ALL.len());
    Ok(())
}

#[test]
fn heuristics_have_names() {
    let names: Vec<String> = Heuristic::ALL.iter().map(Heuristic::to_string).collect();
    let right = ["volume", "height", "width", "depth", "side-sum", "longest-side", "shortest-side", "side-area"];
    assert_eq!(names, right);
    for &heuristic in Heuristic::ALL {
        assert_eq!(heuristic.to_string().parse(), Ok(heuristic));
    }
    assert_eq!("Height".parse::<Heuristic>(), Err(UnknownHeuristic));
    assert_eq!(UnknownHeuristic.to_string(), "There is no heuristic of this name.");
}

#[test]
fn nothing_is_packed_by_each_heuristic() -> Result<(), SessionError> {
    let mut session = session(&[]);
    let nothing = Rects::new();
    assert_eq!(session.pack_best(&nothing)?, (Heuristic::Volume, vec![]));
    for &heuristic in Heuristic::ALL {
        assert_eq!(session.pack_by(&nothing, heuristic)?, []);
    }
    Ok(())
}
