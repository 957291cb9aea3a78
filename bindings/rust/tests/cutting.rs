//! Straight cuts that part a bin into boxes: by hand, and beside sessions that are cut anew.
#[path = "shared/draw.rs"]
mod draw;

use draw::Draw;
use rectangle_pack::{
    straight_cuts, Axis, CutStep, Heuristic, RectToInsert, Section, SectionsError, Session, SessionError, TargetBin,
};

const DRAWN: u32 = 300;

fn section(numbers: [u32; 6]) -> Section {
    let [x, y, z, width, height, depth] = numbers;
    Section {
        x,
        y,
        z,
        width,
        height,
        depth,
    }
}

/// A section of depth 1.
fn flat(numbers: [u32; 4]) -> Section {
    let [x, y, width, height] = numbers;
    section([x, y, 0, width, height, 1])
}

fn cut(axis: Axis, place: u32) -> CutStep {
    CutStep::Cut { axis, place }
}

fn plan_of(bin: TargetBin, boxes: &[Section]) -> Option<Vec<CutStep>> {
    straight_cuts(&bin, boxes).expect("the boxes are right")
}

fn sheet() -> TargetBin {
    TargetBin::new(10, 10, 1)
}

#[test]
fn a_part_without_two_boxes_or_sections_is_not_cut() {
    let leaf = Some(vec![CutStep::Leaf]);
    assert_eq!(plan_of(sheet(), &[]), leaf);
    assert_eq!(plan_of(sheet(), &[flat([0, 0, 10, 10])]), leaf);
    assert_eq!(plan_of(TargetBin::new(0, 5, 1), &[]), leaf);
    assert_eq!(plan_of(TargetBin::new(0, 5, 1), &[flat([0, 2, 0, 3])]), leaf);
}

#[test]
fn a_part_is_cut_at_the_first_place_of_the_first_axis() {
    // The left box goes from bottom to top. Beside it the corner has a section above it.
    let boxes = [flat([4, 0, 6, 3]), flat([0, 0, 4, 10])];
    let steps = [cut(Axis::X, 4), CutStep::Leaf, cut(Axis::Y, 3), CutStep::Leaf, CutStep::Leaf];
    assert_eq!(plan_of(sheet(), &boxes), Some(steps.to_vec()));
    let pile = [section([0, 0, 2, 1, 1, 3])];
    let steps = [cut(Axis::Z, 2), CutStep::Leaf, CutStep::Leaf];
    assert_eq!(plan_of(TargetBin::new(1, 1, 5), &pile), Some(steps.to_vec()));
}

#[test]
fn a_pinwheel_has_no_plan() {
    let strips = [[0, 0, 2, 1], [2, 0, 1, 2], [1, 2, 2, 1], [0, 1, 1, 2]].map(flat);
    assert_eq!(plan_of(TargetBin::new(3, 3, 1), &strips), None);
    assert!(plan_of(TargetBin::new(3, 3, 1), &strips[1..]).is_some());
}

#[test]
fn boxes_that_are_wrong_are_named() {
    let (left, over, out) = (flat([0, 0, 4, 10]), flat([3, 9, 2, 1]), flat([9, 0, 2, 1]));
    let outside = |index| Err(SectionsError::Outside { index });
    let shares = |first, second| Err(SectionsError::SharesCell { first, second });
    assert_eq!(straight_cuts(&sheet(), &[left, over, out, out]), outside(2));
    assert_eq!(straight_cuts(&sheet(), &[flat([6, 6, 1, 1]), left, over]), shares(1, 2));
    assert_eq!(straight_cuts(&sheet(), &[flat([10, 10, 0, 1])]), outside(0));
    // Numbers are not added up in 32 bits.
    assert_eq!(straight_cuts(&TargetBin::new(u32::MAX, 1, 1), &[flat([1, 0, u32::MAX, 1])]), outside(0));
    // What has no cells shares none.
    let steps = vec![cut(Axis::X, 4), CutStep::Leaf, CutStep::Leaf];
    assert_eq!(straight_cuts(&sheet(), &[flat([1, 1, 0, 3]), left]), Ok(Some(steps)));
    assert_eq!(SectionsError::SharesCell { first: 0, second: 1 }.to_string(), "Two boxes share a cell.");
}

/// A bin in which boxes were placed and some released, and whose free part was cut anew.
fn recut_bin(draw: &mut Draw) -> Result<Session<u32, &'static str>, SessionError> {
    let mut session = Session::new()?;
    let depth = draw.within(0, 1) * 5 + 1;
    session.add_bin("bin", TargetBin::new(draw.within(1, 20), draw.within(1, 20), depth))?;
    for id in 0..draw.within(0, 40) {
        let size = RectToInsert::new(draw.within(1, 5), draw.within(1, 5), draw.within(1, depth.min(3)));
        match session.place_best(None, id, size, Heuristic::Volume) {
            Ok(number) if draw.within(0, 2) == 0 => session.release(number)?,
            Ok(_) | Err(SessionError::NotEnoughBinSpace) => {}
            Err(error) => return Err(error),
        }
    }
    session.recut(&"bin")?;
    Ok(session)
}

#[test]
fn plans_are_those_of_sessions_that_are_cut_anew() -> Result<(), SessionError> {
    let (mut draw, mut boxes_in_all) = (Draw(7), 0);
    for _ in 0..DRAWN {
        let session = recut_bin(&mut draw)?;
        let size = session.parts()?.bins[0].size;
        let standing = session.outstanding().map(|it| &it.location);
        let boxes: Vec<_> = standing
            .map(|at| section([at.x(), at.y(), at.z(), at.width(), at.height(), at.depth()]))
            .collect();
        assert_eq!(plan_of(size, &boxes), session.cut_plan(&"bin")?, "{size:?} {boxes:?}");
        boxes_in_all += boxes.len();
    }
    assert!(boxes_in_all > 1000, "{boxes_in_all}");
    Ok(())
}

/// Boxes that stand alone in space, with more free sections than most bins have.
#[test]
fn long_plans_are_whole() {
    let boxes: Vec<_> = (0..50).map(|i| 1 + 3 * i).map(|at| section([at, at, at, 1, 1, 1])).collect();
    let plan = plan_of(TargetBin::new(151, 151, 151), &boxes).expect("planes between them are open");
    let leaves = plan.iter().filter(|it| **it == CutStep::Leaf).count();
    assert_eq!(plan.len(), 2 * leaves - 1);
    // Each box has its leaf, and free sections on four sides, but the sections of the outer sides are shared.
    assert!(leaves > 5 * 50, "{leaves}");
}
