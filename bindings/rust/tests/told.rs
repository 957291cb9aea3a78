//! Packings as they are told: by hand, and packings of what fits told again.
#[path = "shared/draw.rs"]
mod draw;

use std::collections::BTreeMap;

use draw::Draw;
use rectangle_pack::{
    pack_rects_told, Group, GroupedRectsToPlace, Heuristic, Outstanding, RectToInsert, Session,
    SessionError, SessionParts, Step, StepFault, TargetBin, ToldError,
};

type Rects = GroupedRectsToPlace<u32, &'static str>;

type Tell<'a> = Step<'a, u32, &'static str, usize>;

/// A group of two boxes as high as the sheets, a box alone that is as high too, and one of a group that is excluded with the first.
fn workshop() -> Rects {
    let mut rects = Rects::new();
    rects.push_rect(1, None, RectToInsert::new(3, 10, 1));
    rects.push_rect(2, Some(vec!["doors"]), RectToInsert::new(2, 10, 1));
    rects.push_rect(3, Some(vec!["doors"]), RectToInsert::new(5, 10, 1));
    rects.push_rect(4, Some(vec!["paint"]), RectToInsert::new(3, 3, 1));
    rects.exclude("paint", "doors");
    rects
}

fn sheets() -> BTreeMap<usize, TargetBin> {
    (0..2).map(|id| (id, TargetBin::new(10, 10, 1))).collect()
}

fn session() -> Result<Session<u32, usize>, SessionError> {
    let mut session = Session::new()?;
    for (id, bin) in sheets() {
        session.add_bin(id, bin)?;
    }
    Ok(session)
}

const ONE: Group<'static, &str, u32> = Group::Ungrouped(&1);
const DOORS: Group<'static, &str, u32> = Group::Grouped(&"doors");
const PAINT: Group<'static, &str, u32> = Group::Grouped(&"paint");

fn step(group: Group<'static, &'static str, u32>, bin: usize) -> Tell<'static> {
    Step { group, bin, heuristic: Heuristic::Volume }
}

/// The answer in bins of one call, which is that of a session.
fn refused(steps: &[Tell<'_>]) -> ToldError {
    let all = workshop();
    let once = pack_rects_told(&all, &sheets(), steps).expect_err("a step is refused");
    let mut atlas = session().expect("there is memory");
    assert_eq!(atlas.pack_told(&all, steps), Err(once));
    assert_eq!((atlas.outstanding().count(), atlas.next_number()), (0, 0));
    once
}

#[test]
fn groups_go_where_they_are_told() -> Result<(), ToldError> {
    let packed = pack_rects_told(&workshop(), &sheets(), &[step(DOORS, 1), step(ONE, 1), step(PAINT, 0)])?;
    let placed: Vec<_> = packed.placements().iter().map(|(id, bin, at)| (*id, *bin, at.x())).collect();
    assert_eq!(placed, [(1, 1, 7), (2, 1, 0), (3, 1, 2), (4, 0, 0)]);
    assert!(pack_rects_told(&workshop(), &sheets(), &[])?.placements().is_empty());
    Ok(())
}

#[test]
fn what_no_step_names_is_left() -> Result<(), Box<dyn std::error::Error>> {
    let mut atlas = session()?;
    let placed = atlas.pack_told(&workshop(), &[step(DOORS, 0), step(ONE, 0)])?;
    let numbered: Vec<_> = placed.iter().map(|it| (it.number, it.id, it.bin)).collect();
    assert_eq!(numbered, [(2, 1, 0), (0, 2, 0), (1, 3, 0)]);
    assert_eq!(atlas.outstanding_in(&0)?.len(), 3);
    assert!(atlas.outstanding_in(&1)?.is_empty());
    Ok(())
}

#[test]
fn the_first_step_that_cannot_be_done_is_named() {
    let (paint_0, doors_0) = (step(PAINT, 0), step(DOORS, 0));
    let at = ToldError::StepRefused;
    let unknown = step(Group::Grouped(&"tools"), 0);
    let nobody = step(Group::Ungrouped(&2), 0);
    assert_eq!(refused(&[paint_0, step(ONE, 5)]), at(1, StepFault::UnknownBin));
    assert_eq!(refused(&[paint_0, step(PAINT, 1)]), at(1, StepFault::NamedTwice));
    assert_eq!(refused(&[paint_0, doors_0]), at(1, StepFault::Excluded));
    assert_eq!(refused(&[doors_0, step(ONE, 0), step(DOORS, 0)]), at(2, StepFault::NamedTwice));
    assert_eq!(refused(&[unknown]), at(0, StepFault::UnknownGroup));
    assert_eq!(refused(&[paint_0, nobody]), at(1, StepFault::UnknownGroup));
    // What is wrong before a group that is not there is named before it.
    assert_eq!(refused(&[paint_0, doors_0, unknown]), at(1, StepFault::Excluded));
    assert_eq!(refused(&[step(ONE, 5), unknown]), at(0, StepFault::UnknownBin));
    assert_eq!(refused(&[paint_0, unknown, doors_0]), at(1, StepFault::UnknownGroup));
    // Also where the bin is not there either.
    assert_eq!(refused(&[step(Group::Grouped(&"tools"), 5)]), at(0, StepFault::UnknownGroup));
}

#[test]
fn a_bin_that_is_full_has_no_room() {
    let mut all = workshop();
    all.push_rect(5, None, RectToInsert::new(1, 1, 1));
    let steps = [step(DOORS, 0), step(ONE, 0), step(Group::Ungrouped(&5), 0)];
    let no_room = ToldError::StepRefused(2, StepFault::NoRoom);
    assert_eq!(pack_rects_told(&all, &sheets(), &steps), Err(no_room));
    assert_eq!(no_room.to_string(), "The bin of a step does not take all boxes of its group.");
}

#[test]
fn without_boxes_no_group_is_there() {
    let mut none = Rects::new();
    let refused = Err(ToldError::StepRefused(0, StepFault::UnknownGroup));
    assert_eq!(pack_rects_told(&none, &sheets(), &[step(ONE, 0)]), refused);
    none.exclude("paint", "paint");
    assert_eq!(pack_rects_told(&none, &sheets(), &[step(ONE, 0)]), Err(ToldError::EqualGroups));
}

#[test]
fn numbers_may_be_used_up() {
    let bins = vec![];
    let parts = SessionParts { bins, outstanding: vec![], next: u64::MAX - 1 };
    let mut atlas: Session<u32, usize> = Session::restore(parts).expect("it has no bins");
    atlas.add_bin(0, TargetBin::new(10, 10, 1)).expect("there is memory");
    assert_eq!(atlas.pack_told(&workshop(), &[step(DOORS, 0)]), Err(ToldError::NumbersUsedUp));
}

/// A box, by its id, of a group or alone.
type Sized = (u32, Option<&'static str>, [u32; 3]);

fn drawn(draw: &mut Draw) -> (Vec<Sized>, Vec<[u32; 3]>) {
    let names = [None, None, Some("a"), Some("b"), Some("c")];
    let boxes = (0..draw.within(0, 14))
        .map(|id| {
            let group = names[draw.within(0, 4) as usize];
            (id, group, [draw.within(1, 6), draw.within(1, 6), draw.within(1, 3)])
        })
        .collect();
    let sizes = (0..draw.within(1, 3)).map(|_| [draw.within(2, 9), draw.within(2, 9), draw.within(1, 4)]);
    (boxes, sizes.collect())
}

/// The groups of a packing, each once, in the order of its numbers, with their bins.
fn steps_of<'a>(
    boxes: &'a [Sized],
    mut placed: Vec<Outstanding<u32, usize>>,
    heuristic: Heuristic,
) -> Vec<Tell<'a>> {
    placed.sort_by_key(|it| it.number);
    let mut steps: Vec<Tell<'a>> = Vec::new();
    for it in placed {
        let (id, name, _) = boxes.iter().find(|known| known.0 == it.id).expect("it was packed");
        let group = name.as_ref().map_or(Group::Ungrouped(id), Group::Grouped);
        if steps.iter().all(|step| step.group != group) {
            steps.push(Step { group, bin: it.bin, heuristic });
        }
    }
    steps
}

/// What fits by a heuristic is what is packed as its groups, one after another, are told.
#[test]
fn a_packing_can_be_told_again() -> Result<(), Box<dyn std::error::Error>> {
    let mut draw = Draw(0x2545_F491_4F6C_DD1D);
    for run in 0..1000 {
        let (boxes, sizes) = drawn(&mut draw);
        let heuristic = Heuristic::ALL[run % Heuristic::ALL.len()];
        let (mut all, mut first, mut again) = (Rects::new(), Session::new()?, Session::new()?);
        for &(id, group, [w, h, d]) in &boxes {
            all.push_rect(id, group.map(|it| vec![it]), RectToInsert::new(w, h, d));
        }
        for (id, &[w, h, d]) in sizes.iter().enumerate() {
            first.add_bin(id, TargetBin::new(w, h, d))?;
            again.add_bin(id, TargetBin::new(w, h, d))?;
        }
        let fitted = first.pack_fitting(&all, heuristic)?;
        let steps = steps_of(&boxes, fitted.packed.clone(), heuristic);
        assert_eq!(again.pack_told(&all, &steps)?, fitted.packed, "run {run}");
        assert_eq!(again.parts()?, first.parts()?, "run {run}");
    }
    Ok(())
}
