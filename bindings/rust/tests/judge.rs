//! The judge, on packings that are known by hand.

use std::collections::BTreeMap;

use rectangle_pack::{
    first_fault, AloneFault, Claim, Conflict, Fault, GroupedRectsToPlace, PackedLocation, RectToInsert, RectanglePackError,
    TargetBin, Turns,
};

type Rects = GroupedRectsToPlace<u32, &'static str>;

type Claims = Vec<Claim<u32, &'static str, u32>>;

/// Box 1 is twice in the group of hats, box 2 once; box 3 is alone, and may lie turned; box 4 is in the group of caps.
fn rects() -> Rects {
    let mut rects = Rects::new();
    rects.push_rect(1, Some(vec!["hats", "hats"]), RectToInsert::new(2, 10, 1));
    rects.push_rect(2, Some(vec!["hats"]), RectToInsert::new(6, 5, 1));
    rects.push_rect(3, None, RectToInsert::new(10, 5, 1));
    rects.push_rect(4, Some(vec!["caps"]), RectToInsert::new(5, 5, 1));
    rects.exclude("hats", "caps");
    rects
}

fn claim(id: u32, group: Option<&'static str>, bin: u32, at: [u32; 4]) -> Claim<u32, &'static str, u32> {
    let [x, y, width, height] = at;
    Claim {
        id,
        group,
        bin,
        location: PackedLocation::new(x, y, 0, RectToInsert::new(width, height, 1)),
    }
}

/// All of them on the pages 7 and 8.
fn packing() -> Claims {
    vec![
        claim(1, Some("hats"), 7, [0, 0, 2, 10]),
        claim(2, Some("hats"), 7, [4, 0, 6, 5]),
        claim(1, Some("hats"), 7, [2, 0, 2, 10]),
        claim(3, None, 8, [0, 0, 5, 10]),
        claim(4, Some("caps"), 8, [5, 0, 5, 5]),
    ]
}

fn fault_of<'a>(rects: &'a Rects, claims: &Claims) -> Option<Fault<'a, u32, &'static str>> {
    let bins = BTreeMap::from([(7, TargetBin::new(10, 10, 1)), (8, TargetBin::new(10, 10, 1))]);
    let turns = BTreeMap::from([(3, Turns::FLAT)]);
    first_fault(rects, &turns, &bins, claims).expect("no memory")
}

/// What is wrong where another claim stands at this place.
fn with(place: usize, other: Claim<u32, &'static str, u32>) -> Option<Fault<'static, u32, &'static str>> {
    let rects = Box::leak(Box::new(rects()));
    let mut claims = packing();
    claims[place] = other;
    fault_of(rects, &claims)
}

#[test]
fn packings_have_no_fault() {
    assert_eq!(fault_of(&rects(), &packing()), None);
    assert_eq!(fault_of(&Rects::new(), &Claims::new()), None);
}

#[test]
fn faults_of_one_claim() {
    let alone = |claim, fault| Some(Fault::Alone { claim, fault });
    let hats = Some("hats");
    assert_eq!(with(1, claim(2, hats, 9, [4, 0, 6, 5])), alone(1, AloneFault::UnknownBin));
    assert_eq!(with(1, claim(5, hats, 7, [4, 0, 6, 5])), alone(1, AloneFault::UnknownBox));
    assert_eq!(with(1, claim(2, None, 7, [4, 0, 6, 5])), alone(1, AloneFault::UnknownBox));
    assert_eq!(with(1, claim(2, Some("shoes"), 7, [4, 0, 6, 5])), alone(1, AloneFault::UnknownBox));
    assert_eq!(with(1, claim(2, hats, 7, [4, 0, 5, 6])), alone(1, AloneFault::WrongSize));
    assert_eq!(with(3, claim(3, None, 8, [6, 0, 5, 10])), alone(3, AloneFault::Outside));
}

#[test]
fn faults_of_two_claims() {
    let together = |first, second, conflict| {
        Some(Fault::Together {
            first,
            second,
            conflict,
        })
    };
    let hats = Some("hats");
    assert_eq!(with(3, claim(1, hats, 7, [4, 0, 2, 10])), together(0, 3, Conflict::PlacedTwice));
    assert_eq!(with(2, claim(1, hats, 7, [3, 0, 2, 10])), together(1, 2, Conflict::SharesCell));
    assert_eq!(with(2, claim(1, hats, 8, [5, 0, 2, 10])), together(0, 2, Conflict::GroupInTwoBins));
    assert_eq!(with(4, claim(4, Some("caps"), 7, [4, 5, 5, 5])), together(0, 4, Conflict::ExcludedTogether));
}

#[test]
fn boxes_that_are_not_placed() {
    let rects = rects();
    let mut claims = packing();
    let caps = claims.pop();
    assert!(caps.is_some());
    assert_eq!(fault_of(&rects, &claims), Some(Fault::NotPlaced { id: &4, group: Some(&"caps") }));
    claims.pop();
    assert_eq!(fault_of(&rects, &claims), Some(Fault::NotPlaced { id: &3, group: None }));
}

#[test]
fn a_group_is_not_excluded_with_itself() {
    let mut rects = rects();
    rects.exclude("caps", "caps");
    let bins = BTreeMap::from([(7, TargetBin::new(10, 10, 1))]);
    let answer = first_fault(&rects, &BTreeMap::new(), &bins, &packing());
    assert_eq!(answer, Err(RectanglePackError::EqualGroups));
}
