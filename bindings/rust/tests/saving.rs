//! Sessions that are made of their parts, and parts that are those of no session.

use rectangle_pack::{
    GroupedRectsToPlace, Outstanding, PackedLocation, RectToInsert, RestoreError, Section, Session, SessionParts, TargetBin,
};

type Parts = SessionParts<&'static str, u32>;

fn section(numbers: [u32; 6]) -> Section {
    let [x, y, z, width, height, depth] = numbers;
    Section {
        x,
        y,
        z,
        width,
        height,
        depth,
    }
}

/// A sheet 7, 10x10, with a hat in its left part, and a deep bin 3, which counts as coalesced.
fn session() -> Session<&'static str, u32> {
    let mut session = Session::new().expect("no memory");
    session.add_bin(7, TargetBin::new(10, 10, 1)).expect("no bin");
    session.add_bin(3, TargetBin::new(2, 3, 4)).expect("no bin");
    session.coalesce_all(&3).expect("no bin");
    let hat = PackedLocation::new(0, 0, 0, RectToInsert::new(4, 10, 1));
    session.place_at(&7, "hat", hat).expect("no place");
    session
}

fn refusal(change: impl FnOnce(&mut Parts)) -> RestoreError {
    let mut parts = session().parts().expect("no memory");
    change(&mut parts);
    Session::restore(parts).expect_err("these are the parts of a session")
}

#[test]
fn a_session_is_what_its_parts_say_and_goes_on() {
    let first = session();
    let parts = first.parts().expect("no memory");
    assert_eq!((parts.bins[0].id, parts.bins[0].size.width(), parts.bins[1].size.depth()), (7, 10, 4));
    assert_eq!(parts.bins[0].free_sections, [section([4, 0, 0, 6, 10, 1])]);
    assert_eq!((parts.bins[0].was_coalesced, parts.bins[1].was_coalesced, parts.next), (false, true, 1));
    let mut again = Session::restore(parts.clone()).expect("no session");
    assert_eq!(again.parts().expect("no memory"), parts);
    assert!(again.bins().eq(first.bins()));
    assert_eq!(again.cut_plan(&7).expect("no bin").map(|plan| plan.len()), Some(3));
    again.release(0).expect("the hat is lost");
    let mut rects: GroupedRectsToPlace<&str, u32> = GroupedRectsToPlace::new();
    rects.push_rect("cap", None, RectToInsert::new(4, 10, 1));
    let cap = again.pack(&rects).expect("no place").remove(0);
    assert_eq!((cap.number, cap.bin, cap.location.x()), (1, 7, 0));
    again.add_bin(5, TargetBin::new(1, 1, 1)).expect("no bin");
    assert!(again.bins().eq(&[3, 5, 7]));
}

#[test]
fn a_session_without_bins_is_one() {
    let parts = Session::<u32, u32>::new().and_then(|it| it.parts()).expect("no memory");
    assert_eq!(Session::restore(parts.clone()).map(|it| it.parts()).expect("no session"), Ok(parts));
}

#[test]
fn numbers_and_ids_that_are_wrong() {
    let hat = |number, bin| Outstanding {
        number,
        id: "hat",
        bin,
        location: PackedLocation::new(0, 0, 0, RectToInsert::new(0, 1, 1)),
    };
    assert_eq!(refusal(|it| it.bins[1].id = 7), RestoreError::DuplicateBin { bin: 1 });
    assert_eq!(refusal(|it| it.outstanding.push(hat(0, 7))), RestoreError::NotRising { placement: 1 });
    assert_eq!(refusal(|it| it.outstanding.push(hat(1, 7))), RestoreError::NotBelowNext { placement: 1 });
    let unknown = refusal(|it| {
        it.outstanding.push(hat(1, 9));
        it.next = 2;
    });
    assert_eq!(unknown, RestoreError::UnknownBin { placement: 1 });
}

#[test]
fn boxes_that_are_wrong() {
    let moved = |x| PackedLocation::new(x, 0, 0, RectToInsert::new(4, 10, 1));
    assert_eq!(refusal(|it| it.bins[0].free_sections[0].width = 7), RestoreError::Outside { bin: 0, index: 0 });
    assert_eq!(refusal(|it| it.outstanding[0].location = moved(7)), RestoreError::Outside { bin: 0, index: 1 });
    let shares = RestoreError::SharesCell {
        bin: 0,
        first: 0,
        second: 1,
    };
    assert_eq!(refusal(|it| it.outstanding[0].location = moved(1)), shares);
    assert_eq!(refusal(|it| it.bins[1].free_sections.clear()), RestoreError::CellInNone { bin: 1 });
    let pinwheel = [[0, 0, 2, 1], [2, 0, 1, 2], [1, 2, 2, 1], [0, 1, 1, 2], [1, 1, 1, 1]];
    let no_cuts = refusal(|it| {
        it.bins[1].size = TargetBin::new(3, 3, 1);
        it.bins[1].was_coalesced = false;
        it.bins[1].free_sections = pinwheel.map(|[x, y, width, height]| section([x, y, 0, width, height, 1])).to_vec();
    });
    assert_eq!(no_cuts, RestoreError::NotFromCuts { bin: 1 });
}
