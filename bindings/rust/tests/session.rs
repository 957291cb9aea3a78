//! What a session answers, by hand.
use rectangle_pack::{
    Axis, CutStep, GroupedRectsToPlace, Heuristic, PackedLocation, RectToInsert, Section, Session,
    SessionError, TargetBin,
};

type Rects = GroupedRectsToPlace<&'static str, &'static str>;

fn rects(sizes: &[(&'static str, u32, u32)]) -> Rects {
    let mut rects = Rects::new();
    for &(id, width, height) in sizes {
        rects.push_rect(id, None, RectToInsert::new(width, height, 1));
    }
    rects
}

fn sheet() -> Session<&'static str, &'static str> {
    let mut session = Session::new().expect("there is memory");
    let added = session.add_bin("sheet", TargetBin::new(10, 10, 1));
    assert_eq!(added, Ok(()));
    session
}

fn section(x: u32, y: u32, width: u32, height: u32) -> Section {
    Section {
        x,
        y,
        z: 0,
        width,
        height,
        depth: 1,
    }
}

fn cut(axis: Axis, place: u32) -> CutStep {
    CutStep::Cut { axis, place }
}

fn numbers(session: &Session<&str, &str>) -> Vec<(u64, String)> {
    let known = session.outstanding();
    known.map(|it| (it.number, it.id.to_string())).collect()
}

#[test]
fn what_is_refused_changes_nothing() -> Result<(), SessionError> {
    let mut session = sheet();
    session.pack(&rects(&[("hat", 4, 10)]))?;
    let before = session.stats(&"sheet")?;
    let again = session.add_bin("sheet", TargetBin::new(20, 20, 1));
    assert_eq!(again, Err(SessionError::DuplicateBin));
    assert_eq!(session.coalesce_all(&"wall"), Err(SessionError::UnknownBin));
    assert_eq!(session.coalesce(&"wall", 0, 0..1), Err(SessionError::UnknownBin));
    assert_eq!(session.stats(&"wall"), Err(SessionError::UnknownBin));
    assert_eq!(session.was_coalesced(&"wall"), Err(SessionError::UnknownBin));
    assert_eq!(session.free_sections(&"wall"), Err(SessionError::UnknownBin));
    assert_eq!(session.cut_plan(&"wall"), Err(SessionError::UnknownBin));
    assert_eq!(session.clear_bin(&"wall"), Err(SessionError::UnknownBin));
    assert_eq!(session.remove_bin(&"wall"), Err(SessionError::UnknownBin));
    assert_eq!(session.grow_bin(&"wall", Axis::X, u32::MAX), Err(SessionError::UnknownBin));
    let corner = PackedLocation::new(0, 0, 0, RectToInsert::new(20, 1, 1));
    assert_eq!(session.place_at(&"wall", "shoe", corner), Err(SessionError::UnknownBin));
    assert_eq!(session.recut(&"wall"), Err(SessionError::UnknownBin));
    let (small, wide) = (RectToInsert::new(1, 1, 1), RectToInsert::new(7, 1, 1));
    let by = Heuristic::Height;
    assert_eq!(session.place_best(Some(&"wall"), "shoe", small, by), Err(SessionError::UnknownBin));
    for bin in [None, Some(&"sheet")] {
        assert_eq!(session.place_best(bin, "shoe", wide, by), Err(SessionError::NotEnoughBinSpace));
    }
    assert_eq!(session.release(1), Err(SessionError::UnknownPlacement));
    for numbers in [&[1][..], &[0, 1], &[0, 0]] {
        assert_eq!(session.release_all(numbers), Err(SessionError::UnknownPlacement));
    }
    let wide = session.pack(&rects(&[("shoe", 7, 1), ("tie", 1, 1)]));
    assert_eq!(wide, Err(SessionError::NotEnoughBinSpace));
    assert_eq!(session.stats(&"sheet")?, before);
    assert_eq!(session.free_sections(&"sheet")?, [section(4, 0, 6, 10)]);
    assert_eq!(session.next_number(), 1);
    assert_eq!(session.was_coalesced(&"sheet"), Ok(false));
    assert_eq!(numbers(&session), [(0, "hat".to_string())]);
    Ok(())
}

#[test]
fn placements_are_outstanding_until_they_are_released() -> Result<(), SessionError> {
    let mut session = sheet();
    // The placements are in the order of the ids, the numbers in that of falling volumes.
    let placed = session.pack(&rects(&[("hat", 1, 1), ("shoe", 4, 10)]))?;
    let named: Vec<_> = placed.iter().map(|it| (it.id, it.number)).collect();
    assert_eq!(named, [("hat", 1), ("shoe", 0)]);
    assert_eq!(numbers(&session), [(0, "shoe".to_string()), (1, "hat".to_string())]);
    session.release(0)?;
    assert_eq!(session.release(0), Err(SessionError::UnknownPlacement));
    assert_eq!(numbers(&session), [(1, "hat".to_string())]);
    Ok(())
}

#[test]
fn numbers_go_on_from_packing_to_packing() -> Result<(), SessionError> {
    let mut session = sheet();
    assert_eq!(session.next_number(), 0);
    session.pack(&rects(&[("hat", 1, 1), ("shoe", 4, 10)]))?;
    assert_eq!(session.next_number(), 2);
    session.release(1)?;
    assert_eq!(session.next_number(), 2);
    Ok(())
}

#[test]
fn a_session_goes_to_another_thread_and_back() -> Result<(), SessionError> {
    let mut session = sheet();
    session.pack(&rects(&[("hat", 4, 10)]))?;
    let other = std::thread::spawn(move || {
        session.release(0)?;
        session.coalesce_all(&"sheet")?;
        session.pack(&rects(&[("shoe", 10, 1)]))?;
        Ok::<_, SessionError>(session)
    });
    let mut session = other.join().expect("it does not panic")?;
    assert_eq!(numbers(&session), [(1, "shoe".to_string())]);
    session.release(1)?;
    session.coalesce_all(&"sheet")?;
    assert_eq!(session.free_sections(&"sheet")?, [section(0, 0, 10, 10)]);
    std::thread::spawn(move || drop(session)).join().expect("it does not panic");
    Ok(())
}

#[test]
fn bins_are_in_the_order_of_their_ids() -> Result<(), SessionError> {
    let mut session: Session<&str, &str> = Session::new()?;
    assert_eq!(session.bins().count(), 0);
    for id in ["b", "c", "a"] {
        session.add_bin(id, TargetBin::new(4, 4, 1))?;
    }
    assert_eq!(session.bins().copied().collect::<Vec<_>>(), ["a", "b", "c"]);
    Ok(())
}

#[test]
fn one_section_is_joined_with_those_of_the_range() -> Result<(), SessionError> {
    let mut session = sheet();
    // Three columns, and 4x10 that are free beside them.
    session.pack(&rects(&[("a", 2, 10), ("b", 2, 10), ("c", 2, 10)]))?;
    for number in [0, 1, 2] {
        session.release(number)?;
    }
    let columns = [section(6, 0, 4, 10), section(0, 0, 2, 10), section(2, 0, 2, 10), section(4, 0, 2, 10)];
    assert_eq!(session.free_sections(&"sheet")?, columns);
    assert_eq!(session.was_coalesced(&"sheet"), Ok(false));
    // An empty range, and an index and a range past the end: nothing is joined, but the call is known.
    session.coalesce(&"sheet", 3, 2..2)?;
    session.coalesce(&"sheet", 4, 0..4)?;
    session.coalesce(&"sheet", usize::MAX, 0..usize::MAX)?;
    session.coalesce(&"sheet", 3, 4..usize::MAX)?;
    assert_eq!(session.free_sections(&"sheet")?, columns);
    assert_eq!(session.was_coalesced(&"sheet"), Ok(true));
    // The column between is taken up, and then the one behind it, which shares a face with the join.
    session.coalesce(&"sheet", 3, 1..usize::MAX)?;
    assert_eq!(session.free_sections(&"sheet")?, [columns[0], section(0, 0, 6, 10)]);
    session.coalesce(&"sheet", 0, 0..2)?;
    assert_eq!(session.free_sections(&"sheet")?, [section(0, 0, 10, 10)]);
    Ok(())
}

#[test]
fn plans_are_cut_at_the_first_open_plane() -> Result<(), SessionError> {
    let mut session = sheet();
    assert_eq!(session.cut_plan(&"sheet")?, Some(vec![CutStep::Leaf]));
    // 4x3 leaves 6x10 beside it and 4x7 above it, or 6x3 and 10x7: the smallest of these is 6x3, so a cut at x would go through
    // 10x7.
    session.pack(&rects(&[("hat", 4, 3)]))?;
    let plan = [cut(Axis::Y, 3), cut(Axis::X, 4), CutStep::Leaf, CutStep::Leaf, CutStep::Leaf];
    assert_eq!(session.cut_plan(&"sheet")?, Some(plan.to_vec()));
    session.add_bin("chest", TargetBin::new(1, 1, 3))?;
    let mut deep = Rects::new();
    deep.push_rect("coin", None, RectToInsert::new(1, 1, 2));
    session.pack(&deep)?;
    let plan = [cut(Axis::Z, 2), CutStep::Leaf, CutStep::Leaf];
    assert_eq!(session.cut_plan(&"chest")?, Some(plan.to_vec()));
    session.add_bin("wire", TargetBin::new(5, 0, 1))?;
    assert_eq!(session.cut_plan(&"wire")?, Some(vec![CutStep::Leaf]));
    Ok(())
}

#[test]
fn a_pinwheel_has_no_plan() -> Result<(), SessionError> {
    let mut session = Session::new()?;
    session.add_bin("square", TargetBin::new(3, 3, 1))?;
    let ids = ["a", "b", "c", "d", "e", "f", "g", "h", "i"];
    session.pack(&rects(&ids.map(|id| (id, 1, 1))))?;
    for number in [0, 1, 2, 6, 7, 8, 3, 4] {
        session.release(number)?;
    }
    assert!(session.cut_plan(&"square")?.is_some());
    // Four strips round the box that stays: each straight cut would go through one of them.
    for index in 0..4 {
        session.coalesce(&"square", index, index..index + 2)?;
    }
    let strips = [section(0, 0, 2, 1), section(2, 0, 1, 2), section(1, 2, 2, 1), section(0, 1, 1, 2)];
    assert_eq!(session.free_sections(&"square")?, strips);
    assert_eq!(session.cut_plan(&"square")?, None);
    Ok(())
}

#[test]
fn equal_bins_are_tried_as_they_were_added() -> Result<(), SessionError> {
    let mut session = Session::new()?;
    for id in ["b", "c", "a"] {
        session.add_bin(id, TargetBin::new(4, 4, 1))?;
    }
    for id in ["b", "c", "a"] {
        assert_eq!(session.pack(&rects(&[("hat", 4, 4)]))?[0].bin, id);
    }
    Ok(())
}

#[test]
fn volumes_may_have_more_than_64_bits() -> Result<(), SessionError> {
    let mut session: Session<u32, u32> = Session::new()?;
    session.add_bin(0, TargetBin::new(u32::MAX, u32::MAX, u32::MAX))?;
    assert_eq!(session.stats(&0)?.free_volume, u128::from(u32::MAX).pow(3));
    Ok(())
}

#[test]
fn errors_say_what_was_wrong() {
    let texts = [
        (SessionError::DuplicateBin, "The bin is there already."),
        (SessionError::UnknownBin, "There is no such bin."),
        (SessionError::UnknownPlacement, "No placement of this number is outstanding."),
        (SessionError::NumbersUsedUp, "The numbers of placements are used up."),
        (SessionError::NotEnoughBinSpace, "Not enough space to place all of the rectangles."),
        (SessionError::BinInUse, "Placements are outstanding in the bin."),
        (SessionError::TooLarge, "A side of the bin would exceed the greatest number of 32 bits."),
        (SessionError::NotFree, "No free section holds the box there."),
        (SessionError::NotFromCuts, "No straight cuts part the boxes that stand in the bin."),
        (SessionError::OutOfMemory, "Out of memory."),
        (SessionError::TooMany, "Too many bins or boxes."),
        (SessionError::EqualGroups, "A group is excluded with itself."),
    ];
    for (error, text) in texts {
        assert_eq!(error.to_string(), text);
    }
}
