//! Bins that are cleared, removed, made larger and cut anew, and boxes that are placed one by one, by hand.
use rectangle_pack::{
    Axis, CutStep, GroupedRectsToPlace, Heuristic, PackedLocation, RectToInsert, Section, Session,
    SessionError, TargetBin,
};

type Names = Session<&'static str, &'static str>;

fn with_bins(bins: &[(&'static str, u32, u32)]) -> Names {
    let mut session = Session::new().expect("there is memory");
    for &(id, width, height) in bins {
        assert_eq!(session.add_bin(id, TargetBin::new(width, height, 1)), Ok(()));
    }
    session
}

fn pack(
    session: &mut Names,
    sizes: &[(&'static str, u32, u32)],
) -> Result<Vec<(&'static str, u64)>, SessionError> {
    let mut rects: GroupedRectsToPlace<&str, &str> = GroupedRectsToPlace::new();
    for &(id, width, height) in sizes {
        rects.push_rect(id, None, RectToInsert::new(width, height, 1));
    }
    let placed = session.pack(&rects)?;
    Ok(placed.iter().map(|it| (it.bin, it.number)).collect())
}

fn flat(x: u32, y: u32, width: u32, height: u32) -> PackedLocation {
    PackedLocation::new(x, y, 0, RectToInsert::new(width, height, 1))
}

fn section(x: u32, y: u32, width: u32, height: u32) -> Section {
    Section {
        x,
        y,
        z: 0,
        width,
        height,
        depth: 1,
    }
}

fn standing(session: &Names) -> Vec<(u64, &str, &str)> {
    let known = session.outstanding();
    known.map(|it| (it.number, it.id, it.bin)).collect()
}

#[test]
fn a_bin_that_is_cleared_is_as_it_was_at_first() -> Result<(), SessionError> {
    let mut session = with_bins(&[("sheet", 10, 10), ("shelf", 2, 2)]);
    pack(&mut session, &[("hat", 4, 10), ("cap", 4, 4), ("pin", 2, 2)])?;
    session.release(0)?;
    session.coalesce_all(&"sheet")?;
    session.coalesce_all(&"shelf")?;
    session.clear_bin(&"sheet")?;
    let stats = session.stats(&"sheet")?;
    assert_eq!((stats.free_volume, stats.free_sections, stats.placements), (100, 1, 0));
    assert_eq!(session.free_sections(&"sheet")?, [section(0, 0, 10, 10)]);
    assert_eq!(session.was_coalesced(&"sheet"), Ok(false));
    assert_eq!(session.cut_plan(&"sheet")?, Some(vec![CutStep::Leaf]));
    // The other bin stays, no number is given again, and none that is gone is known.
    assert_eq!(session.was_coalesced(&"shelf"), Ok(true));
    assert_eq!(standing(&session), [(2, "pin", "shelf")]);
    assert_eq!(session.release(1), Err(SessionError::UnknownPlacement));
    assert_eq!(pack(&mut session, &[("hat", 10, 10)])?, [("sheet", 3)]);
    Ok(())
}

#[test]
fn a_bin_in_use_is_not_removed() -> Result<(), SessionError> {
    let mut session = with_bins(&[("sheet", 10, 10)]);
    pack(&mut session, &[("hat", 4, 10), ("point", 0, 0)])?;
    // The second has no cells, and counts too.
    for number in [0, 1] {
        let before = session.stats(&"sheet")?;
        assert_eq!(session.remove_bin(&"sheet"), Err(SessionError::BinInUse));
        assert_eq!(session.stats(&"sheet")?, before);
        assert_eq!(session.bins().count(), 1);
        session.release(number)?;
    }
    session.remove_bin(&"sheet")?;
    assert_eq!(session.bins().count(), 0);
    Ok(())
}

#[test]
fn another_bin_has_the_id_of_one_that_was_removed() -> Result<(), SessionError> {
    let mut session = with_bins(&[("a", 4, 4), ("b", 4, 4), ("c", 4, 4)]);
    session.coalesce_all(&"a")?;
    session.remove_bin(&"a")?;
    assert_eq!(session.stats(&"a"), Err(SessionError::UnknownBin));
    assert_eq!(session.remove_bin(&"a"), Err(SessionError::UnknownBin));
    assert_eq!(session.bins().copied().collect::<Vec<_>>(), ["b", "c"]);
    session.add_bin("a", TargetBin::new(2, 8, 1))?;
    assert_eq!(session.bins().copied().collect::<Vec<_>>(), ["a", "b", "c"]);
    assert_eq!(session.free_sections(&"a")?, [section(0, 0, 2, 8)]);
    assert_eq!(session.was_coalesced(&"a"), Ok(false));
    // Bins of one volume are tried as they were added: this one is the last now.
    for bin in ["b", "c"] {
        assert_eq!(pack(&mut session, &[("hat", 4, 4)])?[0].0, bin);
    }
    assert_eq!(pack(&mut session, &[("hat", 2, 8)])?, [("a", 2)]);
    Ok(())
}

#[test]
fn a_bin_grows_on_each_axis() -> Result<(), SessionError> {
    let mut session: Names = Session::new()?;
    session.add_bin("chest", TargetBin::new(4, 5, 6))?;
    for (axis, by) in [(Axis::X, 1), (Axis::Y, 2), (Axis::Z, 3), (Axis::Z, 0)] {
        session.grow_bin(&"chest", axis, by)?;
    }
    let free = session.free_sections(&"chest")?;
    let parts: Vec<_> = free.iter().map(|it| ((it.x, it.y, it.z), (it.width, it.height, it.depth))).collect();
    let (old, right) = (((0, 0, 0), (4, 5, 6)), ((4, 0, 0), (1, 5, 6)));
    let (above, behind) = (((0, 5, 0), (5, 2, 6)), ((0, 0, 6), (5, 7, 3)));
    assert_eq!(parts, [old, right, above, behind]);
    assert_eq!(session.stats(&"chest")?.bin_volume, 5 * 7 * 9);
    assert_eq!(session.was_coalesced(&"chest"), Ok(false));
    Ok(())
}

#[test]
fn boxes_go_into_what_is_new() -> Result<(), SessionError> {
    let mut session = with_bins(&[("sheet", 4, 10)]);
    pack(&mut session, &[("hat", 4, 10)])?;
    assert_eq!(pack(&mut session, &[("cap", 6, 10)]), Err(SessionError::NotEnoughBinSpace));
    session.grow_bin(&"sheet", Axis::X, 6)?;
    assert_eq!(pack(&mut session, &[("cap", 6, 10)])?, [("sheet", 1)]);
    assert_eq!(standing(&session), [(0, "hat", "sheet"), (1, "cap", "sheet")]);
    session.clear_bin(&"sheet")?;
    assert_eq!(session.free_sections(&"sheet")?, [section(0, 0, 10, 10)]);
    Ok(())
}

#[test]
fn a_side_may_be_the_greatest_and_no_larger() -> Result<(), SessionError> {
    let mut session = with_bins(&[("sheet", 4, 10)]);
    let before = session.stats(&"sheet")?;
    for (axis, side) in [(Axis::X, 4), (Axis::Y, 10), (Axis::Z, 1)] {
        for by in [u32::MAX, u32::MAX - side + 1] {
            assert_eq!(session.grow_bin(&"sheet", axis, by), Err(SessionError::TooLarge));
            assert_eq!(session.stats(&"sheet")?, before);
        }
    }
    session.grow_bin(&"sheet", Axis::X, u32::MAX - 4)?;
    assert_eq!(session.free_sections(&"sheet")?[1], section(4, 0, u32::MAX - 4, 10));
    Ok(())
}

#[test]
fn a_box_stands_where_the_caller_says() -> Result<(), SessionError> {
    let mut session = with_bins(&[("board", 10, 10)]);
    assert_eq!(session.place_at(&"board", "knot", flat(4, 3, 2, 2)), Ok(0));
    // Left of it and right of it over the whole height, and below and above over its width.
    let left = [section(0, 0, 4, 10), section(6, 0, 4, 10), section(4, 0, 2, 3), section(4, 5, 2, 5)];
    assert_eq!(session.free_sections(&"board")?, left);
    let at = session.outstanding().next().map(|it| it.location);
    assert_eq!(at, Some(flat(4, 3, 2, 2)));
    assert_eq!(session.next_number(), 1);
    // In part in the knot; beyond the bin; with cells that are free in several sections; and beyond all numbers.
    for place in [flat(5, 3, 2, 2), flat(9, 0, 2, 1), flat(0, 0, 10, 3), flat(1, 0, u32::MAX, 1)] {
        assert_eq!(session.place_at(&"board", "hat", place), Err(SessionError::NotFree));
        assert_eq!(session.free_sections(&"board")?, left);
        assert_eq!(standing(&session), [(0, "knot", "board")]);
        assert_eq!(session.next_number(), 1);
    }
    session.release(0)?;
    assert_eq!(session.free_sections(&"board")?[4..], [section(4, 3, 2, 2)]);
    assert_eq!(standing(&session), []);
    Ok(())
}

#[test]
fn a_layout_goes_from_session_to_session() -> Result<(), SessionError> {
    let bins = [("a", 9, 9), ("b", 9, 9)];
    let (mut session, mut other) = (with_bins(&bins), with_bins(&bins));
    pack(&mut session, &[("hat", 4, 4), ("cap", 9, 5), ("shoe", 5, 3), ("tie", 1, 6)])?;
    for it in session.outstanding() {
        assert_eq!(other.place_at(&it.bin, it.id, it.location), Ok(it.number));
    }
    assert!(other.outstanding().eq(session.outstanding()));
    for (bin, _, _) in bins {
        assert_eq!(other.stats(&bin)?.free_volume, session.stats(&bin)?.free_volume);
    }
    Ok(())
}

#[test]
fn a_place_has_a_corner_and_a_size() {
    let place = PackedLocation::new(1, 2, 3, RectToInsert::new(4, 5, 6));
    assert_eq!((place.x(), place.y(), place.z()), (1, 2, 3));
    assert_eq!((place.width(), place.height(), place.depth()), (4, 5, 6));
}

#[test]
fn a_box_goes_where_it_fits_best() -> Result<(), SessionError> {
    let mut session = with_bins(&[("wall", 20, 20), ("sheet", 9, 9), ("shelf", 8, 5)]);
    let size = RectToInsert::new(8, 3, 1);
    let by = Heuristic::Volume;
    // It leaves 12 and 17 of the wall, 1 and 6 of the sheet, 0 and 2 of the shelf; then the sheet is the best; and then 8x2 of
    // the shelf and 9x6 of the sheet are left.
    for (number, bin) in [(0, "shelf"), (1, "sheet"), (2, "sheet"), (3, "sheet"), (4, "wall")] {
        assert_eq!(session.place_best(None, "board", size, by), Ok(number));
        assert_eq!(standing(&session).last(), Some(&(number, "board", bin)));
    }
    let at: Vec<_> = session.outstanding().map(|it| it.location).collect();
    assert_eq!((at[0], at[1], at[4]), (flat(0, 0, 8, 3), flat(0, 0, 8, 3), flat(0, 0, 8, 3)));
    assert_eq!(session.place_best(Some(&"shelf"), "pin", RectToInsert::new(1, 2, 1), by), Ok(5));
    assert_eq!(session.outstanding().last().map(|it| it.location), Some(flat(0, 3, 1, 2)));
    assert_eq!(session.next_number(), 6);
    Ok(())
}

#[test]
fn bins_of_an_equal_rest_go_as_they_were_added() -> Result<(), SessionError> {
    let mut session = with_bins(&[("b", 4, 4), ("a", 4, 4)]);
    let size = RectToInsert::new(4, 4, 1);
    for bin in ["b", "a"] {
        session.place_best(None, "board", size, Heuristic::Height)?;
        assert_eq!(standing(&session).last().map(|it| it.2), Some(bin));
    }
    Ok(())
}

#[test]
fn placements_are_released_all_or_none() -> Result<(), SessionError> {
    let mut session = with_bins(&[("sheet", 10, 10), ("shelf", 4, 4)]);
    pack(&mut session, &[("hat", 4, 10), ("cap", 6, 10), ("pin", 4, 4)])?;
    let all = [(0, "cap", "sheet"), (1, "hat", "sheet"), (2, "pin", "shelf")];
    for numbers in [&[2, 0, 2][..], &[0, 3], &[u64::MAX]] {
        assert_eq!(session.release_all(numbers), Err(SessionError::UnknownPlacement));
        assert_eq!(standing(&session), all);
        assert_eq!(session.free_sections(&"sheet")?, []);
    }
    session.release_all(&[])?;
    assert_eq!(standing(&session), all);
    session.release_all(&[1, 2, 0])?;
    assert_eq!(standing(&session), []);
    // In the order of the list.
    assert_eq!(session.free_sections(&"sheet")?, [section(6, 0, 4, 10), section(0, 0, 6, 10)]);
    assert_eq!(session.free_sections(&"shelf")?, [section(0, 0, 4, 4)]);
    assert_eq!(session.next_number(), 3);
    Ok(())
}

#[test]
fn a_bin_is_cut_anew() -> Result<(), SessionError> {
    let mut session = with_bins(&[("board", 10, 10)]);
    session.place_at(&"board", "knot", flat(0, 0, 4, 3))?;
    let gone = session.place_at(&"board", "gone", flat(4, 0, 3, 10))?;
    session.release(gone)?;
    session.recut(&"board")?;
    // Above the box a strip 10x7 is free, and right of it one of 6x10, of which 6x3 is left.
    assert_eq!(session.free_sections(&"board")?, [section(0, 3, 10, 7), section(4, 0, 6, 3)]);
    assert_eq!(session.was_coalesced(&"board"), Ok(false));
    session.coalesce_all(&"board")?;
    session.release(0)?;
    session.recut(&"board")?;
    assert_eq!(session.free_sections(&"board")?, [section(0, 0, 10, 10)]);
    assert_eq!(session.was_coalesced(&"board"), Ok(true));
    Ok(())
}

// Four boxes stand round a fifth. The last goes into a section that was joined.
#[test]
fn a_pinwheel_is_not_cut_anew() -> Result<(), SessionError> {
    let mut session = with_bins(&[("board", 3, 3)]);
    for (x, y, width, height) in [(0, 0, 2, 1), (2, 0, 1, 2), (0, 1, 1, 2), (1, 1, 1, 1)] {
        session.place_at(&"board", "vane", flat(x, y, width, height))?;
    }
    session.coalesce_all(&"board")?;
    session.place_at(&"board", "vane", flat(1, 2, 2, 1))?;
    assert_eq!(session.recut(&"board"), Err(SessionError::NotFromCuts));
    assert_eq!(session.free_sections(&"board")?, []);
    Ok(())
}
