//! The lists that are kept on this side are those of C.
use super::*;
use crate::Group;

fn rects(sizes: &[(u32, u32, u32)]) -> GroupedRectsToPlace<u32, u32> {
    let mut rects = GroupedRectsToPlace::new();
    for &(id, width, height) in sizes {
        rects.push_rect(id, None, RectToInsert::new(width, height, 1));
    }
    rects
}

/// The lists that are kept here are those of C.
fn check_lists(session: &Session<u32, &str>, packed: &[Vec<u64>]) -> Result<(), SessionError> {
    let own: Vec<_> = session
        .outstanding()
        .map(|it| {
            let mut indices = packed.iter().filter_map(|call| call.iter().position(|number| *number == it.number));
            let index = u32::try_from(indices.next().expect("it was packed")).expect("few");
            let section = Section {
                x: it.location.x(),
                y: it.location.y(),
                z: it.location.z(),
                width: it.location.width(),
                height: it.location.height(),
                depth: it.location.depth(),
            };
            (it.number, index, session.numbers[it.bin], section)
        })
        .collect();
    assert_eq!(session.handle.outstanding()?, own);
    let mut numbers: Vec<_> = session.bins().map(|id| session.numbers[id]).collect();
    numbers.sort_unstable();
    assert_eq!(session.handle.bins()?, numbers);
    for id in session.bins() {
        let standing = session.outstanding_in(id)?;
        let standing: Vec<_> = standing.iter().map(|it| it.number).collect();
        assert_eq!(session.handle.outstanding_in(session.numbers[id])?, standing);
    }
    Ok(())
}

#[test]
fn lists_that_are_kept_are_those_of_c() -> Result<(), SessionError> {
    let mut session = Session::new()?;
    let mut packed = Vec::new();
    check_lists(&session, &packed)?;
    for (id, side) in [("wall", 9), ("sheet", 9), ("shelf", 4)] {
        session.add_bin(id, TargetBin::new(side, side, 1))?;
        check_lists(&session, &packed)?;
    }
    for sizes in [&[(5, 1, 2), (2, 4, 4), (9, 6, 3)][..], &[], &[(1, 9, 5), (0, 0, 7)]] {
        let placed = session.pack(&rects(sizes))?;
        packed.push(placed.iter().map(|it| it.number).collect());
        check_lists(&session, &packed)?;
    }
    for number in [3, 0, 4] {
        session.release(number)?;
        check_lists(&session, &packed)?;
    }
    assert_eq!(session.outstanding().count(), 2);
    Ok(())
}

#[test]
fn lists_that_are_kept_have_what_fits() -> Result<(), SessionError> {
    let mut session = Session::new()?;
    session.add_bin("sheet", TargetBin::new(10, 10, 1))?;
    let squares = rects(&[(1, 6, 6), (2, 5, 5), (3, 4, 4)]);
    // The square of the second entry is left.
    session.pack_fitting(&squares, Heuristic::Volume)?;
    let mut packed = vec![vec![0, u64::MAX, 1]];
    check_lists(&session, &packed)?;
    // Where the first square stood there is space for one of 5, and above it for the board, but for no square of 7.
    session.release(0)?;
    let more = rects(&[(2, 5, 5), (3, 7, 7), (4, 6, 3)]);
    let fitted = session.pack_fitting(&more, Heuristic::Volume)?;
    assert_eq!(fitted.left, [Group::Ungrouped(&3)]);
    packed.push(vec![2, u64::MAX, 3]);
    check_lists(&session, &packed)
}

#[test]
fn lists_that_are_kept_follow_bins_that_come_and_go() -> Result<(), SessionError> {
    let mut session = Session::new()?;
    let mut packed = Vec::new();
    for (id, side) in [("wall", 9), ("sheet", 9), ("shelf", 4)] {
        session.add_bin(id, TargetBin::new(side, side, 1))?;
    }
    for (bin, id, x) in [("sheet", 5, 0), ("wall", 2, 3), ("sheet", 5, 7), ("shelf", 1, 2)] {
        let place = PackedLocation::new(x, 1, 0, RectToInsert::new(1, 2, 1));
        packed.push(vec![session.place_at(&bin, id, place)?]);
        check_lists(&session, &packed)?;
    }
    assert_eq!(session.remove_bin(&"sheet"), Err(SessionError::BinInUse));
    check_lists(&session, &packed)?;
    session.clear_bin(&"sheet")?;
    check_lists(&session, &packed)?;
    session.remove_bin(&"sheet")?;
    check_lists(&session, &packed)?;
    let kept: Vec<_> = session.outstanding().map(|it| (it.number, it.id, it.bin)).collect();
    assert_eq!(kept, [(1, 2, "wall"), (3, 1, "shelf")]);
    // The bin that is added now has a number of its own.
    session.add_bin("sheet", TargetBin::new(3, 3, 1))?;
    assert_eq!(session.numbers["sheet"], 3);
    let placed = session.pack(&rects(&[(7, 3, 3), (8, 1, 1)]))?;
    packed.push(placed.iter().map(|it| it.number).collect());
    check_lists(&session, &packed)?;
    session.grow_bin(&"sheet", Axis::Y, 2)?;
    check_lists(&session, &packed)?;
    for bin in [None, Some(&"wall")] {
        let size = RectToInsert::new(2, 1, 1);
        packed.push(vec![session.place_best(bin, 9, size, Heuristic::Volume)?]);
        check_lists(&session, &packed)?;
    }
    session.recut(&"sheet")?;
    check_lists(&session, &packed)?;
    session.release_all(&[7, 1, 5])?;
    check_lists(&session, &packed)?;
    assert_eq!((session.ids.len(), session.numbers.len()), (3, 3));
    Ok(())
}

#[test]
fn the_numbers_of_bins_may_be_used_up() -> Result<(), SessionError> {
    let mut session: Session<u32, &str> = Session::new()?;
    session.next_bin = u32::MAX - 1;
    session.add_bin("last", TargetBin::new(4, 4, 1))?;
    let more = session.add_bin("more", TargetBin::new(4, 4, 1));
    assert_eq!(more, Err(SessionError::TooMany));
    let again = session.add_bin("last", TargetBin::new(4, 4, 1));
    assert_eq!(again, Err(SessionError::DuplicateBin));
    check_lists(&session, &[])
}
