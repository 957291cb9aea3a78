//! An atlas that is filled while a program runs: sprites come to one sheet and go from it: `cargo run --example session`
use rectangle_pack::{
    GroupedRectsToPlace, Outstanding, RectToInsert, Session, SessionError, TargetBin,
};

const SHEET: u32 = 7;

type Atlas = Session<&'static str, u32>;

fn print_place(it: &Outstanding<&str, u32>) {
    let (x, y) = (it.location.x(), it.location.y());
    println!("{} is placement {}, on sheet {} at {x} {y}", it.id, it.number, it.bin);
}

fn print_stats(atlas: &Atlas) -> Result<(), SessionError> {
    let it = atlas.stats(&SHEET)?;
    let (cells, free, placed) = (it.bin_volume, it.free_volume, it.placed_volume);
    let (sections, placements) = (it.free_sections, it.placements);
    println!("{cells} cells: {free} free (sections: {sections}), {placed} placed (placements: {placements})");
    Ok(())
}

fn main() -> Result<(), SessionError> {
    let mut atlas = Atlas::new()?;
    atlas.add_bin(SHEET, TargetBin::new(64, 64, 1))?;

    let mut sprites = GroupedRectsToPlace::new();
    sprites.push_rect("map", None, RectToInsert::new(64, 40, 1));
    // The hat and the shoe are drawn together, so they are to be on one sheet.
    sprites.push_rect("hat", Some(vec!["clothes"]), RectToInsert::new(10, 24, 1));
    sprites.push_rect("shoe", Some(vec!["clothes"]), RectToInsert::new(20, 24, 1));
    let places = atlas.pack(&sprites)?;
    places.iter().for_each(print_place);
    print_stats(&atlas)?;

    for place in places.iter().filter(|place| place.id == "shoe") {
        atlas.release(place.number)?;
        println!("the shoe is released");
    }
    print_stats(&atlas)?;

    // What the shoe leaves and what was free beside it become one section. The banner needs both.
    atlas.coalesce_all(&SHEET)?;
    let mut banner: GroupedRectsToPlace<_, &str> = GroupedRectsToPlace::new();
    banner.push_rect("banner", None, RectToInsert::new(50, 20, 1));
    atlas.pack(&banner)?.iter().for_each(print_place);
    print_stats(&atlas)
}
