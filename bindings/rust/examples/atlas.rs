//! Packs a few sprites into two sheets and prints where they stand: `cargo run --example atlas`
use std::collections::BTreeMap;

use rectangle_pack::{
    pack_rects, GroupedRectsToPlace, RectToInsert, RectanglePackError, TargetBin,
};

fn main() -> Result<(), RectanglePackError> {
    let mut sprites = GroupedRectsToPlace::new();
    // The hat and the shoe are drawn together, so they are to be on one sheet.
    sprites.push_rect("hat", Some(vec!["clothes"]), RectToInsert::new(10, 20, 1));
    sprites.push_rect("shoe", Some(vec!["clothes"]), RectToInsert::new(5, 50, 1));
    sprites.push_rect("tree", None, RectToInsert::new(60, 60, 1));
    sprites.push_rect("sun", None, RectToInsert::new(32, 32, 1));
    sprites.push_rect("moon", None, RectToInsert::new(16, 16, 1));
    let sheets = BTreeMap::from([
        ("small", TargetBin::new(64, 64, 1)),
        ("large", TargetBin::new(128, 128, 1)),
    ]);
    for (sprite, sheet, at) in pack_rects(&sprites, &sheets)?.placements() {
        println!("{sprite} on the {sheet} sheet at {} {}", at.x(), at.y());
    }
    Ok(())
}
