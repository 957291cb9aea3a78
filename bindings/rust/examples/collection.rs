//! Loads two vans by the best heuristic: paint and food may not be in one van, and the tools go with both:
//! `cargo run --example collection`
use std::collections::BTreeMap;

use rectangle_pack::{
    pack_rects_best, GroupedRectsToPlace, RectToInsert, RectanglePackError, TargetBin,
};

fn main() -> Result<(), RectanglePackError> {
    let mut load = GroupedRectsToPlace::new();
    load.push_rect("bread", Some(vec!["food"]), RectToInsert::new(6, 5, 5));
    load.push_rect("apples", Some(vec!["food"]), RectToInsert::new(5, 5, 5));
    load.push_rect("paint", Some(vec!["paint"]), RectToInsert::new(4, 5, 9));
    load.push_rect("tools", Some(vec!["food", "paint"]), RectToInsert::new(2, 3, 3));
    load.exclude("food", "paint");
    let vans = BTreeMap::from([
        (0, TargetBin::new(10, 10, 10)),
        (1, TargetBin::new(12, 10, 10)),
    ]);
    let (best, packed) = pack_rects_best(&load, &vans)?;
    for (name, van, at) in packed.placements() {
        println!("{name} in van {van} at {} {} {}", at.x(), at.y(), at.z());
    }
    println!("by {best}");
    Ok(())
}
