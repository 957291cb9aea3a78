//! Cuts 20 equal shelves from few sheets, by a search that shows how far it is, first as they stand, then turned too:
//! `cargo run --example panels`
use std::collections::BTreeMap;

use rectangle_pack::{
    pack_rects_searched, GroupedRectsToPlace, RectToInsert, RectanglePackError, SearchOptions,
    TargetBin, Turns,
};

// In tenths of a millimetre. A saw takes 3.2 mm: each shelf is larger by that, and so is what the trim of 10 mm leaves of a sheet.
const SAW: u32 = 32;

fn main() -> Result<(), RectanglePackError> {
    let mut shelves: GroupedRectsToPlace<u32, &str> = GroupedRectsToPlace::new();
    for id in 0..20 {
        shelves.push_rect(id, None, RectToInsert::new(8000 + SAW, 6000 + SAW, 1));
    }
    let size = TargetBin::new(28000 - 2 * 100 + SAW, 20700 - 2 * 100 + SAW, 1);
    let sheets: BTreeMap<u32, TargetBin> = (0..20).map(|id| (id, size)).collect();
    let as_they_stand = BTreeMap::new();
    let turned = (0..20).map(|id| (id, Turns::FLAT)).collect();
    let costs = BTreeMap::new();
    for (name, turns) in [("as they stand", &as_they_stand), ("turned", &turned)] {
        let options = SearchOptions {
            tries: 20_000,
            seed: 0,
            may_leave: false,
            turns,
            costs: &costs,
        };
        let found = pack_rects_searched(&shelves, &sheets, &options, |now| {
            eprint!("\r{} tries, {} sheets ", now.tries, now.bins);
            true
        })?;
        let proved = if found.is_optimal {
            ", and no packer needs fewer"
        } else {
            ""
        };
        eprintln!();
        println!("{name}: {} sheets{proved}", found.used);
    }
    Ok(())
}
