//! Drawn boxes, packed by this crate and by the program `packrun`: both answer the same.
mod shared;

use std::collections::BTreeMap;

use rectangle_pack::{
    pack_rects, GroupedRectsToPlace, RectToInsert, RectanglePackError, TargetBin,
};
use shared::{packrun, Draw};

const RUNS: usize = 200;

struct Input {
    bins: BTreeMap<String, [u32; 3]>,
    boxes: Vec<(String, [u32; 3], Vec<String>)>,
    exclusions: Vec<[String; 2]>,
}

fn drawn(draw: &mut Draw) -> Input {
    let flat = draw.within(0, 1) == 0;
    let side = [8, 64, 256][draw.within(0, 2) as usize];
    let size = |draw: &mut Draw, low: u32, high: u32| {
        let depth = if flat { 1 } else { draw.within(low, high) };
        [draw.within(low, high), draw.within(low, high), depth]
    };
    let bins = (0..draw.within(1, 5))
        .map(|i| (format!("b{i:04}"), size(draw, side / 2, side)))
        .collect();
    let part = [2, 4, 6][draw.within(0, 2) as usize];
    let groups = draw.within(0, 4);
    let mut boxes = Vec::new();
    for i in 0..draw.within(0, 60) {
        let named = if groups == 0 { 0 } else { draw.within(0, 2) };
        let mut names: Vec<String> = (0..named)
            .map(|_| format!("g{}", draw.within(1, groups)))
            .collect();
        names.sort();
        names.dedup();
        // Ids come in no order.
        let id = format!("r{:04}", (i * 37) % 61);
        boxes.push((id, size(draw, 1, (side / part).max(1)), names));
    }
    let pairs = if groups > 1 { draw.within(0, 2) } else { 0 };
    let exclusions = (0..pairs)
        .map(|_| {
            let one = draw.within(1, groups);
            let other = (one + draw.within(1, groups - 1) - 1) % groups + 1;
            [format!("g{one}"), format!("g{other}")]
        })
        .collect();
    Input {
        bins,
        boxes,
        exclusions,
    }
}

type Placed = Vec<(String, String, [u32; 6])>;

/// What `packrun` places, or nothing where it refuses for space.
fn by_packrun(input: &Input) -> Option<Placed> {
    let mut lines = String::new();
    for (name, [w, h, d]) in &input.bins {
        lines += &format!("bin {name} {w} {h} {d}\n");
    }
    for (id, [w, h, d], groups) in &input.boxes {
        lines += &format!("rect {id} {w} {h} {d} {}\n", groups.join(" "));
    }
    for [one, other] in &input.exclusions {
        lines += &format!("exclude {one} {other}\n");
    }
    lines += "pack\n";
    let text = packrun(&lines);
    if text.contains("refused") {
        return None;
    }
    let mut placed: Placed = text
        .lines()
        .map(|line| line.split(' ').collect::<Vec<_>>())
        .filter(|words| words.len() == 9)
        .map(|words| {
            let numbers = words[3..].iter().map(|word| word.parse().expect("a number"));
            let numbers: Vec<u32> = numbers.collect();
            let numbers = numbers.try_into().expect("six of them");
            (words[1].to_string(), words[2].to_string(), numbers)
        })
        .collect();
    placed.sort();
    Some(placed)
}

fn by_crate(input: &Input) -> Option<Placed> {
    let mut rects = GroupedRectsToPlace::new();
    for (id, [w, h, d], groups) in &input.boxes {
        let groups = (!groups.is_empty()).then(|| groups.clone());
        rects.push_rect(id.clone(), groups, RectToInsert::new(*w, *h, *d));
    }
    for [one, other] in &input.exclusions {
        rects.exclude(one.clone(), other.clone());
    }
    let bins: BTreeMap<String, TargetBin> = input
        .bins
        .iter()
        .map(|(name, [w, h, d])| (name.clone(), TargetBin::new(*w, *h, *d)))
        .collect();
    match pack_rects(&rects, &bins) {
        Ok(packed) => {
            let mut placed: Placed = packed
                .placements()
                .iter()
                .map(|(id, bin, at)| {
                    let numbers = [at.x(), at.y(), at.z(), at.width(), at.height(), at.depth()];
                    (id.clone(), bin.clone(), numbers)
                })
                .collect();
            placed.sort();
            Some(placed)
        }
        Err(RectanglePackError::NotEnoughBinSpace) => None,
        Err(error) => panic!("{error}"),
    }
}

#[test]
fn answers_are_those_of_packrun() {
    let mut draw = Draw(20);
    let (mut done, mut refused) = (0, 0);
    for run in 0..RUNS {
        let input = drawn(&mut draw);
        let (own, other) = (by_crate(&input), by_packrun(&input));
        assert_eq!(own, other, "run {run}");
        match own {
            Some(_) => done += 1,
            None => refused += 1,
        }
    }
    // Both answers were compared often.
    assert!(done > RUNS / 4 && refused > RUNS / 20, "{done} done, {refused} refused");
}
