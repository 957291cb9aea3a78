//! Drawn sessions of several packings, with boxes in several groups and groups that are excluded, of releases, joins and sweeps, by
//! this crate and by the program `packrun`: both answer the same, line by line.
mod shared;

use std::cmp::Reverse;

use rectangle_pack::{GroupedRectsToPlace, RectToInsert, Session, SessionError, TargetBin};
use shared::{packrun, Draw};

const RUNS: usize = 150;
const ROUNDS: u32 = 12;
const GROUPS: u32 = 5;

enum Command {
    Bin(u32, [u32; 3]),
    Rect(String, [u32; 3], Vec<String>),
    Exclude(String, String),
    Pack,
    Release(u64),
    Coalesce(u32, [usize; 3]),
    Sweep(u32),
    Sections(u32),
    Stats(u32),
}

fn bin_name(bin: u32) -> String {
    format!("b{bin:04}")
}

/// The line by which `packrun` is told a command.
fn line(command: &Command) -> String {
    match command {
        Command::Bin(bin, [w, h, d]) => format!("bin {} {w} {h} {d}\n", bin_name(*bin)),
        Command::Rect(id, [w, h, d], groups) => format!("rect {id} {w} {h} {d} {}\n", groups.join(" ")),
        Command::Exclude(one, other) => format!("exclude {one} {other}\n"),
        Command::Pack => "pack\n".to_string(),
        Command::Release(number) => format!("release {number}\n"),
        Command::Coalesce(bin, [index, start, end]) => {
            format!("coalesce {} {index} {start} {end}\n", bin_name(*bin))
        }
        Command::Sweep(bin) => format!("sweep {}\n", bin_name(*bin)),
        Command::Sections(bin) => format!("sections {}\n", bin_name(*bin)),
        Command::Stats(bin) => format!("stats {}\n", bin_name(*bin)),
    }
}

/// Draws commands. Bins are named in the order in which they are added, and boxes in none.
struct Script {
    draw: Draw,
    commands: Vec<Command>,
    side: u32,
    flat: bool,
    bins: u32,
    boxes: u32,
    entries: u32,
}

impl Script {
    fn drawn(seed: u64) -> Vec<Command> {
        let mut draw = Draw(seed);
        let (side, flat) = ([8, 32, 128][draw.within(0, 2) as usize], draw.within(0, 1) == 0);
        let mut script = Script {
            draw,
            commands: Vec::new(),
            side,
            flat,
            bins: 0,
            boxes: 0,
            entries: 0,
        };
        script.add_bin();
        for _ in 0..ROUNDS {
            script.add_round();
        }
        script.commands
    }

    fn add_round(&mut self) {
        if self.draw.within(0, 2) == 0 {
            self.add_bin();
        }
        for _ in 0..self.draw.within(0, 8) {
            self.add_rect();
        }
        for _ in 0..self.draw.within(0, 2) {
            self.add_exclusion();
        }
        self.commands.push(Command::Pack);
        for _ in 0..self.draw.within(0, 6) {
            // Of the numbers that were given, and the next one.
            let number = self.draw.within(0, self.entries);
            self.commands.push(Command::Release(u64::from(number)));
        }
        for _ in 0..self.draw.within(0, 4) {
            self.add_join();
        }
        if self.draw.within(0, 3) == 0 {
            let bin = self.draw.within(0, self.bins);
            self.commands.push(Command::Sweep(bin));
        }
        self.commands
            .extend((0..=self.bins).flat_map(|bin| [Command::Sections(bin), Command::Stats(bin)]));
    }

    /// Joins a section with those of a range, most often with all. Both may be past the end of the list.
    fn add_join(&mut self) {
        let bin = self.draw.within(0, self.bins);
        let mut index = || self.draw.within(0, 20) as usize;
        let mut join = [index(), index(), index()];
        if self.draw.within(0, 2) > 0 {
            join = [join[0], 0, usize::MAX];
        }
        self.commands.push(Command::Coalesce(bin, join));
    }

    fn size(&mut self, low: u32, high: u32) -> [u32; 3] {
        let depth = if self.flat { 1 } else { self.draw.within(low, high) };
        [self.draw.within(low, high), self.draw.within(low, high), depth]
    }

    /// A bin that is there already in one of five; half of the others are all of one size.
    fn add_bin(&mut self) {
        let (side, again) = (self.side, self.draw.within(0, 4) == 0);
        let size = if self.draw.within(0, 1) == 0 {
            [side, side, if self.flat { 1 } else { side }]
        } else {
            self.size(side / 2, side)
        };
        if again && self.bins > 0 {
            let bin = self.draw.within(0, self.bins - 1);
            self.commands.push(Command::Bin(bin, size));
        } else {
            self.commands.push(Command::Bin(self.bins, size));
            self.bins += 1;
        }
    }

    /// Excludes two groups. Both are there in most rounds, but not in all.
    fn add_exclusion(&mut self) {
        let one = self.draw.within(1, GROUPS);
        let other = (one + self.draw.within(1, GROUPS - 1) - 1) % GROUPS + 1;
        self.commands
            .push(Command::Exclude(format!("g{one}"), format!("g{other}")));
    }

    fn add_rect(&mut self) {
        let size = self.size(1, self.side / 2);
        // A box may be in several groups, and in one of them twice.
        let groups: Vec<String> = (0..self.draw.within(0, 3))
            .map(|_| format!("g{}", self.draw.within(1, GROUPS)))
            .collect();
        // No id comes twice: 37 and 101 have no common divisor, and there are fewer boxes than 101.
        let id = format!("r{:04}", (self.boxes * 37) % 101);
        self.boxes += 1;
        self.entries += u32::try_from(groups.len().max(1)).expect("three at most");
        self.commands.push(Command::Rect(id, size, groups));
    }
}

/// The crate's answers, in the words of `packrun`. The ids of its bins are ordered the other way round, so that equal bins are
/// seen to be tried in the order in which they were added, and not by their ids.
struct Answers {
    session: Session<String, Reverse<String>>,
    pending: GroupedRectsToPlace<String, String>,
    text: String,
}

impl Answers {
    fn give(&mut self, command: &Command) -> Result<(), SessionError> {
        match command {
            Command::Bin(bin, [w, h, d]) => self
                .session
                .add_bin(Reverse(bin_name(*bin)), TargetBin::new(*w, *h, *d))?,
            Command::Rect(id, [w, h, d], groups) => {
                let groups = (!groups.is_empty()).then(|| groups.clone());
                let size = RectToInsert::new(*w, *h, *d);
                self.pending.push_rect(id.clone(), groups, size);
            }
            Command::Exclude(one, other) => self.pending.exclude(one.clone(), other.clone()),
            Command::Pack => return self.pack(),
            Command::Release(number) => self.session.release(*number)?,
            Command::Coalesce(bin, [index, start, end]) => {
                let bin = Reverse(bin_name(*bin));
                self.session.coalesce(&bin, *index, *start..*end)?;
            }
            Command::Sweep(bin) => self.session.coalesce_all(&Reverse(bin_name(*bin)))?,
            Command::Sections(bin) => return self.sections(*bin),
            Command::Stats(bin) => return self.stats(*bin),
        }
        self.text += "ok\n";
        Ok(())
    }

    /// Boxes and exclusions that are refused stay, as they do in `packrun`.
    fn pack(&mut self) -> Result<(), SessionError> {
        let mut packed = self.session.pack(&self.pending)?;
        self.pending = GroupedRectsToPlace::new();
        packed.sort_by_key(|it| it.number);
        for it in &packed {
            let at = it.location;
            let (x, y, z, w, h, d) = (at.x(), at.y(), at.z(), at.width(), at.height(), at.depth());
            let (number, id, bin) = (it.number, &it.id, &it.bin.0);
            self.text += &format!("{number} {id} {bin} {x} {y} {z} {w} {h} {d}\n");
        }
        self.text += &format!("packed {}\n", packed.len());
        Ok(())
    }

    fn sections(&mut self, bin: u32) -> Result<(), SessionError> {
        let sections = self.session.free_sections(&Reverse(bin_name(bin)))?;
        for it in &sections {
            let (x, y, z, w, h, d) = (it.x, it.y, it.z, it.width, it.height, it.depth);
            self.text += &format!("{x} {y} {z} {w} {h} {d}\n");
        }
        self.text += &format!("sections {}\n", sections.len());
        Ok(())
    }

    fn stats(&mut self, bin: u32) -> Result<(), SessionError> {
        let it = self.session.stats(&Reverse(bin_name(bin)))?;
        let (free, placed, whole) = (it.free_volume, it.placed_volume, it.bin_volume);
        let (sections, placements) = (it.free_sections, it.placements);
        self.text += &format!("free {free} in {sections}, placed {placed} in {placements}, bin {whole}\n");
        Ok(())
    }
}

/// The line of `packrun` for a refusal.
fn refusal(command: &Command, error: SessionError) -> String {
    match (command, error) {
        (Command::Bin(bin, _), SessionError::DuplicateBin) => format!("refused: bin {} exists\n", bin_name(*bin)),
        (
            Command::Coalesce(bin, _) | Command::Sweep(bin) | Command::Sections(bin) | Command::Stats(bin),
            SessionError::UnknownBin,
        ) => {
            format!("refused: bin {} is unknown\n", bin_name(*bin))
        }
        (Command::Release(number), SessionError::UnknownPlacement) => format!("refused: placement {number} is unknown\n"),
        (Command::Pack, SessionError::NotEnoughBinSpace) => format!("refused: {error}\n"),
        (_, error) => panic!("an answer that does not fit: {error}"),
    }
}

/// The answer to each command, from the text of all.
fn by_crate(commands: &[Command]) -> Vec<String> {
    let mut answers = Answers {
        session: Session::new().expect("there is memory"),
        pending: GroupedRectsToPlace::new(),
        text: String::new(),
    };
    commands
        .iter()
        .flat_map(|command| {
            answers.text.clear();
            if let Err(error) = answers.give(command) {
                answers.text = refusal(command, error);
            }
            answers.text.lines().map(str::to_string).collect::<Vec<_>>()
        })
        .collect()
}

#[test]
fn answers_are_those_of_packrun() {
    let mut seen = [0; 7];
    let starts = ["packed", "refused: Not", "refused: bin", "refused: placement", "sections", "free", "ok"];
    for run in 0..RUNS {
        let commands = Script::drawn(0x9E37_79B9_7F4A_7C15 ^ run as u64);
        let own = by_crate(&commands);
        let text = packrun(&commands.iter().map(line).collect::<String>());
        let other: Vec<_> = text.lines().collect();
        assert_eq!(own, other, "run {run}");
        for (count, start) in seen.iter_mut().zip(starts) {
            *count += own.iter().filter(|line| line.starts_with(start)).count();
        }
    }
    // Each answer was compared often.
    assert!(seen.iter().all(|&count| count > RUNS), "{starts:?}: {seen:?}");
}
