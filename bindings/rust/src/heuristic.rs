//! The heuristics of the library, by their names.

use std::error::Error;
use std::fmt;
use std::str::FromStr;

/// What boxes, bins and pieces of a bin are rated by.
///
/// Groups with a greater sum of rates go first, bins with a smaller rate are tried first, and rates choose between the ways to cut
/// what is left of a free section. A heuristic of one's own cannot be given to this crate: for that the library is to be used itself.
///
/// As text each has the name that the library gives it:
///
/// ```
/// use rectangle_pack::Heuristic;
///
/// assert_eq!(Heuristic::SideSum.to_string(), "side-sum");
/// assert_eq!("side-sum".parse(), Ok(Heuristic::SideSum));
/// ```
#[derive(Debug, Clone, Copy, PartialEq, Eq, Hash)]
#[non_exhaustive]
pub enum Heuristic {
    /// The volume, in cells.
    Volume,
    /// By height, then by width, then by depth.
    Height,
    /// By width, then by height, then by depth.
    Width,
    /// By depth, then by width, then by height.
    Depth,
    /// Width plus height plus depth.
    SideSum,
    /// By the longest side, then by the middle one, then by the shortest.
    LongestSide,
    /// By the shortest side, then by the middle one, then by the longest.
    ShortestSide,
    /// Height times depth: the area of the box as one sees it along the x axis.
    SideArea,
}

impl Heuristic {
    /// All heuristics, in the order in which the best of all goes through them.
    pub const ALL: &'static [Heuristic] = &[
        Heuristic::Volume,
        Heuristic::Height,
        Heuristic::Width,
        Heuristic::Depth,
        Heuristic::SideSum,
        Heuristic::LongestSide,
        Heuristic::ShortestSide,
        Heuristic::SideArea,
    ];

    /// The number by which C knows it.
    pub(crate) fn number(self) -> u32 {
        match self {
            Heuristic::Volume => 0,
            Heuristic::Height => 1,
            Heuristic::Width => 2,
            Heuristic::Depth => 3,
            Heuristic::SideSum => 4,
            Heuristic::LongestSide => 5,
            Heuristic::ShortestSide => 6,
            Heuristic::SideArea => 7,
        }
    }

    /// The heuristic of a number that C answered.
    pub(crate) fn of(number: u32) -> Self {
        let mut all = Heuristic::ALL.iter().copied();
        all.find(|it| it.number() == number)
            .expect("C answers a heuristic of the header")
    }

    fn name(self) -> &'static str {
        match self {
            Heuristic::Volume => "volume",
            Heuristic::Height => "height",
            Heuristic::Width => "width",
            Heuristic::Depth => "depth",
            Heuristic::SideSum => "side-sum",
            Heuristic::LongestSide => "longest-side",
            Heuristic::ShortestSide => "shortest-side",
            Heuristic::SideArea => "side-area",
        }
    }
}

impl fmt::Display for Heuristic {
    fn fmt(&self, f: &mut fmt::Formatter<'_>) -> fmt::Result {
        f.pad(self.name())
    }
}

impl FromStr for Heuristic {
    type Err = UnknownHeuristic;

    fn from_str(text: &str) -> Result<Self, UnknownHeuristic> {
        let mut all = Heuristic::ALL.iter().copied();
        all.find(|it| it.name() == text).ok_or(UnknownHeuristic)
    }
}

/// A text that names no heuristic.
#[derive(Debug, Clone, Copy, PartialEq, Eq)]
pub struct UnknownHeuristic;

impl fmt::Display for UnknownHeuristic {
    fn fmt(&self, f: &mut fmt::Formatter<'_>) -> fmt::Result {
        f.write_str("There is no heuristic of this name.")
    }
}

impl Error for UnknownHeuristic {}
