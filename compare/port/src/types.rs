//! What is asked and answered, in types.

use std::fmt;

use crate::refusal::Axis;

/// A cell: its grid and its signed coordinates. Cells are in the order of grid, then z, then y, then x.
#[derive(Clone, Copy, PartialEq, Eq, PartialOrd, Ord, Hash)]
pub struct Cell {
    pub grid: u64,
    pub z: i32,
    pub y: i32,
    pub x: i32,
}

impl Cell {
    pub fn new(grid: u64, x: i32, y: i32, z: i32) -> Self {
        Cell { grid, z, y, x }
    }

    /// The coordinate on an axis.
    pub fn on(self, axis: Axis) -> i32 {
        match axis {
            Axis::X => self.x,
            Axis::Y => self.y,
            Axis::Z => self.z,
        }
    }

    /// The four words of a cell in an answer: grid, x, y, z, the last three in two's complement.
    pub(crate) fn of_words(w: &[u64]) -> Self {
        Cell::new(w[0], w[1] as i32, w[2] as i32, w[3] as i32)
    }
}

impl fmt::Debug for Cell {
    fn fmt(&self, f: &mut fmt::Formatter<'_>) -> fmt::Result {
        write!(f, "{}:({},{},{})", self.grid, self.x, self.y, self.z)
    }
}

/// What touching means in a yard, by how many cells touch one: those 1 apart on one axis, on one or two, or on one, two or three.
#[derive(Debug, Clone, Copy, PartialEq, Eq)]
pub enum Kind {
    Six,
    Eighteen,
    TwentySix,
}

impl Kind {
    pub const ALL: [Self; 3] = [Kind::Six, Kind::Eighteen, Kind::TwentySix];

    /// The number that stands for it in the calls on words and in a state.
    pub fn number(self) -> u64 {
        match self {
            Kind::Six => 6,
            Kind::Eighteen => 18,
            Kind::TwentySix => 26,
        }
    }

    /// The kind of a number, if it is one of the three.
    pub fn of(number: u64) -> Option<Self> {
        Kind::ALL.into_iter().find(|kind| kind.number() == number)
    }
}

/// A batch: all removals run first, then the moves, each in list order.
#[derive(Debug, Clone, Default, PartialEq, Eq)]
pub struct Batch {
    pub removals: Vec<u64>,
    pub moves: Vec<(u64, Cell)>,
}

impl Batch {
    /// The words of the batch: the removals, one word each, then the moves, five words each.
    pub fn words(&self) -> Vec<u64> {
        let mut words = self.removals.clone();
        for (entity, c) in &self.moves {
            words.extend([*entity, c.grid, word(c.x), word(c.y), word(c.z)]);
        }
        words
    }
}

fn word(n: i32) -> u64 {
    i64::from(n) as u64
}

/// What is found, or that there is no such entity, cell or id.
#[derive(Debug, Clone, Copy, PartialEq, Eq)]
pub enum Lookup<T> {
    Found(T),
    NotFound,
}

impl<T> Lookup<T> {
    /// The same of what is made of it.
    pub fn map<U>(self, f: impl FnOnce(T) -> U) -> Lookup<U> {
        match self {
            Lookup::Found(answer) => Lookup::Found(f(answer)),
            Lookup::NotFound => Lookup::NotFound,
        }
    }
}

/// A group: its grid, its cell count, how many entities stand in its cells, and its low and its high corner, x, y, z of each.
#[derive(Debug, Clone, Copy, PartialEq, Eq)]
pub struct Group {
    pub grid: u64,
    pub count: u64,
    pub entities: u64,
    pub corners: [[i32; 3]; 2],
}

/// A cube: whether its centre is occupied, and its occupied cells, the centre first.
#[derive(Debug, Clone, PartialEq, Eq)]
pub struct Cube {
    pub centre: Lookup<()>,
    pub cells: Vec<Cell>,
}

/// A flood: its cells in order, and whether these are all of it.
#[derive(Debug, Clone, PartialEq, Eq)]
pub struct Flood {
    pub cells: Vec<Cell>,
    pub was_all: bool,
}
