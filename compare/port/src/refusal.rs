//! Why a call was refused, in words to act on.

use std::fmt;

use crate::types::{Batch, Cell};
use crate::FAR;

/// An axis, as the library tells it: 0, 1 or 2.
#[derive(Debug, Clone, Copy, PartialEq, Eq)]
pub enum Axis {
    X,
    Y,
    Z,
}

impl Axis {
    pub(crate) fn of(axis: u64) -> Option<Self> {
        [Axis::X, Axis::Y, Axis::Z].into_iter().find(|a| *a as u64 == axis)
    }
}

impl fmt::Display for Axis {
    fn fmt(&self, f: &mut fmt::Formatter<'_>) -> fmt::Result {
        f.write_str(match self {
            Axis::X => "x",
            Axis::Y => "y",
            Axis::Z => "z",
        })
    }
}

/// Which of the cells given is meant.
#[derive(Debug, Clone, Copy, PartialEq, Eq)]
pub enum Place {
    /// That of a move, by its position in the batch's list of moves, counted from 0.
    Move(usize),
    /// The cell of a question, the first where there are two.
    Cell,
    /// The second cell of a question.
    SecondCell,
}

impl fmt::Display for Place {
    fn fmt(&self, f: &mut fmt::Formatter<'_>) -> fmt::Result {
        match self {
            Place::Move(position) => write!(f, "move {position}"),
            Place::Cell => f.write_str("cell"),
            Place::SecondCell => f.write_str("second cell"),
        }
    }
}

/// Why a call was refused: the scope's number, and where the fault is. A refused call leaves the yard as it was.
#[derive(Debug, Clone, Copy, PartialEq, Eq)]
pub enum Refusal {
    /// 1: the state's words, or a batch's, are too few.
    TooShort,
    /// 2: the state is not consistent; the first point of the scope's list that it breaks, 1 to 9; 9 is tried before the others.
    Broken(u64),
    /// 3: the batch has too many events.
    TooManyEvents,
    /// 4: the first cell given that is out of range, its first axis that is, x before y before z, and the coordinate there.
    OutOfRange(Place, Axis, i32),
    /// 5: too few ids are left.
    FewIds,
    /// 6: an event would leave too many entities.
    TooManyEntities,
    /// 7: an event would leave too many occupied cells.
    TooManyCells,
    /// 8: the answer's slice is too short; how many words are needed.
    AnswerTooLong(u64),
    /// 12: no path leads from the one cell to the other.
    NoPath,
    /// 13: what touching means is none of the three kinds.
    UnknownKind,
    /// A number, or a place of a fault, that the scope does not give for the call.
    Unknown(u64),
}

/// What a call was given that may be out of range: nothing, the cells of a question, or the moves of a batch.
#[derive(Debug, Clone, Copy)]
pub enum Given<'a> {
    Nothing,
    Cells(&'a [Cell]),
    Moves(&'a Batch),
}

impl Given<'_> {
    /// The cell at a position, as it is called, and itself.
    fn at(self, position: usize) -> Option<(Place, Cell)> {
        match self {
            Given::Nothing => None,
            Given::Cells(cells) => Some((if position == 0 { Place::Cell } else { Place::SecondCell }, *cells.get(position)?)),
            Given::Moves(batch) => Some((Place::Move(position), batch.moves.get(position)?.1)),
        }
    }

    fn out_of_range(self, at: u64, axis: u64) -> Option<Refusal> {
        let (place, cell) = self.at(usize::try_from(at).ok()?)?;
        let axis = Axis::of(axis)?;
        Some(Refusal::OutOfRange(place, axis, cell.on(axis)))
    }
}

impl Refusal {
    /// The scope's number.
    pub fn number(self) -> u64 {
        match self {
            Refusal::TooShort => 1,
            Refusal::Broken(_) => 2,
            Refusal::TooManyEvents => 3,
            Refusal::OutOfRange(..) => 4,
            Refusal::FewIds => 5,
            Refusal::TooManyEntities => 6,
            Refusal::TooManyCells => 7,
            Refusal::AnswerTooLong(_) => 8,
            Refusal::NoPath => 12,
            Refusal::UnknownKind => 13,
            Refusal::Unknown(number) => number,
        }
    }

    /// The refusal of a number with what is told beside it, none for 0; for those who make the calls on words.
    pub fn of(number: u64, told: &[u64], given: Given) -> Answer<()> {
        let word = |i: usize| told.get(i).copied().unwrap_or(0);
        Err(match number {
            0 => return Ok(()),
            1 => Refusal::TooShort,
            2 => Refusal::Broken(word(1)),
            3 => Refusal::TooManyEvents,
            4 => given.out_of_range(word(1), word(2)).unwrap_or(Refusal::Unknown(number)),
            5 => Refusal::FewIds,
            6 => Refusal::TooManyEntities,
            7 => Refusal::TooManyCells,
            8 => Refusal::AnswerTooLong(word(1)),
            12 => Refusal::NoPath,
            13 => Refusal::UnknownKind,
            _ => Refusal::Unknown(number),
        })
    }
}

/// What a point of the scope's consistency list asks for.
fn point(point: u64) -> &'static str {
    match point {
        1 => "entities distinct, they and the occupied cells within number",
        2 => "the cells with an id, each held once, are exactly those an entity stands in",
        3 => "the mask has exactly the bits of touching occupied cells",
        4 => "ids shared exactly by joined cells",
        5 => "one group record for each id that a cell has and no other, its grid, corners and counts exact",
        6 => "every id below the next id",
        7 => "coordinates in range",
        8 => "net lists strictly ascending, at most 1,024 cells each, the first occupied, the second not",
        9 => "what touching means is 6, 18 or 26",
        _ => "a point that the scope does not have",
    }
}

impl fmt::Display for Refusal {
    fn fmt(&self, f: &mut fmt::Formatter<'_>) -> fmt::Result {
        match *self {
            Refusal::TooShort => f.write_str("the state or the batch is too short"),
            Refusal::Broken(first) => write!(f, "the state is broken at point {first}: {}", point(first)),
            Refusal::TooManyEvents => f.write_str("the batch has more than 1,024 events"),
            Refusal::OutOfRange(place, axis, was) => write!(f, "{place}: {axis} is {was}, outside -{FAR} to {FAR}"),
            Refusal::FewIds => f.write_str("fewer than 2,048 ids are left"),
            Refusal::TooManyEntities => f.write_str("an event would leave more than 4,096 entities"),
            Refusal::TooManyCells => f.write_str("an event would leave more than 1,024 occupied cells"),
            Refusal::AnswerTooLong(needed) => write!(f, "the answer needs {needed} words, more than its slice has"),
            Refusal::NoPath => f.write_str("no path of touching occupied cells leads from the one cell to the other"),
            Refusal::UnknownKind => f.write_str("what touching means is not 6, 18 or 26"),
            Refusal::Unknown(number) => write!(f, "refused by number {number} in a way that this wrapper does not know"),
        }
    }
}

impl std::error::Error for Refusal {}

/// An answer, unless the call was refused.
pub type Answer<T> = Result<T, Refusal>;
