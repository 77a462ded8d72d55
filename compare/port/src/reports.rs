//! Positions in metres: what a receiver's report makes in a yard's frame, and the move of a batch that it becomes.

use std::fmt;

use crate::{Axis, Batch, Cell};

extern "C" {
    fn capmarrow_event_of(
        origin_x: f64, origin_y: f64, origin_z: f64, edge: f64, kind: u64, x: f64, y: f64, z: f64, error: f64, entity: u64, grid: u64, told: *mut u64, told_len: usize,
    ) -> u64;
}

/// A yard's frame: its origin, whole metres within 1,048,576 of zero, and the edge of its cells, 1, 2, 4, 8, 16, 32 or 64 m.
#[derive(Debug, Clone, Copy, PartialEq)]
pub struct Frame {
    pub x: f64,
    pub y: f64,
    pub z: f64,
    pub edge: f64,
}

/// What a receiver reports: easting, northing and height; these and an error in metres; or nothing.
#[derive(Debug, Clone, Copy, PartialEq)]
pub enum Report {
    Fix(f64, f64, f64),
    Reckoned(f64, f64, f64, f64),
    Nothing,
}

/// An event: the entity, its cell, the offsets from the cell's lower sides, and how far off that may be, if it was said.
#[derive(Debug, Clone, Copy, PartialEq)]
pub struct Event {
    pub entity: u64,
    pub cell: Cell,
    pub offsets: [f64; 3],
    pub error: Option<f64>,
}

/// Why a report was refused: the number, where the fault is, and the value there.
#[derive(Debug, Clone, Copy, PartialEq)]
pub enum BadReport {
    /// 10: the first coordinate that may not be, x before y before z.
    Coordinate(Axis, f64),
    /// 10: the error.
    Error(f64),
    /// 11: the frame's edge.
    Edge(f64),
    /// 11: the first of the frame's origin that may not be.
    Origin(Axis, f64),
    /// A number, or a place of a fault, that the scope does not give for the call.
    Unknown(u64),
}

impl BadReport {
    /// The scope's number.
    pub fn number(self) -> u64 {
        match self {
            BadReport::Coordinate(..) | BadReport::Error(_) => 10,
            BadReport::Edge(_) | BadReport::Origin(..) => 11,
            BadReport::Unknown(number) => number,
        }
    }

    fn of(number: u64, at: u64, axis: u64, frame: Frame, report: Report) -> Self {
        let on = |values: [f64; 3]| Axis::of(axis).map(|a| (a, values[a as usize]));
        let fault = match (number, at, report) {
            (10, 0, Report::Fix(x, y, z) | Report::Reckoned(x, y, z, _)) => on([x, y, z]).map(|(a, was)| BadReport::Coordinate(a, was)),
            (10, 1, Report::Reckoned(_, _, _, error)) => Some(BadReport::Error(error)),
            (11, 0, _) => Some(BadReport::Edge(frame.edge)),
            (11, 1, _) => on([frame.x, frame.y, frame.z]).map(|(a, was)| BadReport::Origin(a, was)),
            _ => None,
        };
        fault.unwrap_or(BadReport::Unknown(number))
    }
}

impl fmt::Display for BadReport {
    fn fmt(&self, f: &mut fmt::Formatter<'_>) -> fmt::Result {
        match *self {
            BadReport::Coordinate(axis, was) => write!(f, "report: {axis} is {was}, not finite or more than 1048576 m from the origin"),
            BadReport::Error(was) => write!(f, "report: the error is {was}, not finite or below zero"),
            BadReport::Edge(was) => write!(f, "frame: the edge is {was}, not 1, 2, 4, 8, 16, 32 or 64 m"),
            BadReport::Origin(axis, was) => write!(f, "frame: the origin's {axis} is {was}, not whole metres within 1048576 of zero"),
            BadReport::Unknown(number) => write!(f, "refused by number {number} in a way that this wrapper does not know"),
        }
    }
}

impl std::error::Error for BadReport {}

/// What a report makes, of an entity and a grid that the caller names: an event, none, or a refusal.
pub fn event_of(frame: Frame, report: Report, entity: u64, grid: u64) -> Result<Option<Event>, BadReport> {
    let (kind, x, y, z, error) = match report {
        Report::Fix(x, y, z) => (1, x, y, z, 0.0),
        Report::Reckoned(x, y, z, error) => (2, x, y, z, error),
        Report::Nothing => (0, 0.0, 0.0, 0.0, 0.0),
    };
    let mut told = [0; 11];
    // The slice is this function's own, and the library's proof says that nothing else is read or written.
    let number = unsafe { capmarrow_event_of(frame.x, frame.y, frame.z, frame.edge, kind, x, y, z, error, entity, grid, told.as_mut_ptr(), told.len()) };
    match (number, told[0]) {
        (0, 0) => Ok(None),
        (0, _) => Ok(Some(Event {
            entity: told[1],
            cell: Cell::of_words(&told[2..6]),
            offsets: [told[6], told[7], told[8]].map(f64::from_bits),
            error: (told[9] == 1).then(|| f64::from_bits(told[10])),
        })),
        _ => Err(BadReport::of(number, told[1], told[2], frame, report)),
    }
}

impl Batch {
    /// The move that an event makes, behind those of the batch.
    pub fn place(&mut self, event: &Event) {
        self.moves.push((event.entity, event.cell));
    }
}
