//! The proved yard for Rust programs: a safe wrapper over the static library that `rt staticlib capmarrow` writes.
//!
//! [`Yard`] keeps the words of a state and answers in its own types. [`calls`] has the same calls on words, for those who keep the
//! words themselves, and [`Refusal::of`] says what their numbers mean. Nothing here computes an answer: every call is one call of the
//! proved library.

mod ffi;

pub mod calls;
mod refusal;
mod reports;
mod types;
mod yard;

pub use refusal::{Answer, Axis, Given, Place, Refusal};
pub use reports::{event_of, BadReport, Event, Frame, Report};
pub use types::{Batch, Cell, Cube, Flood, Group, Kind, Lookup};
pub use yard::Yard;

/// How many words a state has.
pub const STATE_LEN: usize = 49_168;
/// How many occupied cells a yard has at most.
pub const MOST_CELLS: usize = 1_024;
/// How many entities a yard has at most.
pub const MOST_ENTITIES: usize = 4_096;
/// How many events a batch has at most.
pub const MOST_EVENTS: usize = 1_024;
/// A coordinate lies from -FAR to FAR.
pub const FAR: i32 = 1_000_000_000;
