//! What is offered to `update`: words, and how many removals and moves they are said to hold. A script is a run of offers.

use capmarrow::{Batch, Cell, FAR, MOST_EVENTS};
use std::fmt;

#[derive(Clone, PartialEq, Eq, Default)]
pub struct Offer {
    pub words: Vec<u64>,
    pub removals: u64,
    pub moves: u64,
}

/// A script: the first id of its yard, how the Rust's sets are walked, and the offers in turn.
#[derive(Clone)]
pub struct Script {
    pub first_id: u64,
    pub walk: u64,
    pub offers: Vec<Offer>,
}

impl Offer {
    pub fn of(batch: &Batch) -> Self {
        Offer { words: batch.words(), removals: batch.removals.len() as u64, moves: batch.moves.len() as u64 }
    }

    /// The number by the scope's table as far as the words alone tell: 1, 3, 4 or 0.
    pub fn number(&self) -> u64 {
        let needed = u128::from(self.removals) + 5 * u128::from(self.moves);
        if (self.words.len() as u128) < needed {
            return 1;
        }
        if u128::from(self.removals) + u128::from(self.moves) > MOST_EVENTS as u128 {
            return 3;
        }
        self.out_of_range().map_or(0, |_| 4)
    }

    /// The position of the first move with a coordinate out of range, and the first such axis of it.
    fn out_of_range(&self) -> Option<(u64, u64)> {
        let far = |n: &u64| !(-i64::from(FAR)..=i64::from(FAR)).contains(&(*n as i64));
        let axis = |m: &[u64]| m[2..5].iter().position(far);
        self.move_words().enumerate().find_map(|(at, m)| Some((at as u64, axis(m)? as u64)))
    }

    /// The place of the fault that is told beside the number: of 4 the position and the axis, else zeros.
    pub fn place(&self) -> (u64, u64) {
        match self.number() {
            4 => self.out_of_range().unwrap_or_default(),
            _ => (0, 0),
        }
    }

    fn move_words(&self) -> impl Iterator<Item = &[u64]> {
        let from = self.removals as usize;
        self.words[from..from + 5 * self.moves as usize].chunks(5)
    }

    /// The batch that the words stand for, where their number is 0.
    pub fn batch(&self) -> Batch {
        assert_eq!(self.number(), 0);
        let cell = |m: &[u64]| Cell::new(m[1], m[2] as i32, m[3] as i32, m[4] as i32);
        Batch { removals: self.words[..self.removals as usize].to_vec(), moves: self.move_words().map(|m| (m[0], cell(m))).collect() }
    }
}

impl fmt::Display for Offer {
    fn fmt(&self, f: &mut fmt::Formatter<'_>) -> fmt::Result {
        if self.number() != 0 {
            return write!(f, "{} removals and {} moves in {} words: {:?}", self.removals, self.moves, self.words.len(), self.words);
        }
        let batch = self.batch();
        for entity in &batch.removals {
            write!(f, " remove {entity};")?;
        }
        for (entity, cell) in &batch.moves {
            write!(f, " {entity} to {cell:?};")?;
        }
        Ok(())
    }
}

impl fmt::Display for Script {
    fn fmt(&self, f: &mut fmt::Formatter<'_>) -> fmt::Result {
        writeln!(f, "  first id {}, walk {}", self.first_id, self.walk)?;
        for (k, offer) in self.offers.iter().enumerate() {
            writeln!(f, "  batch {}:{offer}", k + 1)?;
        }
        Ok(())
    }
}
