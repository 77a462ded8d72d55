//! What was compared.

use std::collections::BTreeMap;
use std::fmt;

#[derive(Default, Clone)]
pub struct Counts {
    pub scripts: BTreeMap<&'static str, u64>,
    pub accepted: u64,
    pub refused: BTreeMap<u64, u64>,
    pub cells: u64,
    pub masks: u64,
    pub groups: u64,
    pub merges: u64,
    pub splits: u64,
    pub ties: u64,
    pub with_ids: u64,
    pub merges_with_ids: u64,
    pub splits_with_ids: u64,
    pub older_corners: u64,
    pub questions: BTreeMap<&'static str, u64>,
}

impl Counts {
    pub fn asked(&mut self, question: &'static str) {
        *self.questions.entry(question).or_default() += 1;
    }
}

impl fmt::Display for Counts {
    fn fmt(&self, f: &mut fmt::Formatter<'_>) -> fmt::Result {
        for (kind, n) in &self.scripts {
            writeln!(f, "scripts of kind {kind}: {n}")?;
        }
        writeln!(f, "accepted batches compared: {}", self.accepted)?;
        for (number, n) in &self.refused {
            writeln!(f, "batches refused by {number}, the state unchanged: {n}")?;
        }
        writeln!(f, "cells compared: {}, of these with neighbours: {}", self.cells, self.masks)?;
        writeln!(f, "groups compared: {} (merged {}, split {}, of these tied {})", self.groups, self.merges, self.splits, self.ties)?;
        writeln!(f, "batches with ids compared: {} (merged {}, split {})", self.with_ids, self.merges_with_ids, self.splits_with_ids)?;
        writeln!(f, "groups of which the Rust kept other corners: {}", self.older_corners)?;
        for (question, n) in &self.questions {
            writeln!(f, "asked {question}: {n}")?;
        }
        Ok(())
    }
}
