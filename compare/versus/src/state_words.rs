//! A state's words read by docs/STATE.md, without the library.

use crate::plain::touching;
use capmarrow::{Cell, Group};
use std::collections::{BTreeMap, BTreeSet};

const ENTITIES: usize = 16;
const CELLS: usize = 20_496;
const OCCUPIED: usize = 25_616;
const EMPTIED: usize = 29_712;
const IDS: usize = 33_808;
const GROUPS: usize = 38_928;

pub struct StateWords<'a>(pub &'a [u64]);

fn axis(word: u64) -> i32 {
    (word as i64 - (1 << 31)) as i32
}

/// The cell of four words: grid, z, y, x.
fn cell(w: &[u64]) -> Cell {
    Cell::new(w[0], axis(w[3]), axis(w[2]), axis(w[1]))
}

fn corner(w: &[u64]) -> [i32; 3] {
    [axis(w[0]), axis(w[1]), axis(w[2])]
}

/// The occupied neighbours that a mask tells of: bit k stands for the k-th touching cell, counted from 0.
fn told_by(c: Cell, mask: u64) -> BTreeSet<Cell> {
    assert_eq!(mask >> 26, 0, "a mask has 26 bits");
    touching(c).enumerate().filter(|(k, _)| mask >> k & 1 == 1).map(|(_, d)| d).collect()
}

impl<'a> StateWords<'a> {
    fn rows(&self, from: usize, wide: usize, count: usize) -> impl Iterator<Item = &'a [u64]> {
        self.0[from..from + wide * self.0[count] as usize].chunks(wide)
    }

    pub fn next_id(&self) -> u64 {
        self.0[6]
    }

    pub fn kind(&self) -> u64 {
        self.0[7]
    }

    pub fn entities(&self) -> BTreeMap<u64, Cell> {
        self.rows(ENTITIES, 5, 0).map(|row| (row[0], cell(&row[1..]))).collect()
    }

    /// Each occupied cell with the neighbours that its mask tells of.
    pub fn neighbours(&self) -> BTreeMap<Cell, BTreeSet<Cell>> {
        self.rows(CELLS, 5, 1).map(|row| (cell(row), told_by(cell(row), row[4]))).collect()
    }

    pub fn newly_occupied(&self) -> Vec<Cell> {
        self.rows(OCCUPIED, 4, 2).map(cell).collect()
    }

    pub fn newly_emptied(&self) -> Vec<Cell> {
        self.rows(EMPTIED, 4, 3).map(cell).collect()
    }

    pub fn ids(&self) -> BTreeMap<Cell, u64> {
        self.rows(IDS, 5, 4).map(|row| (cell(row), row[4])).collect()
    }

    pub fn groups(&self) -> BTreeMap<u64, Group> {
        let group = |row: &[u64]| Group { grid: row[1], count: row[2], entities: row[3], corners: [corner(&row[4..]), corner(&row[7..])] };
        self.rows(GROUPS, 10, 5).map(|row| (row[0], group(row))).collect()
    }
}
