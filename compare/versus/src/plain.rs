//! What a batch does to the groups, worked out from the occupied cells alone: how many groups merge and split, and whether pieces tie.

use capmarrow::Cell;
use std::collections::{BTreeMap, BTreeSet};

/// What rules 1 to 3 do in one batch.
#[derive(Debug, Clone, Copy, Default)]
pub struct Regrouping {
    pub newly_occupied: usize,
    pub merges: usize,
    pub splits: usize,
    pub tied: bool,
}

impl Regrouping {
    /// The scope's condition for comparing ids: at most one cell newly occupied, at most one group split, no pieces tied. Where the
    /// Rust's sets are walked in ascending order only ties are left open.
    pub fn leaves_ids_comparable(&self) -> bool {
        if cfg!(feature = "ordered") {
            return !self.tied;
        }
        self.newly_occupied <= 1 && self.splits <= 1 && !self.tied
    }
}

/// The touching cells of a cell.
pub fn touching(c: Cell) -> impl Iterator<Item = Cell> {
    let offsets = (0..27).filter(|k| *k != 13).map(|k| (k % 3 - 1, k / 3 % 3 - 1, k / 9 - 1));
    offsets.map(move |(x, y, z)| Cell::new(c.grid, c.x + x, c.y + y, c.z + z))
}

/// The connected parts of some cells, each ascending, by their least cell.
pub fn parts(cells: &BTreeSet<Cell>) -> Vec<Vec<Cell>> {
    let mut left = cells.clone();
    let mut parts = Vec::new();
    while let Some(seed) = left.pop_first() {
        let mut part = vec![seed];
        let mut at = 0;
        while at < part.len() {
            part.extend(touching(part[at]).filter(|c| left.remove(c)));
            at += 1;
        }
        part.sort();
        parts.push(part);
    }
    parts
}

/// Groups that are merged step by step: each is named by a number, and leads to the one it was merged into.
struct Merged(Vec<usize>);

impl Merged {
    fn root(&self, mut g: usize) -> usize {
        while self.0[g] != g {
            g = self.0[g];
        }
        g
    }

    /// Whether two were apart.
    fn merge(&mut self, a: usize, b: usize) -> bool {
        let (a, b) = (self.root(a), self.root(b));
        self.0[a] = b;
        a != b
    }
}

/// From the ids before the batch, emptied cells still among them, and the cells occupied after it.
pub fn regrouping(before: &BTreeMap<Cell, u64>, newly_occupied: &[Cell], after: &BTreeSet<Cell>) -> Regrouping {
    let mut names: BTreeMap<u64, usize> = BTreeMap::new();
    for id in before.values() {
        let next = names.len();
        names.entry(*id).or_insert(next);
    }
    let mut merged = Merged((0..names.len() + newly_occupied.len()).collect());
    let mut group: BTreeMap<Cell, usize> = before.iter().map(|(c, id)| (*c, names[id])).collect();
    let mut merges = 0;
    for (k, c) in newly_occupied.iter().enumerate() {
        let own = names.len() + k;
        let found: Vec<usize> = touching(*c).filter_map(|d| group.get(&d).copied()).collect();
        let joined = found.into_iter().filter(|g| merged.merge(*g, own)).count();
        merges += joined.saturating_sub(1);
        group.insert(*c, own);
    }
    let mut pieces: BTreeMap<usize, Vec<usize>> = BTreeMap::new();
    for part in parts(after) {
        pieces.entry(merged.root(group[&part[0]])).or_default().push(part.len());
    }
    let ties = |sizes: &Vec<usize>| sizes.iter().collect::<BTreeSet<_>>().len() < sizes.len();
    Regrouping {
        newly_occupied: newly_occupied.len(),
        merges,
        splits: pieces.values().filter(|sizes| sizes.len() > 1).count(),
        tied: pieces.values().any(ties),
    }
}
