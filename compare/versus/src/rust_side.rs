//! The Rust test copy, driven event by event.

use crate::offer::Offer;
use crate::plain::{regrouping, Regrouping};
use capmarrow::{Batch, Cell, Group, MOST_CELLS, MOST_ENTITIES};
use oracle::hash::component::CellHashSet;
use oracle::partition::map::{PartitionLookup, SplitResult};
use oracle::partition::{Partition, PartitionId};
use oracle::prelude::*;
use oracle::standins::bevy_ecs::prelude::Entity;
use oracle::standins::bevy_platform::collections::HashMap;
use oracle::standins::bevy_platform::hash::{PassHash, SEED};
use std::collections::{BTreeMap, BTreeSet};
use std::sync::atomic::Ordering;

/// The lookup and the partitions, and the memory that `PartitionLookup::update` keeps between two calls.
#[derive(Default)]
pub struct RustYard {
    lookup: CellLookup,
    partitions: PartitionLookup,
    neighbors: Vec<PartitionId>,
    candidates_map: HashMap<PartitionId, CellHashSet, PassHash>,
    candidates: Vec<(PartitionId, CellHashSet)>,
    results: Vec<Vec<SplitResult>>,
}

fn id(c: Cell) -> CellId {
    CellId::new_manual(Entity(c.grid), &CellCoord { x: c.x, y: c.y, z: c.z })
}

fn cell(c: &CellId) -> Cell {
    let p = c.coord();
    Cell::new(c.grid().0, p.x, p.y, p.z)
}

fn ascending(set: &CellHashSet) -> Vec<Cell> {
    let mut cells: Vec<Cell> = set.iter().map(cell).collect();
    cells.sort();
    cells
}

/// Plays the events of a batch in order, as long as `goes_on` says so after each.
fn play(lookup: &mut CellLookup, batch: &Batch, mut goes_on: impl FnMut(&CellLookup) -> bool) {
    lookup.map.just_inserted.clear();
    lookup.map.just_removed.clear();
    for e in &batch.removals {
        lookup.remove(Entity(*e));
        if !goes_on(lookup) {
            return;
        }
    }
    for (e, c) in &batch.moves {
        lookup.insert(Entity(*e), id(*c));
        if !goes_on(lookup) {
            return;
        }
    }
}

/// 6 for too many entities, 7 for too many occupied cells, else 0.
fn limit(lookup: &CellLookup) -> u64 {
    if lookup.reverse_map.len() > MOST_ENTITIES {
        6
    } else if lookup.all_entries().count() > MOST_CELLS {
        7
    } else {
        0
    }
}

impl RustYard {
    /// An empty yard; the sets are walked in an order that depends on a number.
    pub fn new(walk: u64) -> Self {
        SEED.store(walk, Ordering::Relaxed);
        RustYard::default()
    }

    /// The number that the scope's table gives for an offer to this yard, with the next id that it would use.
    pub fn number(&self, offer: &Offer, next_id: u64) -> u64 {
        let early = offer.number();
        if early != 0 {
            return early;
        }
        if next_id > u64::MAX - 2048 {
            return 5;
        }
        let batch = offer.batch();
        let room = MOST_CELLS.saturating_sub(self.lookup.all_entries().count()).min(MOST_ENTITIES - self.lookup.reverse_map.len());
        if batch.moves.len() <= room {
            return 0;
        }
        let mut number = 0;
        play(&mut self.lookup.clone(), &batch, |lookup| {
            number = limit(lookup);
            number == 0
        });
        number
    }

    /// What an accepted batch would do to the groups.
    pub fn foresee(&self, batch: &Batch) -> Regrouping {
        let mut lookup = self.lookup.clone();
        play(&mut lookup, batch, |_| true);
        let after = lookup.all_entries().map(|(c, _)| cell(c)).collect();
        regrouping(&self.ids(), &ascending(lookup.newly_occupied()), &after)
    }

    /// Runs an accepted batch: the events, then the partition update; tells what it did to the groups.
    pub fn update(&mut self, batch: &Batch) -> Regrouping {
        let before = self.ids();
        self.run(batch);
        regrouping(&before, &self.newly_occupied(), &self.occupied())
    }

    /// The same, without a word.
    pub fn run(&mut self, batch: &Batch) {
        play(&mut self.lookup, batch, |_| true);
        PartitionLookup::update(
            &mut self.partitions,
            None,
            &self.lookup,
            &mut self.neighbors,
            &mut self.candidates_map,
            &mut self.candidates,
            &mut self.results,
        );
    }

    pub fn entities(&self) -> BTreeMap<u64, Cell> {
        self.lookup.reverse_map.iter().map(|(e, c)| (e.0, cell(c))).collect()
    }

    pub fn occupied(&self) -> BTreeSet<Cell> {
        self.lookup.all_entries().map(|(c, _)| cell(c)).collect()
    }

    /// Each occupied cell with its list in list order.
    pub fn lists(&self) -> BTreeMap<Cell, Vec<Cell>> {
        self.lookup.all_entries().map(|(c, entry)| (cell(c), entry.occupied_neighbors.iter().map(cell).collect())).collect()
    }

    pub fn newly_occupied(&self) -> Vec<Cell> {
        ascending(self.lookup.newly_occupied())
    }

    pub fn newly_emptied(&self) -> Vec<Cell> {
        ascending(self.lookup.newly_emptied())
    }

    /// Each cell with an id.
    pub fn ids(&self) -> BTreeMap<Cell, u64> {
        self.partitions.iter().flat_map(|(p, part)| part.iter().map(|c| (cell(c), p.id()))).collect()
    }

    /// The id by the Rust's own look-up.
    pub fn id_of(&self, c: Cell) -> Option<u64> {
        self.partitions.get(&id(c)).map(PartitionId::id)
    }

    pub fn next_id(&self) -> u64 {
        self.partitions.next_partition
    }

    /// Each group by id, its entities and its corners taken over its cells; and how many groups keep other corners themselves.
    pub fn groups(&self) -> (BTreeMap<u64, Group>, u64) {
        let mut older = 0;
        let mut groups = BTreeMap::new();
        for (p, part) in self.partitions.iter() {
            let group = self.shown(part);
            let (low, high) = (part.min(), part.max());
            older += u64::from([[low.x, low.y, low.z], [high.x, high.y, high.z]] != group.corners);
            groups.insert(p.id(), group);
        }
        (groups, older)
    }

    pub fn entities_in(&self, c: Cell) -> Option<Vec<u64>> {
        self.lookup.get(&id(c)).map(|entry| {
            let mut entities: Vec<u64> = entry.entities.iter().map(|e| e.0).collect();
            entities.sort_unstable();
            entities
        })
    }

    /// The cell and its list, if it is occupied. The Rust's entries do not name their cells, so the list names them.
    pub fn nearby(&self, c: Cell) -> Option<Vec<Cell>> {
        let entry = self.lookup.get(&id(c))?;
        assert_eq!(self.lookup.nearby(entry).count(), 1 + entry.occupied_neighbors.len());
        Some(std::iter::once(c).chain(entry.occupied_neighbors.iter().map(cell)).collect())
    }

    /// The cube's cells by the Rust's own neighbours; `within_cube` gives entries without names, so their number and their entities
    /// are held against them.
    pub fn cube(&self, centre: Cell, radius: u8) -> Vec<Cell> {
        let c = id(centre);
        let named: Vec<CellId> = std::iter::once(c).chain(c.adjacent(radius)).filter(|n| self.lookup.contains(n)).collect();
        let entries: Vec<_> = self.lookup.within_cube(&c, radius).collect();
        assert_eq!(named.len(), entries.len());
        for (n, entry) in named.iter().zip(entries) {
            assert!(std::ptr::eq(self.lookup.get(n).expect("an occupied cell"), entry));
        }
        named.iter().map(cell).collect()
    }

    /// How many cells the Rust's own cube has.
    pub fn within(&self, centre: Cell, radius: u8) -> usize {
        self.lookup.within_cube(&id(centre), radius).count()
    }

    pub fn flood(&self, seed: Cell, depth: Option<i32>) -> Vec<Cell> {
        self.lookup.flood(&id(seed), depth).map(|n| cell(&n.0)).collect()
    }

    /// Grid and cell count of a partition, and over its cells the sum of their entities and the corners.
    fn shown(&self, part: &Partition) -> Group {
        let standing = |c: &CellId| self.lookup.get(c).map_or(0, |entry| entry.entities.len() as u64);
        let cells: Vec<CellCoord> = part.iter().map(CellId::coord).collect();
        let low = cells.iter().copied().reduce(|a, b| a.min(b)).expect("a partition has a cell");
        let high = cells.iter().copied().reduce(|a, b| a.max(b)).expect("a partition has a cell");
        Group {
            grid: part.grid().0,
            count: part.num_cells() as u64,
            entities: part.iter().map(standing).sum(),
            corners: [[low.x, low.y, low.z], [high.x, high.y, high.z]],
        }
    }
}
