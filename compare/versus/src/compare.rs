//! A script is played on both sides, and all that both show is compared after each accepted batch.

use crate::counts::Counts;
use crate::offer::{Offer, Script};
use crate::plain::{parts, Regrouping};
use crate::questions::{ask, Asking};
use crate::rng::Rng;
use crate::rust_side::RustYard;
use crate::state_words::StateWords;
use capmarrow::{calls, Cell, Group, Kind, STATE_LEN};
use std::collections::{BTreeMap, BTreeSet};

pub type Verdict = Result<(), String>;

/// Words behind a state, which no call may touch.
const BEHIND: [u64; 3] = [7, u64::MAX, 0];

/// What touching means in the Rust, and so on both sides.
pub const KIND: Kind = Kind::TwentySix;

/// Both sides of a comparison, and whether ids can still be compared.
pub struct Sides {
    pub words: Vec<u64>,
    pub rust: RustYard,
    pub first_id: u64,
    ids_comparable: bool,
}

pub fn same<T: PartialEq>(what: &str, ours: T, theirs: T) -> Verdict {
    if ours == theirs {
        Ok(())
    } else {
        Err(format!("{what} differ"))
    }
}

impl Sides {
    pub fn new(first_id: u64, walk: u64) -> Self {
        let mut words = vec![u64::MAX; STATE_LEN];
        words.extend(BEHIND);
        assert_eq!(calls::fresh(&mut words, first_id, KIND.number(), &mut [0; 3]), 0);
        Sides { words, rust: RustYard::new(walk), first_id, ids_comparable: true }
    }

    pub fn state(&self) -> StateWords<'_> {
        StateWords(&self.words)
    }

    /// Offers a batch to both sides and compares; a refused one is offered to the port alone and must leave its words.
    pub fn offer(&mut self, offer: &Offer, asking: Asking, rng: &mut Rng, counts: &mut Counts) -> Verdict {
        let expected = self.rust.number(offer, self.state().next_id());
        let before = (expected != 0).then(|| self.words.clone());
        let mut told = [8; 3];
        let number = calls::update(&mut self.words, &offer.words, offer.removals, offer.moves, &mut told);
        if number != expected {
            return Err(format!("the number is {number} and should be {expected}"));
        }
        let (at, axis) = offer.place();
        same("places of a fault", told, [0, at, axis])?;
        if let Some(before) = before {
            *counts.refused.entry(number).or_default() += 1;
            return same("the words before and after a refusal", &self.words, &before);
        }
        let done = self.rust.update(&offer.batch());
        self.count(&done, counts);
        self.occupancy(counts)?;
        self.groups(counts)?;
        same("what touching means", self.state().kind(), KIND.number())?;
        same("the words behind the state", &self.words[STATE_LEN..], &BEHIND)?;
        ask(self, asking, rng, counts)
    }

    fn count(&mut self, done: &Regrouping, counts: &mut Counts) {
        self.ids_comparable &= done.leaves_ids_comparable();
        counts.accepted += 1;
        counts.merges += done.merges as u64;
        counts.splits += done.splits as u64;
        counts.ties += u64::from(done.tied);
        if self.ids_comparable {
            counts.with_ids += 1;
            counts.merges_with_ids += done.merges as u64;
            counts.splits_with_ids += done.splits as u64;
        }
    }

    /// Entities, occupied cells, the neighbours that each mask and each list tell of, and both net lists.
    fn occupancy(&self, counts: &mut Counts) -> Verdict {
        let neighbours: BTreeMap<Cell, BTreeSet<Cell>> = self.rust.lists().into_iter().map(|(c, list)| (c, list.into_iter().collect())).collect();
        counts.cells += neighbours.len() as u64;
        counts.masks += neighbours.values().filter(|list| !list.is_empty()).count() as u64;
        same("entities", self.state().entities(), self.rust.entities())?;
        same("occupied cells or their neighbours", self.state().neighbours(), neighbours)?;
        same("newly occupied cells", self.state().newly_occupied(), self.rust.newly_occupied())?;
        same("newly emptied cells", self.state().newly_emptied(), self.rust.newly_emptied())
    }

    /// The grouping, also against the connected parts; the groups' grids, counts of cells and of entities, and corners; ids while they can be
    /// compared.
    fn groups(&self, counts: &mut Counts) -> Verdict {
        let (ours, theirs) = (self.state().ids(), self.rust.ids());
        same("cells with an id", ours.keys().collect::<Vec<_>>(), theirs.keys().collect())?;
        same("the Rust's two tables of ids", theirs.iter().all(|(c, id)| self.rust.id_of(*c) == Some(*id)), true)?;
        let grouping = partition(&ours);
        same("groupings", &grouping, &partition(&theirs))?;
        same("the grouping and the connected parts", &grouping, &parts(&self.rust.occupied()).into_iter().collect())?;
        let (groups, older) = self.rust.groups();
        counts.groups += groups.len() as u64;
        counts.older_corners += older;
        let renamed = self.renamed(&ours, &theirs, groups);
        same("the groups' grids, counts of cells or entities, or corners", self.state().groups(), renamed)?;
        if self.ids_comparable {
            let shifted: BTreeMap<Cell, u64> = theirs.iter().map(|(c, id)| (*c, id + self.first_id)).collect();
            same("ids", ours, shifted)?;
            same("next ids", self.state().next_id(), self.rust.next_id() + self.first_id)?;
        }
        Ok(())
    }

    /// The Rust's groups under the port's ids.
    fn renamed(&self, ours: &BTreeMap<Cell, u64>, theirs: &BTreeMap<Cell, u64>, groups: BTreeMap<u64, Group>) -> BTreeMap<u64, Group> {
        let names: BTreeMap<u64, u64> = theirs.iter().map(|(c, id)| (*id, ours[c])).collect();
        groups.into_iter().map(|(id, group)| (names[&id], group)).collect()
    }
}

/// The sets of cells that share an id.
fn partition(ids: &BTreeMap<Cell, u64>) -> BTreeSet<Vec<Cell>> {
    let mut sets: BTreeMap<u64, Vec<Cell>> = BTreeMap::new();
    for (c, id) in ids {
        sets.entry(*id).or_default().push(*c);
    }
    sets.into_values().collect()
}

/// Plays a script from its start: how far it got, and what differed there.
pub fn play(script: &Script, asking: Asking) -> Result<(), (usize, String)> {
    let mut sides = Sides::new(script.first_id, script.walk);
    let mut rng = Rng::new(script.walk);
    for (k, offer) in script.offers.iter().enumerate() {
        sides.offer(offer, asking, &mut rng, &mut Counts::default()).map_err(|why| (k, why))?;
    }
    Ok(())
}
