//! A yard that keeps its words.

use crate::refusal::{Answer, Given, Refusal};
use crate::types::{Batch, Cell, Cube, Flood, Group, Kind, Lookup};
use crate::{calls, MOST_CELLS, MOST_ENTITIES, STATE_LEN};

/// A yard: the words of its state, as docs/STATE.md lays them out.
#[derive(Clone, PartialEq, Eq)]
pub struct Yard {
    words: Vec<u64>,
}

impl Yard {
    /// A yard with no entity, whose first id and kind are given; the kind stays.
    pub fn fresh(first_id: u64, kind: Kind) -> Answer<Self> {
        let mut words = vec![0; STATE_LEN];
        told(Given::Nothing, |told: &mut [u64; 3]| calls::fresh(&mut words, first_id, kind.number(), told))?;
        Ok(Yard { words })
    }

    /// A yard of any words, as read from elsewhere: a call on words that are no yard is refused.
    pub fn of_words(words: Vec<u64>) -> Self {
        Yard { words }
    }

    /// The words: two yards are the same exactly if their words are.
    pub fn words(&self) -> &[u64] {
        &self.words
    }

    /// Runs a batch and regroups; a batch that is refused leaves the yard as it was.
    pub fn update(&mut self, batch: &Batch) -> Answer<()> {
        let (removals, moves) = (batch.removals.len() as u64, batch.moves.len() as u64);
        let update = |told: &mut [u64; 3]| calls::update(&mut self.words, &batch.words(), removals, moves, told);
        told(Given::Moves(batch), update).map(|_| ())
    }

    /// Whether the words are a yard: refused are words that are too few, and words that break a point of consistency.
    pub fn consistent(&self) -> Answer<()> {
        told(Given::Nothing, |told: &mut [u64; 3]| calls::consistent(&self.words, told)).map(|_| ())
    }

    /// What touching means in the yard.
    pub fn kind(&self) -> Answer<Kind> {
        let told = told(Given::Nothing, |told: &mut [u64; 3]| calls::kind_of(&self.words, told))?;
        // The library tells one of the three (`kind-three`, crates/ask), so this refuses nothing.
        Kind::of(told[1]).ok_or(Refusal::UnknownKind)
    }

    /// Where an entity stands.
    pub fn where_is(&self, entity: u64) -> Answer<Lookup<Cell>> {
        let told = told(Given::Nothing, |told: &mut [u64; 5]| calls::where_is(&self.words, entity, told))?;
        Ok(lookup(told[0], || Cell::of_words(&told[1..])))
    }

    /// The id of a cell.
    pub fn id_of(&self, cell: Cell) -> Answer<Lookup<u64>> {
        let told = told(Given::Cells(&[cell]), |told: &mut [u64; 3]| calls::id_of(&self.words, cell, told))?;
        Ok(lookup(told[0], || told[1]))
    }

    /// How many neighbours of a cell are occupied.
    pub fn neighbour_count(&self, cell: Cell) -> Answer<Lookup<u64>> {
        let told = told(Given::Cells(&[cell]), |told: &mut [u64; 3]| calls::neighbour_count(&self.words, cell, told))?;
        Ok(lookup(told[0], || told[1]))
    }

    /// A group by id.
    pub fn group(&self, id: u64) -> Answer<Lookup<Group>> {
        let told = told(Given::Nothing, |told: &mut [u64; 10]| calls::group(&self.words, id, told))?;
        let corner = |at: usize| [told[at] as i32, told[at + 1] as i32, told[at + 2] as i32];
        Ok(lookup(told[0], || Group { grid: told[1], count: told[2], entities: told[3], corners: [corner(4), corner(7)] }))
    }

    /// The ids, ascending.
    pub fn ids(&self) -> Answer<Vec<u64>> {
        Ok(filled(MOST_CELLS, 1, &[], |answer, told| calls::ids(&self.words, answer, told))?.1)
    }

    /// The newly occupied cells, ascending.
    pub fn newly_occupied(&self) -> Answer<Vec<Cell>> {
        Ok(cells(&[], |answer, told| calls::newly_occupied(&self.words, answer, told))?.1)
    }

    /// The newly emptied cells, ascending.
    pub fn newly_emptied(&self) -> Answer<Vec<Cell>> {
        Ok(cells(&[], |answer, told| calls::newly_emptied(&self.words, answer, told))?.1)
    }

    /// The entities of a cell, ascending.
    pub fn entities_in(&self, cell: Cell) -> Answer<Lookup<Vec<u64>>> {
        let (found, list) = filled(MOST_ENTITIES, 1, &[cell], |answer, told| calls::entities_in(&self.words, cell, answer, told))?;
        Ok(lookup(found, || list))
    }

    /// A cell, then the occupied cells that it touches, in cell order.
    pub fn nearby(&self, cell: Cell) -> Answer<Lookup<Vec<Cell>>> {
        let (found, list) = cells(&[cell], |answer, told| calls::nearby(&self.words, cell, answer, told))?;
        Ok(lookup(found, || list))
    }

    /// The occupied cells of the cube of a radius about a centre.
    pub fn cube(&self, centre: Cell, radius: u8) -> Answer<Cube> {
        let (found, cells) = cells(&[centre], |answer, told| calls::cube(&self.words, centre, radius, answer, told))?;
        Ok(Cube { centre: lookup(found, || ()), cells })
    }

    /// A flood from a seed, to a depth if one is given, up to a budget of cells.
    pub fn flood(&self, seed: Cell, depth: Option<i32>, budget: u64) -> Answer<Lookup<Flood>> {
        let mut answer = vec![0; 4 * MOST_CELLS];
        let flood = |told: &mut [u64; 3]| calls::flood(&self.words, seed, depth, budget, &mut answer, told);
        let told = told(Given::Cells(&[seed]), flood)?;
        let cells = answer.chunks(4).take(told[1] as usize).map(Cell::of_words).collect();
        Ok(lookup(told[0], || Flood { cells, was_all: told[2] == 1 }))
    }

    /// The path from one cell to another, both included: touching occupied cells, the fewest, and among as few the first in cell order.
    pub fn path(&self, from: Cell, to: Cell) -> Answer<Vec<Cell>> {
        Ok(cells(&[from, to], |answer, told| calls::path(&self.words, from, to, answer, told))?.1)
    }
}

fn lookup<T>(found: u64, answer: impl FnOnce() -> T) -> Lookup<T> {
    if found == 1 {
        Lookup::Found(answer())
    } else {
        Lookup::NotFound
    }
}

/// What a call tells, unless it is refused.
fn told<const N: usize>(given: Given, call: impl FnOnce(&mut [u64; N]) -> u64) -> Answer<[u64; N]> {
    let mut told = [0; N];
    Refusal::of(call(&mut told), &told, given)?;
    Ok(told)
}

/// Asks about cells for a list of at most `most` items of `wide` words: whether it was found, and its words.
fn filled(most: usize, wide: usize, about: &[Cell], ask: impl FnOnce(&mut [u64], &mut [u64]) -> u64) -> Answer<(u64, Vec<u64>)> {
    let mut answer = vec![0; most * wide];
    let [found, many, _] = told(Given::Cells(about), |told: &mut [u64; 3]| ask(&mut answer, told))?;
    answer.truncate(many as usize * wide);
    Ok((found, answer))
}

/// Asks about cells for a list of cells.
fn cells(about: &[Cell], ask: impl FnOnce(&mut [u64], &mut [u64]) -> u64) -> Answer<(u64, Vec<Cell>)> {
    let (found, words) = filled(MOST_CELLS, 4, about, ask)?;
    Ok((found, words.chunks(4).map(Cell::of_words).collect()))
}
