//! Questions that the port answers, each held against the Rust.

use crate::compare::{same, Sides, Verdict, KIND};
use crate::counts::Counts;
use crate::paths;
use crate::rng::Rng;
use capmarrow::{calls, Answer, Batch, Cell, Cube, Flood, Lookup, Yard, FAR, STATE_LEN};
use std::collections::BTreeSet;

/// How much is asked after a batch.
#[derive(Clone, Copy, PartialEq)]
pub enum Asking {
    /// Nothing: the words alone are compared.
    Nothing,
    /// A few questions of each kind.
    Some,
    /// Fewer, for large yards.
    Few,
    /// Of every cell and entity.
    All,
}

fn answered<T>(answer: Answer<T>) -> Result<T, String> {
    answer.map_err(|refusal| format!("a question was refused: {refusal}"))
}

fn found<T>(answer: Option<T>) -> Lookup<T> {
    answer.map_or(Lookup::NotFound, Lookup::Found)
}

/// A cell at or near another, in range.
fn near(c: Cell, far: i32, rng: &mut Rng) -> Cell {
    let mut step = |n: i32| (n + rng.from(-far, far)).clamp(-FAR, FAR);
    Cell::new(c.grid, step(c.x), step(c.y), step(c.z))
}

/// Asks after an accepted batch.
pub fn ask(sides: &Sides, asking: Asking, rng: &mut Rng, counts: &mut Counts) -> Verdict {
    if asking == Asking::Nothing {
        return Ok(());
    }
    let yard = Yard::of_words(sides.words.clone());
    let cells: Vec<Cell> = sides.rust.occupied().into_iter().collect();
    let entities: Vec<(u64, Cell)> = sides.rust.entities().into_iter().collect();
    let times = |all: usize, some: usize| match asking {
        Asking::All => all,
        Asking::Some => some,
        Asking::Few | Asking::Nothing => 1,
    };
    answered(yard.consistent())?;
    counts.asked("consistent");
    same("kinds as asked", answered(yard.kind())?, KIND)?;
    counts.asked("kind");
    lists(sides, &yard, counts)?;
    for k in 0..times(entities.len(), 3).min(entities.len()) {
        let (entity, at) = entities[if asking == Asking::All { k } else { rng.below(entities.len() as u64) as usize }];
        same("places of an entity", answered(yard.where_is(entity))?, Lookup::Found(at))?;
        counts.asked("where_is");
    }
    stranger(&yard, &entities, rng, counts)?;
    let anywhere = Cell::new(rng.below(3), rng.from(-4, 4), rng.from(-4, 4), rng.from(-2, 2));
    for k in 0..times(cells.len().max(1), 3) {
        let at = match cells.len() {
            0 => anywhere,
            n if asking == Asking::All => cells[k % n],
            n => near(cells[rng.below(n as u64) as usize], i32::from(rng.once_in(3)), rng),
        };
        about(sides, &yard, at, counts)?;
        flood(sides, &yard, at, rng, counts)?;
        cube(sides, &yard, near(at, 1, rng), &cells, rng, counts)?;
        let to = cells.get(rng.below(cells.len().max(1) as u64) as usize).map_or(anywhere, |c| near(*c, i32::from(rng.once_in(5)), rng));
        paths::ask(sides, &yard, at, to, counts)?;
    }
    refusals(sides, cells.first().copied().unwrap_or(anywhere), rng, counts)
}

/// The questions that name nothing.
fn lists(sides: &Sides, yard: &Yard, counts: &mut Counts) -> Verdict {
    let ids = sides.state().groups().into_keys().collect();
    same("lists of ids", answered(yard.ids())?, ids)?;
    same("newly occupied cells as asked", answered(yard.newly_occupied())?, sides.rust.newly_occupied())?;
    same("newly emptied cells as asked", answered(yard.newly_emptied())?, sides.rust.newly_emptied())?;
    counts.asked("ids");
    counts.asked("newly_occupied");
    counts.asked("newly_emptied");
    Ok(())
}

/// An entity and an id that are not there.
fn stranger(yard: &Yard, entities: &[(u64, Cell)], rng: &mut Rng, counts: &mut Counts) -> Verdict {
    let unknown = (0..).map(|_| rng.next()).find(|e| entities.binary_search_by_key(e, |p| p.0).is_err()).expect("an unknown entity");
    same("places of an unknown entity", answered(yard.where_is(unknown))?, Lookup::NotFound)?;
    let next = yard.words()[6];
    same("groups of an unused id", answered(yard.group(next))?, Lookup::NotFound)?;
    counts.asked("where_is");
    counts.asked("group");
    Ok(())
}

/// A cell's entities, list and id, and its group.
fn about(sides: &Sides, yard: &Yard, at: Cell, counts: &mut Counts) -> Verdict {
    same("entities of a cell", answered(yard.entities_in(at))?, found(sides.rust.entities_in(at)))?;
    let nearby = sides.rust.nearby(at);
    same("neighbour counts", answered(yard.neighbour_count(at))?, found(nearby.as_ref().map(|list| list.len() as u64 - 1)))?;
    same("nearby cells, as sets", answered(yard.nearby(at))?.map(|list| first_and_set(&list)), found(nearby).map(|list| first_and_set(&list)))?;
    let id = sides.state().ids().get(&at).copied();
    same("ids of a cell", answered(yard.id_of(at))?, found(id))?;
    same("whether a cell has an id", id.is_some(), sides.rust.id_of(at).is_some())?;
    if let Some(id) = id {
        same("groups by id", answered(yard.group(id))?, found(sides.state().groups().get(&id).copied()))?;
        counts.asked("group");
    }
    counts.asked("entities_in");
    counts.asked("nearby");
    counts.asked("neighbour_count");
    counts.asked("id_of");
    Ok(())
}

/// The first cell of a list, the set of all of its cells, and how many they are.
fn first_and_set(list: &[Cell]) -> (Option<Cell>, BTreeSet<Cell>, usize) {
    (list.first().copied(), list.iter().copied().collect(), list.len())
}

/// Floods without a depth: their cells as a set where the budget covers them all, and else their number. Against the Rust the order
/// is not compared, as its lists have another.
fn flood(sides: &Sides, yard: &Yard, seed: Cell, rng: &mut Rng, counts: &mut Counts) -> Verdict {
    let whole = sides.rust.flood(seed, None);
    let long = whole.len() as u64;
    let shape = |f: Flood| (first_and_set(&f.cells), f.was_all);
    let expected = match sides.rust.nearby(seed) {
        Some(_) => Lookup::Found((first_and_set(&whole), true)),
        None => Lookup::NotFound,
    };
    let covers = rng.pick(&[long, long + 1, u64::MAX, 1024]);
    same("floods, as sets", answered(yard.flood(seed, None, covers))?.map(shape), expected)?;
    counts.asked("flood");
    let budget = rng.pick(&[long.saturating_sub(1), long / 2, 0, 1]);
    let cut = |f: Flood| (f.cells.len() as u64, f.was_all, f.cells.iter().all(|c| whole.contains(c)));
    let told = answered(yard.flood(seed, None, budget))?.map(cut);
    same("numbers of floods that a budget cuts", told, found(sides.rust.nearby(seed)).map(|_| (long.min(budget), long <= budget, true)))?;
    counts.asked("flood up to a budget");
    Ok(())
}

/// A cube by the Rust's own neighbours, and one of any radius by its occupied cells.
fn cube(sides: &Sides, yard: &Yard, centre: Cell, cells: &[Cell], rng: &mut Rng, counts: &mut Counts) -> Verdict {
    let radius = rng.below(4) as u8;
    let expected = Cube { centre: found(sides.rust.nearby(centre).map(|_| ())), cells: sides.rust.cube(centre, radius) };
    same("cubes", answered(yard.cube(centre, radius))?, expected)?;
    counts.asked("cube");
    let wide = rng.below(256) as u8;
    let close = |a: i32, b: i32| (i64::from(a) - i64::from(b)).abs() <= i64::from(wide);
    let within = |c: &&Cell| c.grid == centre.grid && close(c.x, centre.x) && close(c.y, centre.y) && close(c.z, centre.z);
    let mut all: Vec<Cell> = cells.iter().filter(within).copied().collect();
    if let Some(i) = all.iter().position(|c| *c == centre) {
        all[..=i].rotate_right(1);
    }
    same("wide cubes", answered(yard.cube(centre, wide))?.cells, all)?;
    counts.asked("wide cube");
    Ok(())
}

/// Refused questions: a state or a slice for the told words that is too short, a cell out of range, an answer that is too long. Each
/// leaves the answer's slice.
fn refusals(sides: &Sides, at: Cell, rng: &mut Rng, counts: &mut Counts) -> Verdict {
    let out = [Cell { x: FAR + 1, ..at }, Cell { y: -FAR - 1, ..at }, Cell { z: i32::MIN, ..at }];
    let mut answer = [9u64; 8];
    let mut told = [8u64; 3];
    let untold = calls::flood(&sides.words, at, None, 1, &mut answer, &mut told[..2]);
    same("refusals of a short slice for what is told", (untold, told), (1, [8; 3]))?;
    let short = calls::nearby(&sides.words[..STATE_LEN - 1], at, &mut answer, &mut told);
    same("refusals of a short state", (short, told), (1, [0; 3]))?;
    let axis = rng.below(3);
    let far = calls::cube(&sides.words, out[axis as usize], 1, &mut answer, &mut told);
    same("refusals of a cell out of range", (far, told), (4, [0, 0, axis]))?;
    let far = calls::path(&sides.words, at, out[axis as usize], &mut answer, &mut told);
    same("refusals of a second cell out of range", (far, told), (4, [0, 1, axis]))?;
    same("the answer's slice after a refusal", answer, [9; 8])?;
    let bad = Cell { z: i32::MIN, ..out[axis as usize] };
    let batch = Batch { removals: vec![0], moves: vec![(0, at), (1, bad), (2, rng.pick(&out))] };
    let mut words = sides.words.clone();
    let number = calls::update(&mut words, &batch.words(), 1, 3, &mut told);
    same("refusals of a batch with cells out of range", (number, told), (4, [0, 1, axis]))?;
    same("the words after a refusal", words, sides.words.clone())?;
    counts.asked("what is refused by 1 or 4");
    let whole = sides.rust.flood(at, None);
    if !whole.is_empty() {
        let words = 4 * whole.len() as u64;
        let mut answer = vec![9u64; words as usize - 1];
        let number = calls::flood(&sides.words, at, None, u64::MAX, &mut answer, &mut told);
        same("refusals of an answer that is too long", (number, told), (8, [0, words, 0]))?;
        same("the answer's slice after 8", answer.iter().all(|w| *w == 9), true)?;
        counts.asked("what is refused by 8");
    }
    Ok(())
}
