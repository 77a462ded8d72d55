//! Paths between cells: the Rust has no such call, so each is held against a plain search over the Rust's own neighbours.

use crate::compare::{same, Sides, Verdict};
use crate::counts::Counts;
use capmarrow::{Answer, Cell, Refusal, Yard};
use std::collections::{BTreeMap, VecDeque};

/// The fewest steps to a cell, from each cell that is joined to it.
fn steps_to(sides: &Sides, to: Cell) -> BTreeMap<Cell, usize> {
    let mut steps = BTreeMap::new();
    let mut queue = VecDeque::new();
    if sides.rust.nearby(to).is_some() {
        steps.insert(to, 0);
        queue.push_back(to);
    }
    while let Some(at) = queue.pop_front() {
        let more = steps[&at] + 1;
        for next in sides.rust.nearby(at).unwrap_or_default() {
            steps.entry(next).or_insert_with(|| {
                queue.push_back(next);
                more
            });
        }
    }
    steps
}

/// Of the shortest paths the first in cell order: from each cell the least that is one step nearer.
fn searched(sides: &Sides, from: Cell, to: Cell) -> Answer<Vec<Cell>> {
    let steps = steps_to(sides, to);
    let far = *steps.get(&from).ok_or(Refusal::NoPath)?;
    let mut path = vec![from];
    for left in (0..far).rev() {
        let around = sides.rust.nearby(path[path.len() - 1]).unwrap_or_default();
        path.push(around.into_iter().filter(|c| steps.get(c) == Some(&left)).min().expect("a nearer cell"));
    }
    Ok(path)
}

/// The path from one cell to another, and back.
pub fn ask(sides: &Sides, yard: &Yard, from: Cell, to: Cell, counts: &mut Counts) -> Verdict {
    same("paths", yard.path(from, to), searched(sides, from, to))?;
    same("paths back", yard.path(to, from), searched(sides, to, from))?;
    counts.asked("path");
    Ok(())
}
