//! The Rust's answers for some scripts, written as rows of crate `cases`, so that the port can be held against them where there is no
//! Rust: `versus record SEED > crates/cases/data/recorded.txt`. Nothing of the port is asked here, but whether a batch is refused.
//!
//! The Rust gives touching cells and floods in orders of its own: they are written in cell order, the cell that is asked about first
//! (`nearby`), or the word `sorted` is added (`flood`). Floods that a depth or a budget cuts are not written. Where the ids of both sides
//! can no longer be told from each other, it is written which cells share one (`share`), and how many there are (`ids` with no room).

use crate::compare::KIND;
use crate::offer::Offer;
use crate::rng::Rng;
use crate::rust_side::RustYard;
use crate::scripts::{Kind, Plan};
use capmarrow::{Cell, Group};
use std::collections::BTreeMap;

fn place(c: Cell) -> String {
    format!("{} {} {} {}", c.grid, c.x, c.y, c.z)
}

/// The items of a list, `..` for those within a run of three or more, each one more than the one before.
fn items<T: Copy>(all: &[T], told: impl Fn(T) -> String, is_next: impl Fn(T, T) -> bool) -> String {
    let follows = |i: usize| i > 0 && i < all.len() && is_next(all[i - 1], all[i]);
    let mut text = String::new();
    for (i, item) in all.iter().enumerate() {
        if follows(i) && follows(i + 1) {
            continue;
        }
        let between = if i == 0 {
            ""
        } else if follows(i) && follows(i - 1) {
            " .."
        } else {
            ","
        };
        text += &format!("{between} {}", told(*item));
    }
    text
}

/// A list of cells as an answer has it: how many, and the cells.
fn cells(all: &[Cell]) -> String {
    let is_next = |a: Cell, b: Cell| (a.grid, a.x + 1, a.y, a.z) == (b.grid, b.x, b.y, b.z);
    format!("{}:{}", all.len(), items(all, place, is_next))
}

/// The same of numbers.
fn numbers(all: &[u64]) -> String {
    format!("{}:{}", all.len(), items(all, |n| n.to_string(), |a, b| a.checked_add(1) == Some(b)))
}

fn found(is_found: bool) -> &'static str {
    if is_found {
        "found"
    } else {
        "not found"
    }
}

/// The scripts that are recorded, a few of each kind that needs little space.
const KINDS: [(Kind, usize); 8] = [
    (Kind::Dense, 5),
    (Kind::Line, 2),
    (Kind::Swaps, 3),
    (Kind::Crowd, 1),
    (Kind::Comb, 1),
    (Kind::Steps, 2),
    (Kind::Cuts, 1),
    (Kind::Damaged, 2),
];

pub fn record(seed: u64) -> String {
    let mut rng = Rng::new(seed);
    let mut text = String::from("% Answers of the Rust, as `versus record` wrote them.\n");
    for (kind, times) in KINDS {
        for k in 1..=times {
            let plan = Plan::of(kind, &mut rng);
            text += &format!("\n# Recorded: {} {k}\n", kind.name());
            text += &script(&plan, &mut rng);
        }
    }
    text
}

fn script(plan: &Plan, rng: &mut Rng) -> String {
    let mut text = format!("fresh {} kind {} = code 0\n", plan.first_id, KIND.number());
    let mut yard = RustYard::new(rng.next());
    let mut ids = true;
    for k in 0..plan.batches.min(24) {
        let offer = plan.offer(k, &yard, rng);
        // 5 is the only refusal that goes by ids, so such yards stop where ids can no longer be told.
        let number = yard.number(&offer, plan.first_id + yard.next_id());
        if plan.first_id != 0 && !ids {
            break;
        }
        let (at, axis) = offer.place();
        let place = if number == 4 { format!(" at {at} axis {axis}") } else { String::new() };
        text += &format!("{}update = code {number}{place}\n", events(&offer));
        if number == 0 {
            ids &= yard.update(&offer.batch()).leaves_ids_comparable();
            text += &shown(&yard, ids.then_some(plan.first_id), rng);
        }
    }
    text
}

/// The events of an offer, and what the call is told of them and lent where that is something else. A move that lacks words is filled up.
fn events(offer: &Offer) -> String {
    let needed = offer.removals.saturating_add(offer.moves.saturating_mul(5)).min(offer.words.len() as u64);
    let words = &offer.words[..needed as usize];
    let (removals, moves) = words.split_at(offer.removals.min(needed) as usize);
    let mut text: String = removals.iter().map(|e| format!("remove {e}\n")).collect();
    for m in moves.chunks(5) {
        let mut whole = [0; 5];
        whole[..m.len()].copy_from_slice(m);
        let [entity, grid, x, y, z] = whole;
        text += &format!("move {entity} {grid} {} {} {}\n", x as i64, y as i64, z as i64);
    }
    if (removals.len() as u64, moves.chunks(5).len() as u64) != (offer.removals, offer.moves) {
        text += &format!("told {} {}\n", offer.removals, offer.moves);
    }
    if moves.len() % 5 != 0 {
        text += &format!("batch {}\n", words.len());
    }
    text
}

/// All that is told of a yard; the first id where ids are.
fn shown(yard: &RustYard, first_id: Option<u64>, rng: &mut Rng) -> String {
    let lists = yard.lists();
    let mut text = String::new();
    for (c, list) in &lists {
        let mut near = list.clone();
        near.sort_unstable();
        near.insert(0, *c);
        text += &format!("nearby {} = found {}\n", place(*c), cells(&near));
    }
    text += &grouped(yard, lists.keys().copied(), first_id);
    text += &format!("occupied = found {}\n", cells(&yard.newly_occupied()));
    text += &format!("emptied = found {}\n", cells(&yard.newly_emptied()));
    let all: Vec<Cell> = lists.into_keys().collect();
    text + &asked(yard, &all, rng)
}

/// The ids of cells, or which of them share one; and the groups as they come up.
fn grouped(yard: &RustYard, all: impl Iterator<Item = Cell>, first_id: Option<u64>) -> String {
    let ids = yard.ids();
    let (groups, _) = yard.groups();
    let mut firsts: BTreeMap<u64, Cell> = BTreeMap::new();
    let mut names: Vec<u64> = Vec::new();
    let mut text = String::new();
    for c in all {
        let id = ids[&c];
        let first = *firsts.entry(id).or_insert_with(|| {
            names.push(id);
            c
        });
        match first_id {
            Some(from) => text += &format!("id {} = found {}\n", place(c), from + id),
            None if first != c => text += &format!("share {} to {} = yes\n", place(first), place(c)),
            None => {}
        }
    }
    for id in &names {
        let asked = first_id.map_or_else(|| format!("of {}", place(firsts[id])), |from| (from + id).to_string());
        text += &format!("group {asked} = found {}\n", record_of(&groups[id]));
    }
    match first_id {
        Some(from) => {
            names.sort_unstable();
            let told: Vec<u64> = names.iter().map(|id| from + id).collect();
            text + &format!("ids = found {}\n", numbers(&told))
        }
        None if names.is_empty() => text + "ids = found 0:\n",
        None => text + &format!("room 0\nids = too long {}\nroom 4096\n", names.len()),
    }
}

/// Grid, counts of cells and entities, and corners of a group.
fn record_of(group: &Group) -> String {
    let [low, high] = group.corners.map(|[x, y, z]| format!("{x} {y} {z}"));
    format!("{} {} {} from {low} to {high}", group.grid, group.count, group.entities)
}

/// A flood, a cube, a cell and an entity.
fn asked(yard: &RustYard, all: &[Cell], rng: &mut Rng) -> String {
    let any = if all.is_empty() { Cell::new(1, 0, 0, 0) } else { rng.pick(all) };
    let seed = if rng.once_in(6) { Cell { grid: any.grid + 9, ..any } } else { any };
    let depth = rng.once_in(2).then(|| rng.from(-1, 4));
    let mut flood = yard.flood(seed, depth);
    let budget = rng.below(flood.len() as u64 + 3);
    let mut text = String::new();
    if depth.is_none() && flood.len() as u64 <= budget {
        flood.sort_unstable();
        let (is, told) = (found(all.contains(&seed)), cells(&flood));
        text += &format!("flood {} budget {budget} sorted = {is} {}\n", place(seed), told.replacen(':', " all:", 1));
    }
    let is = found(all.contains(&any));
    let radius = rng.below(4) as u8;
    text += &format!("cube {} radius {radius} = {is} {}\n", place(any), cells(&yard.cube(any, radius)));
    let inside = yard.entities_in(any).unwrap_or_default();
    text += &format!("entities {} = {is} {}\n", place(any), numbers(&inside));
    match inside.first() {
        Some(entity) => text + &format!("where {entity} = found {}\n", place(any)),
        None => text + &format!("where {} = not found\n", u64::MAX),
    }
}
