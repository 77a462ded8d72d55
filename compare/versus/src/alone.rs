//! The time of the port's calls by themselves, on yards of several shapes and sizes.

use capmarrow::{calls, Batch, Cell, Kind, STATE_LEN};
use std::time::Instant;

/// An entity that stands alone in a cell far from the others.
const WALKER: u64 = 1_000_000;

/// The cells of a shape, by their number.
type Shape = fn(u64) -> Cell;

fn line(i: u64) -> Cell {
    Cell::new(1, i as i32, 0, 0)
}

fn block(i: u64) -> Cell {
    Cell::new(1, (i % 8) as i32, (i / 8 % 8) as i32, (i / 64) as i32)
}

fn apart(i: u64) -> Cell {
    Cell::new(1, 3 * i as i32, 0, 0)
}

fn update(state: &mut [u64], moves: Vec<(u64, Cell)>) {
    let batch = Batch { removals: vec![], moves };
    let number = calls::update(state, &batch.words(), 0, batch.moves.len() as u64, &mut [0; 3]);
    assert_eq!(number, 0, "a batch is refused");
}

/// A state of so many cells, the walker's among them, with so many entities in each of the others.
fn filled(shape: Shape, cells: u64, each: u64) -> Vec<u64> {
    let mut state = vec![0; STATE_LEN];
    calls::fresh(&mut state, 0, Kind::TwentySix.number(), &mut [0; 3]);
    for k in 0..each {
        update(&mut state, (0..cells - 1).map(|i| (k * cells + i, shape(i))).collect());
    }
    update(&mut state, vec![(WALKER, Cell::new(1, -9, 0, 0))]);
    state
}

/// The milliseconds of one call, the least of five runs of so many.
fn least(count: u64, mut call: impl FnMut(u64)) -> f64 {
    let run = |call: &mut dyn FnMut(u64)| {
        let started = Instant::now();
        (0..count).for_each(&mut *call);
        started.elapsed().as_secs_f64() * 1e3 / count as f64
    };
    (0..5).map(|_| run(&mut call)).fold(f64::INFINITY, f64::min)
}

/// A question, which is a test of consistency and one search.
fn question(shape: Shape, cells: u64) -> f64 {
    let state = filled(shape, cells, 4);
    least(20, |_| assert_eq!(calls::where_is(&state, WALKER, &mut [0; 5]), 0))
}

/// One event between two occupied cells.
fn step(shape: Shape, cells: u64) -> f64 {
    let mut state = filled(shape, cells, 4);
    least(20, |k| update(&mut state, vec![(0, shape(k % 2))]))
}

/// One event that empties a cell and opens another.
fn walk(shape: Shape, cells: u64) -> f64 {
    let mut state = filled(shape, cells, 4);
    least(20, |k| update(&mut state, vec![(WALKER, Cell::new(1, -9 - 5 * (k % 2) as i32, 0, 0))]))
}

/// 1,024 events among occupied cells.
fn shuffle(shape: Shape, cells: u64) -> f64 {
    let mut state = filled(shape, cells, 4);
    least(10, |k| update(&mut state, (0..1024).map(|i| (i % (cells - 1), shape((i + k) % (cells - 1)))).collect()))
}

/// Every cell but the walker's is emptied and another one opened, an event for each.
fn travel(shape: Shape, cells: u64) -> f64 {
    let mut state = filled(shape, cells, 1);
    let to = |cell: Cell, k: u64| Cell::new(cell.grid, cell.x + 100_000 * (k % 2) as i32, cell.y, cell.z);
    least(10, |k| update(&mut state, (0..cells - 1).map(|i| (i, to(shape(i), k + 1))).collect()))
}

/// Prints the milliseconds of each call: for a line of cells, a block, and cells apart.
pub fn alone() {
    println!("milliseconds for a call of the port, the least of five runs: a line of cells, a block, cells apart");
    let calls: [(&str, fn(Shape, u64) -> f64); 5] = [
        ("a question", question),
        ("one event between occupied cells", step),
        ("one event that empties a cell and opens another", walk),
        ("1,024 events among occupied cells", shuffle),
        ("every cell emptied and another opened", travel),
    ];
    for (name, call) in calls {
        for cells in [64, 128, 256, 512, 1024] {
            let [a, b, c] = [line as Shape, block, apart].map(|shape| call(shape, cells));
            println!("{name:<50} {cells:>5} cells {a:>8.2} {b:>8.2} {c:>8.2}");
        }
    }
}
