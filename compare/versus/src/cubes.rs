//! The time of a cube on a full yard, on both sides, beside a test of consistency.

use crate::rust_side::RustYard;
use capmarrow::{calls, Batch, Cell, Kind, MOST_CELLS, STATE_LEN};
use std::time::Instant;

/// A full yard of 32 rows of 32 cells, in one plane or in 32.
fn full(upright: bool) -> Vec<(u64, Cell)> {
    let cell = |i: u64| {
        let (x, row) = ((i % 32) as i32, (i / 32) as i32);
        if upright { Cell::new(1, x, 0, row) } else { Cell::new(1, x, row, 0) }
    };
    (0..MOST_CELLS as u64).map(|i| (i, cell(i))).collect()
}

/// The milliseconds of one call, the least of so many.
fn least(count: u64, mut call: impl FnMut()) -> f64 {
    let mut once = || {
        let started = Instant::now();
        call();
        started.elapsed().as_secs_f64() * 1e3
    };
    (0..count).map(|_| once()).fold(f64::INFINITY, f64::min)
}

/// Prints the milliseconds of a question that only tests consistency and searches, and of cubes of three radii.
pub fn cubes() {
    println!("milliseconds for a cube on a full yard, the least of twenty runs, of the Rust's at radius 255 of one: the port, the Rust");
    for (name, upright) in [("one plane", false), ("32 planes", true)] {
        let batch = Batch { removals: vec![], moves: full(upright) };
        let mut state = vec![0; STATE_LEN];
        calls::fresh(&mut state, 0, Kind::TwentySix.number(), &mut [0; 3]);
        assert_eq!(calls::update(&mut state, &batch.words(), 0, batch.moves.len() as u64, &mut [0; 3]), 0);
        let mut rust = RustYard::new(1);
        rust.run(&batch);
        let centre = batch.moves[MOST_CELLS / 2 + 16].1;
        let mut answer = vec![0; 4 * MOST_CELLS];
        let question = least(20, || assert_eq!(calls::where_is(&state, 0, &mut [0; 5]), 0));
        println!("{:<50} {question:>10.3}", format!("{name}: a test of consistency and one search"));
        for radius in [1, 16, 255] {
            let port = least(20, || assert_eq!(calls::cube(&state, centre, radius, &mut answer, &mut [0; 3]), 0));
            let runs = if radius == 255 { 1 } else { 20 };
            let other = least(runs, || assert!(rust.within(centre, radius) > 0));
            println!("{:<50} {port:>10.3} {other:>10.3}", format!("{name}: a cube of radius {radius}"));
        }
    }
}
