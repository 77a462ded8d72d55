//! The time of a batch on both sides, on the same scripts: the port's update against the Rust's events and partition update; and the
//! port's by what touching means.

use crate::rust_side::RustYard;
use capmarrow::{calls, Batch, Cell, Kind, MOST_CELLS, STATE_LEN};
use std::time::{Duration, Instant};

/// A script whose first batches are not timed.
struct Race {
    name: &'static str,
    first: Vec<Batch>,
    timed: Vec<Batch>,
}

fn moves(moves: impl IntoIterator<Item = (u64, Cell)>) -> Batch {
    Batch { removals: vec![], moves: moves.into_iter().collect() }
}

/// Cells of a square block, row by row.
fn block(i: u64) -> Cell {
    Cell::new(1, (i % 32) as i32, (i / 32) as i32, 0)
}

/// Cells of a comb: a spine along x, and on every second cell of it a tooth of 15 along y.
fn comb(i: u64) -> Cell {
    let (tooth, j) = ((i / 17) as i32, (i % 17) as i32);
    match j {
        0 => Cell::new(1, 2 * tooth, 0, 0),
        16 => Cell::new(1, 2 * tooth + 1, 0, 0),
        _ => Cell::new(1, 2 * tooth, j, 0),
    }
}

fn line(i: u64) -> Cell {
    Cell::new(1, i as i32, 0, 0)
}

fn races() -> Vec<Race> {
    let all = MOST_CELLS as u64;
    let full = moves((0..all).map(|i| (i, block(i))));
    let churned = |k: u64| moves((0..200).map(|i| ((i * 7 + k * 13) % 600, block((i * 11 + k * 29) % 900))));
    let crowded = |k: u64| moves((0..1000).map(|i| ((i + 1000 * k) % 4000, block((i + k) % 9))));
    let spine = |k: u64| if k % 2 == 0 { Batch { removals: vec![17 * 29 + 16], moves: vec![] } } else { moves([(17 * 29 + 16, comb(17 * 29 + 16))]) };
    let cut = |k: u64| if k % 2 == 0 { Batch { removals: vec![500], moves: vec![] } } else { moves([(500, line(500))]) };
    let one = |k: u64| moves([(all + 5, block(k % all))]);
    vec![
        Race { name: "fill: 1,024 cells in one batch", first: vec![], timed: vec![full.clone()] },
        Race { name: "churn: 200 moves a batch among 900 cells", first: vec![], timed: (0..10).map(churned).collect() },
        Race { name: "crowd: 1,000 moves a batch among 9 cells", first: vec![], timed: (0..6).map(crowded).collect() },
        Race { name: "comb of 1,024 cells, its spine cut and rejoined", first: vec![moves((0..all).map(|i| (i, comb(i))))], timed: (0..10).map(spine).collect() },
        Race { name: "one event on a full yard", first: vec![full], timed: (0..10).map(one).collect() },
        Race { name: "line of 1,024 cells, cut and rejoined", first: vec![moves((0..all).map(|i| (i, line(i))))], timed: (0..10).map(cut).collect() },
    ]
}

/// The time of the timed batches, once, by what runs a batch.
fn once(race: &Race, mut run: impl FnMut(&Batch)) -> Duration {
    race.first.iter().for_each(&mut run);
    let started = Instant::now();
    race.timed.iter().for_each(&mut run);
    started.elapsed()
}

/// The time of the port, once.
fn port(race: &Race, kind: Kind) -> Duration {
    let mut words = vec![0; STATE_LEN];
    calls::fresh(&mut words, 0, kind.number(), &mut [0; 3]);
    once(race, |batch| {
        let number = calls::update(&mut words, &batch.words(), batch.removals.len() as u64, batch.moves.len() as u64, &mut [0; 3]);
        assert_eq!(number, 0, "{} is refused", race.name);
    })
}

/// The time of the Rust, once.
fn rust(race: &Race) -> Duration {
    let mut yard = RustYard::new(1);
    once(race, |batch| yard.run(batch))
}

/// The microseconds of a batch, of each of some sides the least of five runs in turn.
fn least<const N: usize>(race: &Race, sides: [&dyn Fn(&Race) -> Duration; N]) -> [f64; N] {
    let mut least = [f64::INFINITY; N];
    for _ in 0..5 {
        for (least, side) in least.iter_mut().zip(sides) {
            *least = least.min(side(race).as_secs_f64() * 1e6 / race.timed.len() as f64);
        }
    }
    least
}

/// Prints the microseconds of a batch on both sides, and the ratio.
pub fn speed() {
    println!("microseconds for a batch, the least of five runs: the port, the Rust, and how many times the Rust's the port's is");
    for race in races() {
        let [ours, theirs] = least(&race, [&|race| port(race, Kind::TwentySix), &rust]);
        println!("{:<50} {ours:>10.1} {theirs:>10.1} {:>8.2}", race.name, ours / theirs);
    }
}

/// Prints the microseconds of a batch of the port by what touching means, and the ratio of 6 to 26.
pub fn kinds() {
    println!("microseconds for a batch of the port, the least of five runs: touching by 26, by 18, by 6, and how many times 26's 6's is");
    for race in races() {
        let by = |kind| move |race: &Race| port(race, kind);
        let [by_26, by_18, by_6] = least(&race, [&by(Kind::TwentySix), &by(Kind::Eighteen), &by(Kind::Six)]);
        println!("{:<50} {by_26:>10.1} {by_18:>10.1} {by_6:>10.1} {:>8.2}", race.name, by_6 / by_26);
    }
}
