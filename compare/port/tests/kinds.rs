//! What touching means: by 6, 18 or 26 neighbours, as a yard chose it.

use capmarrow::{calls, Batch, Cell, Cube, Flood, Given, Kind, Lookup, Refusal, Yard, STATE_LEN};
use std::collections::{BTreeMap, BTreeSet};

/// The word of the kind by docs/STATE.md.
const KIND: usize = 7;
const CENTRE: Cell = Cell { grid: 1, z: 5, y: 5, x: 5 };

/// The 26 cells about the centre, each with the number of axes on which it differs.
fn around() -> Vec<(Cell, i32)> {
    let steps = (0..27).map(|k| (k % 3 - 1, k / 3 % 3 - 1, k / 9 - 1)).filter(|step| *step != (0, 0, 0));
    steps.map(|(x, y, z): (i32, i32, i32)| (Cell::new(1, 5 + x, 5 + y, 5 + z), x.abs() + y.abs() + z.abs())).collect()
}

/// On how many axes touching cells may differ.
fn axes(kind: Kind) -> i32 {
    match kind {
        Kind::Six => 1,
        Kind::Eighteen => 2,
        Kind::TwentySix => 3,
    }
}

fn yard(kind: Kind, cells: &[Cell]) -> Yard {
    let mut yard = Yard::fresh(0, kind).unwrap();
    yard.update(&Batch { removals: vec![], moves: (0..).zip(cells.iter().copied()).collect() }).unwrap();
    yard
}

#[test]
fn pairs_touch_by_the_kind() {
    for kind in Kind::ALL {
        assert_eq!(around().iter().filter(|(_, differ)| *differ <= axes(kind)).count() as u64, kind.number());
        for (other, differ) in around() {
            let yard = yard(kind, &[CENTRE, other]);
            let touching = differ <= axes(kind);
            let reached = if touching { vec![CENTRE, other] } else { vec![CENTRE] };
            assert_eq!(yard.kind(), Ok(kind));
            assert_eq!(yard.consistent(), Ok(()));
            assert_eq!(yard.id_of(CENTRE) == yard.id_of(other), touching, "{kind:?} {other:?}");
            assert_eq!(yard.ids().unwrap().len(), if touching { 1 } else { 2 });
            assert_eq!(yard.neighbour_count(CENTRE), Ok(Lookup::Found(u64::from(touching))));
            assert_eq!(yard.nearby(CENTRE), Ok(Lookup::Found(reached.clone())));
            assert_eq!(yard.flood(CENTRE, None, 9), Ok(Lookup::Found(Flood { cells: reached.clone(), was_all: true })));
            assert_eq!(yard.path(CENTRE, other), if touching { Ok(reached) } else { Err(Refusal::NoPath) });
            assert_eq!(yard.cube(CENTRE, 1), Ok(Cube { centre: Lookup::Found(()), cells: vec![CENTRE, other] }));
        }
    }
}

#[test]
fn another_kind_is_refused_by_13() {
    let mut told = [7; 4];
    let mut words = vec![7; STATE_LEN];
    for kind in [0, 1, 5, 7, 17, 19, 25, 27, 1 << 32 | 6, u64::MAX] {
        assert_eq!((calls::fresh(&mut words, 0, kind, &mut told), told), (13, [0, 0, 0, 7]));
        assert_eq!((calls::fresh(&mut words, u64::MAX, kind, &mut told), told), (13, [0, 0, 0, 7]));
        assert_eq!((calls::fresh(&mut words[1..], 0, kind, &mut told), told), (1, [0, 0, 0, 7]));
    }
    assert_eq!((calls::fresh(&mut words, u64::MAX, 6, &mut told), told), (5, [0, 0, 0, 7]));
    assert!(words == [7; STATE_LEN]);
    assert_eq!(Refusal::of(13, &told, Given::Nothing).unwrap_err().to_string(), "what touching means is not 6, 18 or 26");
}

#[test]
fn the_kind_is_told_in_words() {
    for kind in Kind::ALL {
        let mut told = [7; 4];
        let mut words = yard(kind, &[CENTRE]).words().to_vec();
        assert_eq!((words[KIND], Kind::of(words[KIND])), (kind.number(), Some(kind)));
        assert_eq!((calls::kind_of(&words, &mut told[..2]), told), (1, [7; 4]));
        assert_eq!((calls::kind_of(&words, &mut told), told), (0, [1, kind.number(), 7, 7]));
        assert_eq!((calls::kind_of(&words[1..], &mut told), told), (1, [0, 0, 0, 7]));
        words[KIND] = 7;
        assert_eq!((calls::kind_of(&words, &mut told), told), (2, [0, 9, 0, 7]));
        assert_eq!(Yard::of_words(words).kind(), Err(Refusal::Broken(9)));
    }
    assert_eq!(Kind::of(7), None);
}

#[test]
fn a_kind_changed_from_outside_is_seen() {
    let mut words = yard(Kind::TwentySix, &[CENTRE, Cell { x: 6, y: 6, ..CENTRE }]).words().to_vec();
    for (kind, found) in [(6, Err(Refusal::Broken(3))), (18, Ok(())), (26, Ok(())), (8, Err(Refusal::Broken(9)))] {
        words[KIND] = kind;
        assert_eq!(Yard::of_words(words.clone()).consistent(), found);
    }
}

/// Whether cells touch, by the coordinates alone.
fn touch(kind: Kind, a: Cell, b: Cell) -> bool {
    let apart = [a.x.abs_diff(b.x), a.y.abs_diff(b.y), a.z.abs_diff(b.z)];
    let differ = apart.iter().filter(|n| **n == 1).count() as i32;
    a.grid == b.grid && apart.iter().all(|n| *n <= 1) && (1..=axes(kind)).contains(&differ)
}

/// The cells that a path of touching cells joins with one of them.
fn part(kind: Kind, cells: &BTreeSet<Cell>, of: Cell) -> BTreeSet<Cell> {
    let mut part = vec![of];
    let mut left: BTreeSet<Cell> = cells.iter().copied().filter(|c| *c != of).collect();
    let mut at = 0;
    while at < part.len() {
        let from = part[at];
        part.extend(cells.iter().filter(|c| touch(kind, from, **c) && left.remove(c)));
        at += 1;
    }
    part.into_iter().collect()
}

/// Some moves in a small box of two grids, by a number that is stepped.
fn some_moves(seed: &mut u64) -> Batch {
    let mut below = |n: u64| {
        *seed = seed.wrapping_mul(6364136223846793005).wrapping_add(1442695040888963407);
        (*seed >> 33) % n
    };
    let mut step = |_| (below(24), Cell::new(1 + below(2), below(4) as i32, below(4) as i32, below(2) as i32));
    let moves = (0..5).map(&mut step).collect();
    Batch { removals: vec![below(24), below(24)], moves }
}

#[test]
fn groups_are_the_parts_by_the_kind() {
    for kind in Kind::ALL {
        let mut yard = Yard::fresh(0, kind).unwrap();
        let mut seed = kind.number();
        for _ in 0..60 {
            yard.update(&some_moves(&mut seed)).unwrap();
            let cells: BTreeSet<Cell> = (0..24).filter_map(|e| if let Lookup::Found(c) = yard.where_is(e).unwrap() { Some(c) } else { None }).collect();
            let ids: BTreeMap<Cell, Lookup<u64>> = cells.iter().map(|c| (*c, yard.id_of(*c).unwrap())).collect();
            for c in &cells {
                let same: BTreeSet<Cell> = cells.iter().copied().filter(|d| ids[d] == ids[c]).collect();
                assert_eq!(same, part(kind, &cells, *c));
                assert_eq!(yard.neighbour_count(*c), Ok(Lookup::Found(cells.iter().filter(|d| touch(kind, *c, **d)).count() as u64)));
            }
            assert_eq!((yard.kind(), yard.consistent()), (Ok(kind), Ok(())));
        }
    }
}
