//! What is said of each refusal, as a call gives it.

use capmarrow::{calls, Answer, Batch, Cell, Given, Kind, Refusal, Yard, FAR, MOST_CELLS, MOST_ENTITIES, STATE_LEN};

/// Words of a state by docs/STATE.md: the header's number of newly emptied cells, its next id and its kind, and where each table starts.
const EMPTIED_COUNT: usize = 3;
const NEXT_ID: usize = 6;
const KIND: usize = 7;
const ENTITIES: usize = 16;
const CELLS: usize = 20_496;
const EMPTIED: usize = 29_712;
const IDS: usize = 33_808;
const GROUPS: usize = 38_928;
/// Zero as a stored coordinate.
const ZERO: u64 = 1 << 31;

fn moves(cells: impl IntoIterator<Item = Cell>) -> Batch {
    Batch { removals: vec![], moves: (0..).zip(cells).collect() }
}

fn along(x: i32) -> Cell {
    Cell::new(1, x, 0, 0)
}

/// Two joined cells with id 0 and one apart with id 1.
fn yard() -> Yard {
    let mut yard = Yard::fresh(0, Kind::TwentySix).unwrap();
    yard.update(&moves([along(0), along(1), along(5)])).unwrap();
    yard
}

/// The yard with some words changed.
fn changed(changes: &[(usize, u64)]) -> Yard {
    let mut words = yard().words().to_vec();
    for (at, word) in changes {
        words[*at] = *word;
    }
    Yard::of_words(words)
}

fn said<T: std::fmt::Debug>(answer: Answer<T>) -> String {
    answer.unwrap_err().to_string()
}

#[test]
fn too_short_is_said() {
    let short = Yard::of_words(vec![0; STATE_LEN - 1]);
    assert_eq!(said(short.consistent()), "the state or the batch is too short");
    assert_eq!(said(short.where_is(1)), "the state or the batch is too short");
}

#[test]
fn the_first_broken_point_is_said() {
    let emptied = |x: u64| [(EMPTIED_COUNT, 1), (EMPTIED, 1), (EMPTIED + 1, ZERO), (EMPTIED + 2, ZERO), (EMPTIED + 3, ZERO + x)];
    let points: [(&[(usize, u64)], &str); 9] = [
        (&[(KIND, 0)], "9: what touching means is 6, 18 or 26"),
        (&[(ENTITIES + 5, 0)], "1: entities distinct, they and the occupied cells within number"),
        (&[(IDS + 13, ZERO + 6)], "2: the cells with an id, each held once, are exactly those an entity stands in"),
        (&[(CELLS + 4, 0)], "3: the mask has exactly the bits of touching occupied cells"),
        (&[(IDS + 9, 1)], "4: ids shared exactly by joined cells"),
        (&[(GROUPS + 2, 3)], "5: one group record for each id that a cell has and no other, its grid, corners and counts exact"),
        (&[(NEXT_ID, 1)], "6: every id below the next id"),
        (&emptied(FAR as u64 + 1), "7: coordinates in range"),
        (&emptied(0), "8: net lists strictly ascending, at most 1,024 cells each, the first occupied, the second not"),
    ];
    for (changes, point) in points {
        let mut broken = changed(changes);
        let sentence = format!("the state is broken at point {point}");
        assert_eq!(said(broken.consistent()), sentence);
        assert_eq!(said(broken.ids()), sentence);
        assert_eq!(said(broken.update(&Batch::default())), sentence);
    }
    assert_eq!(said(changed(&[(NEXT_ID, 1), (GROUPS + 2, 3)]).group(0)), Refusal::Broken(5).to_string());
    assert_eq!(said(changed(&[(KIND, 27), (ENTITIES + 5, 0)]).group(0)), Refusal::Broken(9).to_string());
    assert_eq!(said(changed(&[(GROUPS + 3, 1)]).consistent()), Refusal::Broken(5).to_string());
    assert_eq!(yard().consistent(), Ok(()));
}

#[test]
fn the_first_bad_coordinate_is_said() {
    let mut batch = moves((0..20).map(along));
    batch.removals = vec![1, 2];
    (batch.moves[17].1.y, batch.moves[17].1.z) = (FAR + 1, i32::MIN);
    batch.moves[18].1.x = -FAR - 1;
    assert_eq!(said(yard().update(&batch)), "move 17: y is 1000000001, outside -1000000000 to 1000000000");
    let far = Cell::new(1, 0, 0, -FAR - 1);
    assert_eq!(said(yard().id_of(far)), "cell: z is -1000000001, outside -1000000000 to 1000000000");
    assert_eq!(said(yard().cube(Cell { x: i32::MAX, ..far }, 1)), "cell: x is 2147483647, outside -1000000000 to 1000000000");
    assert_eq!(said(yard().path(along(0), far)), "second cell: z is -1000000001, outside -1000000000 to 1000000000");
    assert_eq!(said(yard().path(far, far)), "cell: z is -1000000001, outside -1000000000 to 1000000000");
}

#[test]
fn limits_are_said() {
    let removals = Batch { removals: vec![7; 1025], moves: vec![] };
    assert_eq!(said(yard().update(&removals)), "the batch has more than 1,024 events");
    assert_eq!(said(Yard::fresh(u64::MAX, Kind::TwentySix).map(|_| ())), "fewer than 2,048 ids are left");
    let mut crowd = Yard::fresh(0, Kind::TwentySix).unwrap();
    for k in 0..MOST_ENTITIES as u64 / 1024 {
        crowd.update(&Batch { removals: vec![], moves: (0..1024).map(|i| (1024 * k + i, along(0))).collect() }).unwrap();
    }
    let one_more = Batch { removals: vec![], moves: vec![(MOST_ENTITIES as u64, along(0))] };
    assert_eq!(said(crowd.update(&one_more)), "an event would leave more than 4,096 entities");
    let mut full = Yard::fresh(0, Kind::TwentySix).unwrap();
    full.update(&moves((0..MOST_CELLS as i32).map(along))).unwrap();
    let one_more = Batch { removals: vec![], moves: vec![(MOST_CELLS as u64, along(-1))] };
    assert_eq!(said(full.update(&one_more)), "an event would leave more than 1,024 occupied cells");
}

#[test]
fn other_refusals_are_said() {
    assert_eq!(said(yard().path(along(0), along(5))), "no path of touching occupied cells leads from the one cell to the other");
    let mut told = [0; 3];
    let number = calls::newly_occupied(yard().words(), &mut [0; 11], &mut told);
    assert_eq!(said(Refusal::of(number, &told, Given::Nothing)), "the answer needs 12 words, more than its slice has");
}

#[test]
fn what_no_call_gives_is_unknown() {
    let cells = [along(0)];
    assert_eq!(Refusal::of(0, &[], Given::Nothing), Ok(()));
    assert_eq!(said(Refusal::of(99, &[0; 3], Given::Nothing)), "refused by number 99 in a way that this wrapper does not know");
    for (told, given) in [([0, 1, 0], Given::Cells(&cells)), ([0, 0, 3], Given::Cells(&cells)), ([0; 3], Given::Nothing)] {
        assert_eq!(Refusal::of(4, &told, given), Err(Refusal::Unknown(4)));
    }
    assert_eq!(said(Refusal::of(2, &[0, 10, 0], Given::Nothing)), "the state is broken at point 10: a point that the scope does not have");
    assert_eq!([1, 2, 3, 5, 6, 7, 8, 12, 13, 99].map(|n| Refusal::of(n, &[0; 3], Given::Nothing).unwrap_err().number()), [1, 2, 3, 5, 6, 7, 8, 12, 13, 99]);
}

#[test]
fn places_are_told_in_words() {
    let mut told = [7; 4];
    let mut words = vec![0; STATE_LEN];
    assert_eq!((calls::fresh(&mut words, 0, 26, &mut told), told), (0, [0, 0, 0, 7]));
    let batch = moves([along(0), Cell { y: FAR + 1, ..along(0) }]).words();
    assert_eq!((calls::update(&mut words, &batch, 0, 2, &mut told), told), (4, [0, 1, 1, 7]));
    assert_eq!((calls::update(&mut words, &batch, 0, 1, &mut told), told), (0, [0, 0, 0, 7]));
    assert_eq!((calls::ids(&words, &mut [], &mut told), told), (8, [0, 1, 0, 7]));
    words[NEXT_ID] = 0;
    assert_eq!((calls::consistent(&words, &mut told), told), (2, [0, 6, 0, 7]));
    assert_eq!((calls::ids(&words, &mut [], &mut told), told), (2, [0, 6, 0, 7]));
    let before = words.clone();
    assert_eq!((calls::fresh(&mut words, 0, 26, &mut told[..2]), told), (1, [0, 6, 0, 7]));
    assert_eq!((calls::update(&mut words, &batch, 0, 1, &mut told[..2]), told), (1, [0, 6, 0, 7]));
    assert!(words == before);
    assert_eq!((calls::fresh(&mut words, u64::MAX, 26, &mut told), told), (5, [0, 0, 0, 7]));
}
