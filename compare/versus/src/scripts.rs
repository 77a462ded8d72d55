//! Kinds of random scripts. Each batch is made from the yard as the Rust has it, so that moves meet cells that are there.

use crate::offer::Offer;
use crate::questions::Asking;
use crate::rng::Rng;
use crate::rust_side::RustYard;
use capmarrow::{Batch, Cell, FAR, MOST_CELLS, MOST_ENTITIES, MOST_EVENTS};

/// What a script is like.
#[derive(Debug, Clone, Copy, PartialEq)]
pub enum Kind {
    /// Many events in a tiny yard of one to three grids.
    Dense,
    /// A long line, cut and joined again.
    Line,
    /// Entities trade cells; cells are emptied and refilled in one batch.
    Swaps,
    /// Many entities in few cells.
    Crowd,
    /// A comb: a spine with teeth, of which the spine is cut.
    Comb,
    /// One change a batch, such that ids stay comparable.
    Steps,
    /// The same along a line of which unequal ends are cut off.
    Cuts,
    /// Batches at and past each limit.
    Limits,
    /// Few events on a yard with all its cells occupied.
    Full,
    /// Offers that are damaged among others that are not.
    Damaged,
}

impl Kind {
    pub const ALL: [Kind; 10] = [
        Kind::Dense,
        Kind::Line,
        Kind::Swaps,
        Kind::Crowd,
        Kind::Comb,
        Kind::Steps,
        Kind::Cuts,
        Kind::Limits,
        Kind::Full,
        Kind::Damaged,
    ];

    pub fn named(name: &str) -> Option<Self> {
        Kind::ALL.into_iter().find(|kind| kind.name() == name)
    }

    pub fn name(self) -> &'static str {
        match self {
            Kind::Dense => "dense",
            Kind::Line => "line",
            Kind::Swaps => "swaps",
            Kind::Crowd => "crowd",
            Kind::Comb => "comb",
            Kind::Steps => "steps",
            Kind::Cuts => "cuts",
            Kind::Limits => "limits",
            Kind::Full => "full",
            Kind::Damaged => "damaged",
        }
    }

    fn any(rng: &mut Rng) -> Self {
        match rng.below(200) {
            0 => Kind::Limits,
            1 => Kind::Full,
            2..=60 => Kind::Dense,
            61..=80 => Kind::Line,
            81..=105 => Kind::Swaps,
            106..=115 => Kind::Crowd,
            116..=130 => Kind::Comb,
            131..=165 => Kind::Steps,
            166..=180 => Kind::Cuts,
            _ => Kind::Damaged,
        }
    }
}

/// The measures of one script.
#[derive(Debug, Clone)]
pub struct Plan {
    pub kind: Kind,
    pub batches: usize,
    pub first_id: u64,
    grids: u64,
    entities: u64,
    side: i32,
    tall: i32,
    pub corner: Cell,
}

impl Plan {
    pub fn any(rng: &mut Rng) -> Self {
        let kind = Kind::any(rng);
        Plan::of(kind, rng)
    }

    pub fn of(kind: Kind, rng: &mut Rng) -> Self {
        let batches = match kind {
            Kind::Limits => 8,
            Kind::Full => 12,
            Kind::Steps | Kind::Cuts => 20 + rng.below(120) as usize,
            _ => 4 + rng.below(28) as usize,
        };
        let first_id = match rng.below(12) {
            0 => rng.next() >> 1,
            1 if !matches!(kind, Kind::Limits | Kind::Full) => u64::MAX - 2048 - rng.below(12),
            _ => 0,
        };
        let mut edge = || match rng.below(6) {
            0 => FAR - rng.below(6) as i32,
            1 => -FAR,
            2 => -1,
            _ => rng.from(-3, 3),
        };
        let corner = Cell::new(0, edge(), edge(), edge());
        let (grids, entities, side) = (1 + rng.below(3), 2 + rng.below(40), 2 + rng.below(5) as i32);
        Plan { kind, batches, first_id, grids, entities, side, tall: rng.pick(&[1, 1, 2, 3]), corner }
    }

    pub fn asking(&self) -> Asking {
        match self.kind {
            Kind::Limits | Kind::Full => Asking::Few,
            _ => Asking::Some,
        }
    }

    /// The k-th batch for a yard.
    pub fn offer(&self, k: usize, yard: &RustYard, rng: &mut Rng) -> Offer {
        match self.kind {
            Kind::Damaged => self.damaged(yard, rng),
            _ => Offer::of(&self.batch(k, yard, rng)),
        }
    }

    fn batch(&self, k: usize, yard: &RustYard, rng: &mut Rng) -> Batch {
        match self.kind {
            Kind::Dense | Kind::Damaged => self.dense(rng),
            Kind::Line => self.line(k, rng),
            Kind::Swaps => self.swaps(yard, rng),
            Kind::Crowd => self.crowd(rng),
            Kind::Comb => self.comb(k, rng),
            Kind::Steps => self.comparable(yard, rng, Plan::step),
            Kind::Cuts => self.cut(k, yard, rng),
            Kind::Limits => self.limits(k, rng),
            Kind::Full => self.full(k, yard, rng),
        }
    }

    /// A cell of the yard by its steps from the corner, kept in range.
    fn at(&self, grid: u64, x: i32, y: i32, z: i32) -> Cell {
        let axis = |from: i32, step: i32| if from > FAR - 64 { from - step } else { from + step };
        Cell::new(grid, axis(self.corner.x, x), axis(self.corner.y, y), axis(self.corner.z, z))
    }

    fn spot(&self, rng: &mut Rng) -> Cell {
        let grid = 1 + rng.below(self.grids);
        self.at(grid, rng.from(0, self.side - 1), rng.from(0, self.side - 1), rng.from(0, self.tall - 1))
    }

    fn dense(&self, rng: &mut Rng) -> Batch {
        let removals = (0..rng.below(6)).map(|_| rng.below(self.entities)).collect();
        let moves = (0..rng.below(10)).map(|_| (rng.below(self.entities), self.spot(rng))).collect();
        Batch { removals, moves }
    }

    fn line(&self, k: usize, rng: &mut Rng) -> Batch {
        let long = 4 + self.entities % 24;
        let place = |i: u64| self.at(1, i as i32, 0, 0);
        if k == 0 {
            return Batch { removals: vec![], moves: (0..long).map(|i| (i, place(i))).collect() };
        }
        let mut batch = Batch::default();
        for _ in 0..=rng.below(3) {
            let i = rng.below(long);
            if rng.once_in(2) {
                batch.removals.push(i);
            } else {
                batch.moves.push((i, place(i)));
            }
        }
        batch
    }

    fn swaps(&self, yard: &RustYard, rng: &mut Rng) -> Batch {
        let held: Vec<(u64, Cell)> = yard.entities().into_iter().collect();
        if held.len() < 2 || rng.once_in(4) {
            return self.dense(rng);
        }
        let mut batch = Batch::default();
        for _ in 0..=rng.below(4) {
            let ((e, c), (f, d)) = (rng.pick(&held), rng.pick(&held));
            match rng.below(4) {
                0 => batch.moves.extend([(e, d), (f, c)]),
                1 => batch.moves.extend([(e, self.spot(rng)), (e, c)]),
                2 => batch.moves.push((e, c)),
                _ => {
                    batch.removals.push(e);
                    batch.moves.push((1000 + e % 1000, c));
                }
            }
        }
        batch
    }

    fn crowd(&self, rng: &mut Rng) -> Batch {
        let moves = (0..rng.below(60)).map(|_| (rng.below(200), self.spot(rng))).collect();
        let removals = (0..rng.below(30)).map(|_| rng.below(200)).collect();
        Batch { removals, moves }
    }

    /// A spine of cells with a tooth on every second one; single cells of it go and come back.
    fn comb(&self, k: usize, rng: &mut Rng) -> Batch {
        let long = 5 + self.entities % 12;
        let tooth = 1 + self.entities % 4;
        let all: Vec<(u64, Cell)> = (0..long)
            .flat_map(|i| (0..if i % 2 == 0 { tooth + 1 } else { 1 }).map(move |j| (i, j)))
            .map(|(i, j)| (i * 16 + j, self.at(1, i as i32, j as i32, 0)))
            .collect();
        if k == 0 {
            return Batch { removals: vec![], moves: all };
        }
        let mut batch = Batch::default();
        for _ in 0..=rng.below(5) {
            let (e, c) = rng.pick(&all);
            if rng.once_in(2) {
                batch.removals.push(e);
            } else {
                batch.moves.push((e, c));
            }
        }
        batch
    }

    /// The first of some batches after which ids are still comparable; an empty one where there is none.
    fn comparable(&self, yard: &RustYard, rng: &mut Rng, make: fn(&Plan, &RustYard, &mut Rng) -> Batch) -> Batch {
        (0..12).map(|_| make(self, yard, rng)).find(|batch| yard.foresee(batch).leaves_ids_comparable()).unwrap_or_default()
    }

    /// One small change: an entity comes, goes, moves by a cell or anywhere, is replaced, or trades its cell.
    fn step(&self, yard: &RustYard, rng: &mut Rng) -> Batch {
        let held: Vec<(u64, Cell)> = yard.entities().into_iter().collect();
        let fresh = (rng.next() >> 20, self.spot(rng));
        if held.is_empty() || (held.len() < self.entities as usize && rng.once_in(2)) {
            return Batch { removals: vec![], moves: vec![fresh] };
        }
        let ((e, c), (f, d)) = (rng.pick(&held), rng.pick(&held));
        let beside = (e, self.beside(c, rng));
        match rng.below(7) {
            0 => Batch { removals: vec![e], moves: vec![] },
            1 | 2 => Batch { removals: vec![], moves: vec![beside] },
            3 => Batch { removals: vec![], moves: vec![(e, fresh.1)] },
            4 => Batch { removals: vec![e], moves: vec![(fresh.0, c)] },
            5 => Batch { removals: vec![], moves: vec![(e, d), (f, c)] },
            _ => Batch { removals: vec![e, f], moves: vec![fresh] },
        }
    }

    fn beside(&self, c: Cell, rng: &mut Rng) -> Cell {
        let mut step = |n: i32| (n + rng.from(-1, 1)).clamp(-FAR, FAR);
        Cell::new(c.grid, step(c.x), step(c.y), step(c.z))
    }

    /// A line is laid cell by cell; then a cell of it goes or comes back.
    fn cut(&self, k: usize, yard: &RustYard, rng: &mut Rng) -> Batch {
        let long = 6 + self.entities % 20;
        let place = |i: u64| self.at(1, i as i32, 0, 0);
        if (k as u64) < long {
            return Batch { removals: vec![], moves: vec![(k as u64, place(k as u64))] };
        }
        self.comparable(yard, rng, |plan, _, rng| {
            let i = rng.below(6 + plan.entities % 20);
            let back = (i, plan.at(1, i as i32, 0, 0));
            if rng.once_in(2) {
                Batch { removals: vec![i], moves: vec![] }
            } else {
                Batch { removals: vec![], moves: vec![back] }
            }
        })
    }

    /// A cell of a wide yard, of which any 1,024 in a row are apart or touch in many ways.
    fn wide(&self, i: u64) -> Cell {
        let (row, column) = ((i / 32) as i32, (i % 32) as i32);
        match self.side % 3 {
            0 => self.at(1, column, row, 0),
            1 => self.at(1 + i % self.grids, 2 * column % 63, row, (i % 2) as i32),
            _ => self.at(1, 2 * (column % 16), 2 * row % 63, 2 * (column / 16)),
        }
    }

    /// Batches at and past each limit: events, cells, entities.
    fn limits(&self, k: usize, rng: &mut Rng) -> Batch {
        let (cells, entities, events) = (MOST_CELLS as u64, MOST_ENTITIES as u64, MOST_EVENTS as u64);
        let on = |from: u64, to: u64| (from..to).map(|e| (e, self.wide(e % cells))).collect::<Vec<_>>();
        let mut batch = Batch::default();
        match k {
            0 => batch.moves = on(0, events + 1),
            1 => batch.moves = on(0, events),
            2 => batch.moves = vec![(7_000, Cell::new(9, 0, 0, 0))],
            3 => batch.moves = on(cells, 2 * cells),
            4 => batch.moves = on(2 * cells, 3 * cells),
            5 => batch.moves = on(3 * cells, entities),
            6 => batch.moves = vec![(entities, self.wide(0))],
            _ => {
                batch.removals = (0..rng.below(40)).map(|_| rng.below(entities)).collect();
                batch.moves = (0..rng.below(900)).map(|_| (rng.below(entities + 20), self.wide(rng.below(cells + 3)))).collect();
            }
        }
        batch
    }

    /// All cells occupied, then a few events at a time.
    fn full(&self, k: usize, yard: &RustYard, rng: &mut Rng) -> Batch {
        let cells = MOST_CELLS as u64;
        if k == 0 {
            return Batch { removals: vec![], moves: (0..cells).map(|e| (e, self.wide(e))).collect() };
        }
        let held: Vec<(u64, Cell)> = yard.entities().into_iter().collect();
        let mut batch = Batch::default();
        for _ in 0..=rng.below(4) {
            let ((e, c), (f, d)) = (rng.pick(&held), rng.pick(&held));
            match rng.below(4) {
                0 => batch.removals.push(e),
                1 => batch.moves.extend([(e, d), (f, c)]),
                2 => batch.moves.push((e, self.beside(c, rng))),
                _ => batch.moves.push((cells + rng.below(cells), self.wide(rng.below(cells + 8)))),
            }
        }
        batch
    }

    /// An offer of the dense kind, in most cases damaged.
    fn damaged(&self, yard: &RustYard, rng: &mut Rng) -> Offer {
        let mut batch = if rng.once_in(2) { self.dense(rng) } else { self.swaps(yard, rng) };
        batch.moves.push((rng.below(self.entities), self.spot(rng)));
        let mut offer = Offer::of(&batch);
        let a_move = offer.removals as usize + 5 * rng.below(offer.moves) as usize;
        match rng.below(8) {
            0 => offer.words[a_move + 2 + rng.below(3) as usize] = rng.pick(&[FAR as u64 + 1, -(FAR as i64) as u64 - 1, 1 << 40, u64::MAX >> 1, 1 << 63, 1 << 32]),
            1 => offer.words.truncate(offer.words.len() - 1 - rng.below(4) as usize),
            2 => offer.moves = rng.pick(&[u64::MAX, 1 << 62, u64::MAX / 5 + 1, offer.moves + 1]),
            3 => offer.removals = rng.pick(&[u64::MAX, u64::MAX - 4, 1 << 40]),
            4 => self.too_many(&mut offer, rng),
            5 => offer.words.extend([rng.next(), rng.next()]),
            _ => {}
        }
        offer
    }

    /// More events than a batch may have; now and then with a cell out of range too, which then does not count.
    fn too_many(&self, offer: &mut Offer, rng: &mut Rng) {
        let more = MOST_EVENTS as u64 + 1 - offer.moves - offer.removals + rng.below(3);
        let mut words: Vec<u64> = (0..more).collect();
        words.append(&mut offer.words);
        offer.words = words;
        offer.removals += more;
        if rng.once_in(2) {
            *offer.words.last_mut().expect("a word") = 1 << 50;
        }
    }
}
