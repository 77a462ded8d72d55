//! From reports in metres to groups, as crates/reports_to_groups does it.

use capmarrow::{event_of, BadReport, Batch, Cell, Event, Frame, Kind, Lookup, Report, Yard};

const FRAME: Frame = Frame { x: 100.0, y: -50.0, z: 0.0, edge: 2.0 };

fn batch(reports: &[(u64, Report)]) -> Batch {
    let mut batch = Batch::default();
    for (entity, report) in reports {
        if let Ok(Some(event)) = event_of(FRAME, *report, *entity, 1) {
            batch.place(&event);
        }
    }
    batch
}

fn id(yard: &Yard, entity: u64) -> Option<u64> {
    let Lookup::Found(cell) = yard.where_is(entity).unwrap() else { return None };
    match yard.id_of(cell).unwrap() {
        Lookup::Found(id) => Some(id),
        Lookup::NotFound => None,
    }
}

fn ids(yard: &Yard) -> [Option<u64>; 4] {
    [1, 2, 3, 4].map(|entity| id(yard, entity))
}

#[test]
fn reports_become_groups() {
    let mut yard = Yard::fresh(0, Kind::TwentySix).unwrap();
    let first = batch(&[
        (1, Report::Fix(100.5, -49.5, 0.25)),
        (2, Report::Reckoned(99.5, -48.0, 0.0, 0.75)),
        (3, Report::Fix(105.0, -50.0, 0.0)),
        (4, Report::Nothing),
        (4, Report::Fix(100.0, f64::NAN, 0.0)),
    ]);
    assert_eq!(first.moves.len(), 3);
    yard.update(&first).unwrap();
    assert_eq!(ids(&yard), [Some(0), Some(0), Some(1), None]);
    yard.update(&batch(&[(4, Report::Fix(102.0, -50.0, 0.0))])).unwrap();
    assert_eq!(ids(&yard), [Some(0); 4]);
    yard.update(&batch(&[(4, Report::Fix(2000.0, -50.000000000000014, -5e-324))])).unwrap();
    assert_eq!(ids(&yard), [Some(0), Some(0), Some(3), Some(2)]);
}

#[test]
fn events_are_told() {
    let event = Event { entity: 8, cell: Cell::new(3, -1, 1, 0), offsets: [1.5, 0.0, 0.25], error: Some(-0.0) };
    assert_eq!(event_of(FRAME, Report::Reckoned(99.5, -48.0, 0.25, -0.0), 8, 3), Ok(Some(event)));
    assert_eq!(event_of(FRAME, Report::Nothing, 8, 3), Ok(None));
    let zero = event_of(FRAME, Report::Reckoned(98.0, -48.0, -0.0, -0.0), 8, 3).unwrap().unwrap();
    assert_eq!(zero.offsets.map(f64::to_bits), [0; 3]);
    assert_eq!(zero.error.map(f64::to_bits), Some((-0.0f64).to_bits()));
    assert_eq!(event_of(FRAME, Report::Fix(0.0, 0.0, 0.0), 8, 3).unwrap().unwrap().error, None);
}

#[test]
fn faults_are_told() {
    let frame = Frame { edge: 64.0, ..FRAME };
    let said = |frame, report| event_of(frame, report, 1, 1).unwrap_err().to_string();
    let fix = |x, y, z| said(frame, Report::Fix(x, y, z));
    assert_eq!(fix(f64::INFINITY, f64::NAN, 0.0), "report: x is inf, not finite or more than 1048576 m from the origin");
    assert_eq!(fix(0.0, 1048526.0000000002, 2e6), "report: y is 1048526.0000000002, not finite or more than 1048576 m from the origin");
    assert_eq!(fix(0.0, 0.0, 1048576.0000000002), "report: z is 1048576.0000000002, not finite or more than 1048576 m from the origin");
    assert_eq!(said(frame, Report::Reckoned(0.0, 0.0, 0.0, -1.0)), "report: the error is -1, not finite or below zero");
    assert_eq!(said(Frame { edge: 3.0, x: 0.5, ..FRAME }, Report::Nothing), "frame: the edge is 3, not 1, 2, 4, 8, 16, 32 or 64 m");
    assert_eq!(said(Frame { y: f64::NAN, z: 0.5, ..FRAME }, Report::Nothing), "frame: the origin's y is NaN, not whole metres within 1048576 of zero");
    assert_eq!(event_of(frame, Report::Reckoned(0.0, 0.0, 0.0, -1.0), 1, 1), Err(BadReport::Error(-1.0)));
    assert_eq!(BadReport::Unknown(99).to_string(), "refused by number 99 in a way that this wrapper does not know");
    assert_eq!([BadReport::Error(0.0), BadReport::Edge(0.0), BadReport::Unknown(99)].map(BadReport::number), [10, 11, 99]);
}
