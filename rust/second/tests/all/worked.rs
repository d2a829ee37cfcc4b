//! Document 01, "Worked by hand": cases a to p.

use crate::notation::{Demand, matrix, planned, rows, tables};
use second::least;
use second::limits::{FAIR, LEAST};
use second::matrix::full_capacity;
use second::plan::{self, Written};
use second::refusal::Refusal;
use second::run::{self, Books, Record};

/// A demand and L under a rule, what is kept, and the refused total.
fn case(slots: u32, demand: &str, rule: u32, kept: &str, refused: u32) -> Written {
    let (written, report) = planned(&rows(demand), slots, rule);
    assert_eq!(written.kept, rows(kept).cells);
    assert_eq!(report.refused, refused);
    assert_eq!(report.kept, rows(kept).cells.iter().sum::<u32>());
    written
}

#[test]
fn a() {
    case(4, "4", FAIR, "4", 0);
    case(4, "4", LEAST, "4", 0);
}

#[test]
fn b() {
    case(4, "5", FAIR, "4", 1);
    case(4, "5", LEAST, "4", 1);
}

#[test]
fn c() {
    let written = case(10, "11 1 / 0 0", LEAST, "9 1 / 0 0", 2);
    assert_eq!(written.withdrawn, [1, 0, 0, 0]);
}

#[test]
fn d() {
    let written = case(10, "11 1 / 0 0", FAIR, "9 0 / 0 0", 3);
    assert_eq!(written.withdrawn, [0, 0, 0, 0]);
}

#[test]
fn e() {
    let written = case(4, "3 3 / 3 0", LEAST, "1 3 / 3 0", 2);
    assert_eq!(written.withdrawn, [2, 0, 0, 0]);
}

#[test]
fn f() {
    case(4, "3 3 / 3 0", FAIR, "2 2 / 2 0", 3);
}

#[test]
fn g() {
    let demand = "7 7 7 / 0 0 0 / 0 0 0";
    case(10, demand, LEAST, "4 3 3 / 0 0 0 / 0 0 0", 11);
}

#[test]
fn h() {
    let demand = "7 7 7 / 0 0 0 / 0 0 0";
    case(10, demand, FAIR, "3 3 3 / 0 0 0 / 0 0 0", 12);
}

#[test]
fn i() {
    let demand = "2 2 1 / 2 0 3 / 1 3 0";
    let written = case(4, demand, LEAST, "2 1 1 / 1 0 3 / 1 3 0", 2);
    assert_eq!(written.withdrawn, [0, 1, 0, 1, 0, 0, 0, 0, 0]);
}

#[test]
fn j() {
    let demand = "2 2 1 / 2 0 3 / 1 3 0";
    case(4, demand, FAIR, "1 1 0 / 1 0 2 / 1 3 0", 5);
}

#[test]
fn k() {
    let (_, report) = planned(&rows("2 2 / 2 2"), 2, LEAST);
    assert_eq!(report.refused, 4);
    let (demand, capacity) = (matrix("2 2 / 2 2"), full_capacity(2, 2));
    for greatest in ["1 1 / 1 1", "2 0 / 0 2", "0 2 / 2 0"] {
        let a = matrix(greatest);
        assert!(least::is_greatest(&demand, &capacity, &a), "{greatest}");
        assert_eq!(
            least::kept_from(&demand, &capacity, &a),
            demand.minus(&a),
            "nothing is left to cut"
        );
    }
    for other in ["1 1 / 1 0", "2 1 / 0 2", "0 0 / 0 0"] {
        assert!(!least::is_greatest(&demand, &capacity, &matrix(other)));
    }
}

#[test]
fn l() {
    case(1_024, "65535", LEAST, "1024", 64_511);
}

#[test]
fn m() {
    for (nodes, slots) in [(1, 1), (3, 5), (64, 1_024)] {
        for rule in [FAIR, LEAST] {
            let zero = Demand {
                nodes,
                cells: vec![0; (nodes * nodes) as usize],
            };
            let (written, report) = planned(&zero, slots, rule);
            assert!(written.kept.iter().all(|&v| v == 0));
            assert!(written.schedule.iter().all(|&byte| byte == 255));
            assert_eq!(report.reconfigurations, 0);
        }
    }
}

#[test]
fn n() {
    let mut record = Record::default();
    let mut books = Books::zero(1);
    let mut written = tables(1, 4);
    run::fresh(&mut record, 1, 4, 6, LEAST, &mut books).expect("accepted");
    for arrival in [10, 3] {
        run::post(&mut record, &[arrival], &mut books).expect("accepted");
        run::frame(&mut record, &mut books, &mut written).expect("accepted");
    }
    assert_eq!(books.posted, [13]);
    assert_eq!(books.sent, [8]);
    assert_eq!(books.dropped, [4]);
    assert_eq!(books.waiting, [1]);
}

#[test]
fn o() {
    let refused = |number| Err(Refusal { number, place: 0 });
    let mut slacks = [0; 130];
    assert_eq!(plan::slacks(0, 0, &[], &mut slacks), refused(1));
    assert_eq!(plan::slacks(65, 4, &[0; 4_225], &mut slacks), refused(1));
    assert_eq!(plan::slacks(1, 1_025, &[0], &mut slacks), refused(2));
    assert_eq!(slacks, [0; 130]);

    let mut written = tables(65, 1_025);
    let before = written.clone();
    let planned = plan::plan(0, 0, LEAST, &[], &mut written);
    assert_eq!(planned.map(drop), refused(1));
    let planned = plan::plan(65, 4, LEAST, &[0; 4_225], &mut written);
    assert_eq!(planned.map(drop), refused(1));
    let planned = plan::plan(1, 1_025, LEAST, &[0], &mut written);
    assert_eq!(planned.map(drop), refused(2));
    assert_eq!(written, before);

    let mut short = tables(1, 4);
    short.kept.clear();
    let planned = plan::plan(1, 4, LEAST, &[65_536], &mut short);
    assert_eq!(planned.map(drop), refused(5));
}

#[test]
fn p() {
    let mut record = Record {
        posts: 1_000_000,
        ..Record::fresh(1, 4, 6, LEAST)
    };
    let mut books = Books {
        waiting: vec![5],
        posted: vec![65_535_000_000],
        sent: vec![65_534_999_000],
        dropped: vec![995],
    };
    let before = (record, books.clone());
    let posted = run::post(&mut record, &[1], &mut books);
    assert_eq!(
        posted,
        Err(Refusal {
            number: 9,
            place: 0
        })
    );
    assert_eq!((record, books.clone()), before);

    let mut written = tables(1, 4);
    let report = run::frame(&mut record, &mut books, &mut written).expect("accepted");
    assert_eq!(report.kept, 4);
    assert_eq!(report.refused, 1);
    assert_eq!(record.frames, 1);
    assert_eq!(books.waiting, [1]);
    assert_eq!(books.sent, [65_534_999_004]);
}
