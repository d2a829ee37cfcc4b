//! What is easily missed in document 01, by small examples.

use crate::notation::{planned, rows, tables};
use second::limits::{FAIR, LEAST};
use second::plan;
use second::refusal::Refusal;
use second::run::{self, Books, Record};

fn fair(slots: u32, demand: &str) -> Vec<u32> {
    planned(&rows(demand), slots, FAIR).0.kept
}

fn refused<T>(number: u32, place: u32) -> Result<T, Refusal> {
    Err(Refusal { number, place })
}

#[test]
fn the_next_line_goes_by_fraction_after_earlier_cuts() {
    assert_eq!(fair(2, "1 2 / 2 2"), rows("1 1 / 1 1").cells);
}

#[test]
fn a_tie_goes_to_the_lowest_line() {
    assert_eq!(fair(3, "2 2 / 2 0"), rows("1 1 / 2 0").cells);
}

#[test]
fn a_line_is_rounded_at_once() {
    assert_eq!(fair(1, "0 1 / 1 1"), rows("0 1 / 0 0").cells);
}

#[test]
fn a_sum_equal_to_the_slots_does_not_overflow() {
    let mut slacks = [0; 4];
    plan::slacks(2, 5, &[2, 3, 1, 2], &mut slacks).expect("accepted");
    assert_eq!(slacks, [0, 2, 2, 0]);
    assert_eq!(fair(5, "2 3 / 1 2"), rows("2 3 / 1 2").cells);
}

#[test]
fn slacks_reach_both_ends_of_their_range() {
    let mut slacks = [7; 128];
    plan::slacks(64, 1, &[65_535; 4_096], &mut slacks).expect("accepted");
    assert_eq!(slacks, [-4_194_239; 128]);
    plan::slacks(64, 1_024, &[0; 4_096], &mut slacks).expect("accepted");
    assert_eq!(slacks, [1_024; 128]);
}

#[test]
fn checks_do_not_run_in_numeric_order() {
    let mut record = Record {
        posts: 1_000_000,
        ..Record::fresh(1, 4, 6, LEAST)
    };
    let mut books = Books::zero(1);
    assert_eq!(run::post(&mut record, &[70_000], &mut books), refused(9, 0));
    books.sent[0] = 1;
    assert_eq!(run::post(&mut record, &[70_000], &mut books), refused(8, 0));
    books.sent.clear();
    assert_eq!(run::post(&mut record, &[70_000], &mut books), refused(5, 0));
    assert_eq!(run::post(&mut record, &[], &mut books), refused(4, 0));
    record.limit = 0;
    assert_eq!(run::post(&mut record, &[], &mut books), refused(7, 0));
    record.rule = 2;
    assert_eq!(run::post(&mut record, &[], &mut books), refused(3, 0));
}

#[test]
fn the_first_bad_cell_in_row_order_gives_the_place() {
    let demand = [65_535, 1, 65_536, u32::MAX];
    let mut slacks = [7; 4];
    assert_eq!(plan::slacks(2, 4, &demand, &mut slacks), refused(6, 2));
    assert_eq!(slacks, [7; 4]);
}

#[test]
fn extra_cells_are_neither_read_nor_changed() {
    let mut slacks = [7; 3];
    plan::slacks(1, 4, &[1, 70_000], &mut slacks).expect("accepted");
    assert_eq!(slacks, [3, 3, 7]);

    let mut written = tables(2, 5);
    plan::plan(1, 4, FAIR, &[1, 70_000], &mut written).expect("accepted");
    assert_eq!(written.kept, [1, 7, 7, 7]);
    assert_eq!(written.withdrawn, [0, 7, 7, 7]);
    assert_eq!(written.schedule[4..], [7; 6]);

    let mut record = Record::default();
    let mut books = Books::zero(2);
    books.sent = vec![8, 9];
    run::fresh(&mut record, 1, 4, 6, FAIR, &mut books).expect("accepted");
    assert_eq!(books.sent, [0, 9]);
    run::post(&mut record, &[3, 70_000], &mut books).expect("accepted");
    assert_eq!(books.posted, [3, 0]);
}

#[test]
fn a_refusal_writes_nothing() {
    let old = Record {
        posts: 3,
        frames: 2,
        ..Record::fresh(2, 5, 9, FAIR)
    };
    let mut record = old;
    let mut books = Books::zero(4);
    books.waiting = vec![1, 2, 3];
    let before = books.clone();
    let answer = run::fresh(&mut record, 2, 4, 6, LEAST, &mut books);
    assert_eq!(answer, refused(5, 0));
    assert_eq!((record, books), (old, before));
}

#[test]
fn a_table_that_is_only_read_may_not_be_short() {
    let mut record = Record::fresh(2, 4, 6, LEAST);
    for short in 0..4 {
        let mut books = Books::zero(4);
        match short {
            0 => books.waiting.truncate(3),
            1 => books.posted.truncate(3),
            2 => books.sent.truncate(3),
            _ => books.dropped.truncate(3),
        }
        assert_eq!(run::post(&mut record, &[0; 4], &mut books), refused(5, 0));
        let framed = run::frame(&mut record, &mut books, &mut tables(2, 4));
        assert_eq!(framed, refused(5, 0));
    }
    for short in 0..3 {
        let mut written = tables(2, 4);
        match short {
            0 => written.kept.truncate(3),
            1 => written.withdrawn.truncate(3),
            _ => written.schedule.truncate(7),
        }
        let framed = run::frame(&mut record, &mut Books::zero(4), &mut written);
        assert_eq!(framed, refused(5, 0));
    }
}

#[test]
fn books_are_added_exactly() {
    let mut record = Record {
        posts: 9,
        ..Record::fresh(1, 4, 6, LEAST)
    };
    let mut books = Books {
        waiting: vec![0],
        posted: vec![0],
        sent: vec![1 << 63],
        dropped: vec![1 << 63],
    };
    assert_eq!(run::post(&mut record, &[1], &mut books), refused(8, 0));
    let framed = run::frame(&mut record, &mut books, &mut tables(1, 4));
    assert_eq!(framed, refused(8, 0));
}

#[test]
fn no_more_is_posted_than_the_posts_could_bring() {
    let mut record = Record {
        frames: 9,
        posts: 1,
        ..Record::fresh(1, 4, 6, LEAST)
    };
    let books = |posted| Books {
        waiting: vec![0],
        posted: vec![posted],
        sent: vec![0],
        dropped: vec![posted],
    };
    let mut written = tables(1, 4);
    let framed = run::frame(&mut record, &mut books(65_536), &mut written);
    assert_eq!(framed, refused(8, 0));
    assert!(run::frame(&mut record, &mut books(65_535), &mut written).is_ok());
}

#[test]
fn the_first_pair_whose_books_fail_in_any_way_gives_the_place() {
    let mut record = Record {
        posts: 1,
        ..Record::fresh(2, 4, 6, LEAST)
    };
    let mut books = Books::zero(4);
    books.sent[3] = 1;
    assert_eq!(run::post(&mut record, &[0; 4], &mut books), refused(8, 3));
    books.waiting[2] = 7;
    books.posted[2] = 7;
    assert_eq!(run::post(&mut record, &[0; 4], &mut books), refused(8, 2));
    books.dropped[1] = 65_536;
    books.posted[1] = 65_536;
    assert_eq!(run::post(&mut record, &[0; 4], &mut books), refused(8, 1));
}

#[test]
fn a_million_calls_or_more_are_spent() {
    for count in [1_000_000, 1_000_001, u32::MAX] {
        let mut record = Record {
            posts: count,
            frames: count,
            ..Record::fresh(1, 4, 6, LEAST)
        };
        let mut books = Books::zero(1);
        assert_eq!(run::post(&mut record, &[1], &mut books), refused(9, 0));
        let framed = run::frame(&mut record, &mut books, &mut tables(1, 4));
        assert_eq!(framed, refused(9, 0));
    }
    let mut record = Record {
        posts: 999_999,
        ..Record::fresh(1, 4, 6, LEAST)
    };
    let mut books = Books::zero(1);
    assert_eq!(run::post(&mut record, &[1], &mut books), Ok(()));
    assert_eq!(run::post(&mut record, &[1], &mut books), refused(9, 0));
}

#[test]
fn range_values_are_whole_words() {
    let mut slacks = [7; 514];
    let demand = vec![0; 257 * 257];
    assert_eq!(plan::slacks(257, 4, &demand, &mut slacks), refused(1, 0));
    assert_eq!(plan::slacks(1, 65_537, &demand, &mut slacks), refused(2, 0));
    let planned = plan::plan(1, 4, 256, &demand, &mut tables(1, 4));
    assert_eq!(planned, refused(3, 0));
}

#[test]
fn one_slot_has_nothing_to_change() {
    assert_eq!(planned(&rows("1 0 / 0 1"), 1, LEAST).1.reconfigurations, 0);
}

#[test]
fn a_frame_over_empty_queues_is_accepted() {
    let mut record = Record::fresh(2, 3, 6, LEAST);
    let mut written = tables(2, 3);
    let report = run::frame(&mut record, &mut Books::zero(4), &mut written);
    assert_eq!(report.map(|report| report.kept), Ok(0));
    assert_eq!(written.schedule, [255; 6]);
    assert_eq!(record.frames, 1);
}
