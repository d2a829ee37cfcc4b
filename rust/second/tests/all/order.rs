//! Faults together: for each entry the first in the order of its checks is given, and a refusal
//! writes nothing.

use crate::notation::tables;
use second::inputs::choices;
use second::limits::LEAST;
use second::plan::{self, Written};
use second::refusal::Refusal;
use second::run::{self, Books, Record};

/// Everything that any entry is lent.
#[derive(Clone, Debug, PartialEq)]
struct Lent {
    record: Record,
    asked: Vec<u32>,
    slacks: Vec<i32>,
    books: Books,
    written: Written,
}

impl Lent {
    /// Without a fault, for any entry.
    fn good() -> Lent {
        Lent {
            record: Record {
                posts: 3,
                frames: 2,
                ..Record::fresh(2, 4, 6, LEAST)
            },
            asked: vec![1, 2, 3, 4],
            slacks: vec![7; 4],
            books: Books {
                waiting: vec![0, 1, 2, 3],
                posted: vec![5, 6, 7, 8],
                sent: vec![4, 3, 2, 1],
                dropped: vec![1, 2, 3, 4],
            },
            written: tables(2, 4),
        }
    }

    fn damage(&mut self, fault: u32, shorten: Shorten) {
        match fault {
            1 => self.record.nodes = 65,
            2 => self.record.slots = 1_025,
            3 => self.record.rule = 2,
            4 => self.asked.truncate(3),
            5 => shorten(self),
            6 => self.asked[2] = 65_536,
            7 => self.record.limit = 65_536,
            8 => self.books.waiting[1] += 1,
            _ => (self.record.posts, self.record.frames) = (1_000_000, 1_000_000),
        }
    }
}

type Shorten = fn(&mut Lent);

const OF_A_RUN: [Shorten; 4] = [
    |lent| lent.books.waiting.truncate(3),
    |lent| lent.books.posted.truncate(3),
    |lent| lent.books.sent.truncate(3),
    |lent| lent.books.dropped.truncate(3),
];

const OF_A_PLAN: [Shorten; 3] = [
    |lent| lent.written.kept.truncate(3),
    |lent| lent.written.withdrawn.truncate(3),
    |lent| lent.written.schedule.truncate(7),
];

fn first_is_given(order: &[u32], short: &[Shorten], call: fn(&mut Lent) -> Result<(), Refusal>) {
    for faults in choices(order) {
        for &shorten in short {
            let mut before = Lent::good();
            for &fault in &faults {
                before.damage(fault, shorten);
            }
            let mut after = before.clone();
            let answer = call(&mut after);
            let Some(&number) = faults.first() else {
                assert_eq!(answer, Ok(()));
                continue;
            };
            let place = match number {
                6 => 2,
                8 => 1,
                _ => 0,
            };
            assert_eq!(answer, Err(Refusal { number, place }), "{faults:?}");
            assert_eq!(after, before, "{faults:?}");
        }
    }
}

#[test]
fn slacks() {
    let short: Shorten = |lent| lent.slacks.truncate(3);
    first_is_given(&[1, 2, 4, 5, 6], &[short], |lent| {
        let Record { nodes, slots, .. } = lent.record;
        plan::slacks(nodes, slots, &lent.asked, &mut lent.slacks)
    });
}

#[test]
fn plan() {
    first_is_given(&[1, 2, 3, 4, 5, 6], &OF_A_PLAN, |lent| {
        let Record {
            nodes, slots, rule, ..
        } = lent.record;
        plan::plan(nodes, slots, rule, &lent.asked, &mut lent.written).map(drop)
    });
}

#[test]
fn fresh() {
    first_is_given(&[1, 2, 3, 7, 5], &OF_A_RUN, |lent| {
        let Record {
            nodes,
            slots,
            limit,
            rule,
            ..
        } = lent.record;
        run::fresh(&mut lent.record, nodes, slots, limit, rule, &mut lent.books)
    });
}

#[test]
fn post() {
    first_is_given(&[1, 2, 3, 7, 4, 5, 8, 9, 6], &OF_A_RUN, |lent| {
        run::post(&mut lent.record, &lent.asked, &mut lent.books)
    });
}

#[test]
fn frame() {
    let short = [&OF_A_RUN[..], &OF_A_PLAN].concat();
    first_is_given(&[1, 2, 3, 7, 5, 8, 9], &short, |lent| {
        run::frame(&mut lent.record, &mut lent.books, &mut lent.written).map(drop)
    });
}
