//! Document 01, "A run": the entries `fresh`, `post` and `frame`.

use crate::limits;
use crate::matrix::Matrix;
use crate::plan::{Plan, Report, Written};
use crate::refusal::{self, Call, Holds, Refusal};

/// "N, L, B, the rule, and the counts of accepted posts and frames."
#[derive(Clone, Copy, Debug, Default, PartialEq, Eq)]
pub struct Record {
    pub nodes: u32,
    pub slots: u32,
    pub limit: u32,
    pub rule: u32,
    pub posts: u32,
    pub frames: u32,
}

impl Record {
    pub fn fresh(nodes: u32, slots: u32, limit: u32, rule: u32) -> Record {
        Record {
            nodes,
            slots,
            limit,
            rule,
            posts: 0,
            frames: 0,
        }
    }

    /// The values of a call outside a run, which has no queues.
    pub fn outside(nodes: u32, slots: u32, rule: u32) -> Record {
        Record::fresh(nodes, slots, 0, rule)
    }
}

/// The four tables of a run.
#[derive(Clone, Debug, Default, PartialEq, Eq)]
pub struct Books {
    pub waiting: Vec<u32>,
    pub posted: Vec<u64>,
    pub sent: Vec<u64>,
    pub dropped: Vec<u64>,
}

impl Books {
    pub fn zero(cells: usize) -> Books {
        Books {
            waiting: vec![0; cells],
            posted: vec![0; cells],
            sent: vec![0; cells],
            dropped: vec![0; cells],
        }
    }

    /// "Waiting is at most B, posted equals waiting plus sent plus dropped in exact arithmetic, and
    /// posted is at most 65,535 × posts."
    pub fn agree(&self, cell: usize, limit: u32, posts: u32) -> bool {
        let waiting = u128::from(self.waiting[cell]);
        let posted = u128::from(self.posted[cell]);
        let sent = u128::from(self.sent[cell]);
        let dropped = u128::from(self.dropped[cell]);
        waiting <= u128::from(limit)
            && posted == waiting + sent + dropped
            && posted <= u128::from(limits::DEMAND) * u128::from(posts)
    }

    fn tables(&self) -> Vec<(usize, Holds)> {
        let lengths = [
            self.waiting.len(),
            self.posted.len(),
            self.sent.len(),
            self.dropped.len(),
        ];
        lengths.map(|length| (length, Holds::Pairs)).to_vec()
    }
}

/// "Puts them in the record, and sets both counts to 0 and the N×N cells of waiting, posted, sent
/// and dropped to 0."
pub fn fresh(
    record: &mut Record,
    nodes: u32,
    slots: u32,
    limit: u32,
    rule: u32,
    books: &mut Books,
) -> Result<(), Refusal> {
    let values = Record::fresh(nodes, slots, limit, rule);
    let call = Call {
        values,
        tables: books.tables(),
        ..Call::default()
    };
    call.check(refusal::FRESH)?;
    *record = values;
    let cells = (nodes * nodes) as usize;
    books.waiting[..cells].fill(0);
    for table in [&mut books.posted, &mut books.sent, &mut books.dropped] {
        table[..cells].fill(0);
    }
    Ok(())
}

/// "Adds each arrival to posted; what would lift waiting above B is added to dropped and the rest
/// to waiting; posts rises by 1."
pub fn post(record: &mut Record, arrivals: &[u32], books: &mut Books) -> Result<(), Refusal> {
    let call = Call {
        values: *record,
        asked: arrivals,
        tables: books.tables(),
        books: Some(books),
        accepted: record.posts,
    };
    call.check(refusal::POST)?;
    for (cell, &arrival) in arrivals[..(record.nodes * record.nodes) as usize]
        .iter()
        .enumerate()
    {
        let admitted = arrival.min(record.limit - books.waiting[cell]);
        books.posted[cell] += u64::from(arrival);
        books.waiting[cell] += admitted;
        books.dropped[cell] += u64::from(arrival - admitted);
    }
    record.posts += 1;
    Ok(())
}

/// "Plans with D = waiting, writes kept, withdrawn and schedule, takes kept from waiting, adds it
/// to sent; frames rises by 1."
pub fn frame(
    record: &mut Record,
    books: &mut Books,
    written: &mut Written,
) -> Result<Report, Refusal> {
    check_frame(record, books, written)?;
    let demand = Matrix::read(record.nodes as usize, &books.waiting);
    let plan = Plan::new(&demand, record.slots as usize, record.rule);
    written.write(&plan);
    send(record, books, &plan.kept);
    Ok(plan.report(&demand))
}

/// The refusal of a frame, if it gets one.
pub fn check_frame(record: &Record, books: &Books, written: &Written) -> Result<(), Refusal> {
    let call = Call {
        values: *record,
        tables: [books.tables(), written.tables()].concat(),
        books: Some(books),
        accepted: record.frames,
        ..Call::default()
    };
    call.check(refusal::FRAME)
}

/// What an accepted frame that keeps this changes in the record and the books.
pub fn send(record: &mut Record, books: &mut Books, kept: &Matrix) {
    let demand = Matrix::read(kept.nodes(), &books.waiting);
    demand.minus(kept).write(&mut books.waiting);
    for (cell, pair) in kept.pairs().enumerate() {
        books.sent[cell] += kept.at(pair) as u64;
    }
    record.frames += 1;
}
