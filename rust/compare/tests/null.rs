//! Tables without a cell lent to the C entries as NULL, which the header allows: every choice of an
//! entry's tables, at every N. Such a call is refused, and nothing is written; but for scenarios
//! without kinds, which have no posts, and a file of 0 bytes, of which the text says that it is no
//! scenario.

use std::ptr;

use gyodaebeun::{POST, Run, TEXT_BYTES, raw};
use second::scenario;

/// A choice of tables that are absent: the first where bit 0 is set, the second where bit 1 is, and
/// so on.
struct Absent(u32);

impl Absent {
    /// The pointer and the number of cells of the next table, or NULL and 0.
    fn lend<T>(&mut self, table: &mut [T]) -> (*mut T, usize) {
        let absent = has(self.0, 0);
        self.0 >>= 1;
        if absent {
            (ptr::null_mut(), 0)
        } else {
            (table.as_mut_ptr(), table.len())
        }
    }
}

/// Calls an entry in C: with what stands before its tables, the tables of `$tables` that it takes,
/// those of the choice absent, and what stands behind them.
macro_rules! call {
    ($entry:ident($($before:expr),*; $($table:ident),*; $behind:expr), $choice:expr, $tables:expr) => {{
        let mut absent = Absent($choice);
        $(let $table = absent.lend(&mut $tables.$table);)*
        // Each pointer is valid for its cells, and nothing overlaps.
        unsafe { raw::$entry($($before,)* $($table.0, $table.1,)* $behind) }
    }};
}

/// Whether this choice of tables has the table of this number.
fn has(choice: u32, table: u32) -> bool {
    choice >> table & 1 == 1
}

const SLOTS: u32 = 3;

/// Every N and every choice of one or more of an entry's tables.
fn choices(tables: u32) -> impl Iterator<Item = (u32, u32)> {
    (1..=64).flat_map(move |nodes| (1..1 << tables).map(move |choice| (nodes, choice)))
}

/// All tables of a call, as large as needed.
#[derive(Clone, PartialEq, Eq)]
struct Tables {
    asked: Vec<u32>,
    slacks: Vec<i32>,
    kept: Vec<u32>,
    withdrawn: Vec<u32>,
    schedule: Vec<u8>,
    waiting: Vec<u32>,
    posted: Vec<u64>,
    sent: Vec<u64>,
    dropped: Vec<u64>,
}

impl Tables {
    fn of(nodes: u32) -> Tables {
        let n = nodes as usize;
        Tables {
            asked: vec![1; n * n],
            slacks: vec![7; 2 * n],
            kept: vec![7; n * n],
            withdrawn: vec![7; n * n],
            schedule: vec![7; n * SLOTS as usize],
            waiting: vec![3; n * n],
            posted: vec![9; n * n],
            sent: vec![5; n * n],
            dropped: vec![1; n * n],
        }
    }
}

/// A run whose books agree with those of [`Tables::of`].
fn run_of(nodes: u32) -> Run {
    Run {
        nodes,
        slots: SLOTS,
        limit: 6,
        rule: 1,
        posts: 2,
        frames: 2,
    }
}

/// Makes the calls of an entry that has this many tables. Each is to be refused by 4 where the first
/// table is absent and holds what is asked, otherwise by 5, and to change nothing.
fn refused(tables: u32, asks: bool, call: impl Fn(u32, &mut Run, &mut Tables) -> [u32; 5]) {
    for (nodes, choice) in choices(tables) {
        let (run, all) = (run_of(nodes), Tables::of(nodes));
        let (mut record, mut lent) = (run, all.clone());
        let said = call(choice, &mut record, &mut lent);
        let number = if asks && has(choice, 0) { 4 } else { 5 };
        assert_eq!(said, [number, 0, 0, 0, 0], "N {nodes}, choice {choice:b}");
        assert!(lent == all && record == run, "N {nodes}, choice {choice:b}");
    }
}

#[test]
fn slacks() {
    refused(2, true, |choice, run, tables| {
        let (nodes, mut place) = (run.nodes, u32::MAX);
        let number =
            call!(gyodaebeun_slacks(nodes, SLOTS; asked, slacks; &mut place), choice, tables);
        [number, place, 0, 0, 0]
    });
}

#[test]
fn plan() {
    for rule in [0, 1] {
        refused(4, true, |choice, run, tables| {
            let (nodes, mut report) = (run.nodes, [u32::MAX; 4]);
            let number = call!(
                gyodaebeun_plan(nodes, SLOTS, rule; asked, kept, withdrawn, schedule; &mut report),
                choice,
                tables
            );
            reported(number, report)
        });
    }
}

#[test]
fn fresh() {
    refused(4, false, |choice, run, tables| {
        let (nodes, mut place) = (run.nodes, u32::MAX);
        let number = call!(
            gyodaebeun_fresh(run, nodes, SLOTS, 5, 0; waiting, posted, sent, dropped; &mut place),
            choice,
            tables
        );
        [number, place, 0, 0, 0]
    });
}

#[test]
fn post() {
    refused(5, true, |choice, run, tables| {
        let mut place = u32::MAX;
        let number = call!(
            gyodaebeun_post(run; asked, waiting, posted, sent, dropped; &mut place),
            choice,
            tables
        );
        [number, place, 0, 0, 0]
    });
}

#[test]
fn frame() {
    refused(7, false, |choice, run, tables| {
        let mut report = [u32::MAX; 4];
        let number = call!(
            gyodaebeun_frame(
                run; waiting, posted, sent, dropped, kept, withdrawn, schedule; &mut report
            ),
            choice,
            tables
        );
        reported(number, report)
    });
}

/// The number of the refusal and all that is reported.
fn reported(number: u32, [place, kept, refused, reconfigurations]: [u32; 4]) -> [u32; 5] {
    [number, place, kept, refused, reconfigurations]
}

/// The tables of a call that writes a scenario.
struct Writing {
    kinds: Vec<u32>,
    cells: Vec<u32>,
    file: Vec<u8>,
}

/// One post, or none where the kinds are absent.
#[test]
fn write_scenario() {
    for (nodes, choice) in choices(3) {
        let pairs = (nodes * nodes) as usize;
        let mut tables = Writing {
            kinds: vec![POST],
            cells: vec![1; pairs],
            file: vec![7; 28 + 2 * pairs],
        };
        let mut after = tables.file.clone();
        let mut report = [u32::MAX; 2];
        let number = call!(
            gyodaebeun_write_scenario(nodes, SLOTS, 6, 1; kinds, cells, file; &mut report),
            choice,
            tables
        );
        let expected = match [0, 1, 2].map(|table| has(choice, table)) {
            [false, true, _] => 4,
            [_, _, true] => 5,
            _ => 0,
        };
        if expected == 0 {
            let written = scenario::write(nodes, SLOTS, 6, 1, &[], &[], &mut after);
            assert_eq!(written, Ok(20));
        }
        let length = if expected == 0 { 20 } else { 0 };
        assert_eq!((number, report), (expected, [0, length]), "{choice:b}");
        assert_eq!(tables.file, after, "N {nodes}, choice {choice:b}");
    }
}

/// The tables of a call that plays one.
struct Playing {
    file: Vec<u8>,
    text: Vec<u8>,
}

#[test]
fn play_scenario() {
    for choice in 1..4 {
        let mut tables = Playing {
            file: vec![0; 20],
            text: vec![7; TEXT_BYTES],
        };
        let mut report = [u32::MAX; 2];
        let number = call!(gyodaebeun_play_scenario(; file, text; &mut report), choice, tables);
        let (expected, written): (u32, &[u8]) = match has(choice, 1) {
            true => (5, b""),
            false => (0, b"refused 10 0\n"),
        };
        assert_eq!((number, report), (expected, [0, written.len() as u32]));
        let (front, rest) = tables.text.split_at(written.len());
        assert!(front == written && rest.iter().all(|&byte| byte == 7));
    }
}
