//! What a call in C stores in the record of a run, as the header says it. The record lies across two
//! pages of memory, one of which may not be written during the call: a store into the wrong part of
//! it ends the test by a signal.

use std::ffi::{c_int, c_void};
use std::mem::offset_of;
use std::ptr;

use gyodaebeun::{Run, raw};
use second::refusal::{FRAME, FRESH, POST};

unsafe extern "C" {
    fn mmap(
        address: *mut c_void,
        length: usize,
        protection: c_int,
        flags: c_int,
        file: c_int,
        offset: i64,
    ) -> *mut c_void;
    fn mprotect(address: *mut c_void, length: usize, protection: c_int) -> c_int;
    fn munmap(address: *mut c_void, length: usize) -> c_int;
}

// As Linux has them on x86-64, where alone the archive can be linked.
const PAGE: usize = 4_096;
const READ: c_int = 1;
const WRITE: c_int = 2;
const PRIVATE: c_int = 2;
const ANONYMOUS: c_int = 32;

/// Which part of a record may not be written: all before this byte, or all from it on.
#[derive(Clone, Copy, Debug)]
enum Shut {
    Before(usize),
    From(usize),
}

/// A record in two pages, parted at the byte that `Shut` names.
struct Parted {
    pages: *mut c_void,
    record: *mut Run,
}

impl Parted {
    fn new(run: Run, shut: Shut) -> Parted {
        let (page, byte) = match shut {
            Shut::Before(byte) => (0, byte),
            Shut::From(byte) => (1, byte),
        };
        unsafe {
            let flags = PRIVATE | ANONYMOUS;
            let pages = mmap(ptr::null_mut(), 2 * PAGE, READ | WRITE, flags, -1, 0);
            assert_ne!(pages.addr(), usize::MAX, "there is no memory");
            let record = pages.byte_add(PAGE - byte).cast::<Run>();
            record.write(run);
            let done = mprotect(pages.byte_add(page * PAGE), PAGE, READ);
            assert_eq!(done, 0, "the page cannot be shut");
            Parted { pages, record }
        }
    }

    /// Lends the record, though not all of it may be written: in Rust nobody does.
    fn record(&mut self) -> &mut Run {
        unsafe { &mut *self.record }
    }

    fn held(&self) -> Run {
        unsafe { self.record.read() }
    }
}

impl Drop for Parted {
    fn drop(&mut self) {
        unsafe { munmap(self.pages, 2 * PAGE) };
    }
}

/// All that a call takes beside its record.
struct Tables {
    arrivals: Vec<u32>,
    waiting: Vec<u32>,
    posted: Vec<u64>,
    sent: Vec<u64>,
    dropped: Vec<u64>,
    kept: Vec<u32>,
    withdrawn: Vec<u32>,
    schedule: Vec<u8>,
}

/// A run after some calls, whose post and frame are refused by this number, or accepted where it
/// is 0.
fn refused_by(number: u32) -> (Run, Tables) {
    let mut run = Run {
        nodes: 2,
        slots: 4,
        limit: 6,
        rule: 1,
        posts: 3,
        frames: 2,
    };
    let mut tables = Tables {
        arrivals: vec![1, 2, 3, 4],
        waiting: vec![0, 1, 2, 3],
        posted: vec![5, 6, 7, 8],
        sent: vec![4, 3, 2, 1],
        dropped: vec![1, 2, 3, 4],
        kept: vec![7; 4],
        withdrawn: vec![7; 4],
        schedule: vec![7; 8],
    };
    match number {
        0 => {}
        1 => run.nodes = 65,
        2 => run.slots = 1_025,
        3 => run.rule = 2,
        4 => tables.arrivals.truncate(3),
        5 => tables.dropped.truncate(3),
        6 => tables.arrivals[2] = 65_536,
        7 => run.limit = 65_536,
        8 => tables.sent[1] = u64::MAX,
        _ => (run.posts, run.frames) = (1_000_000, 1_000_000),
    }
    (run, tables)
}

fn post(run: &mut Run, tables: &mut Tables) -> u32 {
    let mut place = 0;
    raw::post(
        run,
        &tables.arrivals,
        &mut tables.waiting,
        &mut tables.posted,
        &tables.sent,
        &mut tables.dropped,
        &mut place,
    )
}

fn frame(run: &mut Run, tables: &mut Tables) -> u32 {
    let mut report = [0; 4];
    raw::frame(
        run,
        &mut tables.waiting,
        &tables.posted,
        &mut tables.sent,
        &tables.dropped,
        &mut tables.kept,
        &mut tables.withdrawn,
        &mut tables.schedule,
        &mut report,
    )
}

/// The values go in the order N, L, B, rule.
fn fresh(run: &mut Run, values: [u32; 4], tables: &mut Tables) -> u32 {
    let [nodes, slots, limit, rule] = values;
    let mut place = 0;
    raw::fresh(
        run,
        nodes,
        slots,
        limit,
        rule,
        &mut tables.waiting,
        &mut tables.posted,
        &mut tables.sent,
        &mut tables.dropped,
        &mut place,
    )
}

/// The whole record.
const WHOLE: Shut = Shut::Before(size_of::<Run>());

/// A post stores posts alone, and a refused one nothing at all.
#[test]
fn a_post_stores_its_count() {
    for shut in [
        Shut::Before(offset_of!(Run, posts)),
        Shut::From(offset_of!(Run, frames)),
    ] {
        let (run, mut tables) = refused_by(0);
        let mut lent = Parted::new(run, shut);
        assert_eq!(post(lent.record(), &mut tables), 0, "{shut:?}");
        let posts = run.posts + 1;
        assert_eq!(lent.held(), Run { posts, ..run }, "{shut:?}");
    }
    for &number in POST {
        let (run, mut tables) = refused_by(number);
        let mut lent = Parted::new(run, WHOLE);
        assert_eq!(post(lent.record(), &mut tables), number);
        assert_eq!(lent.held(), run, "{number}");
    }
}

/// A frame stores frames alone, and a refused one nothing at all.
#[test]
fn a_frame_stores_its_count() {
    let (run, mut tables) = refused_by(0);
    let mut lent = Parted::new(run, Shut::Before(offset_of!(Run, frames)));
    assert_eq!(frame(lent.record(), &mut tables), 0);
    let frames = run.frames + 1;
    assert_eq!(lent.held(), Run { frames, ..run });
    for &number in FRAME {
        let (run, mut tables) = refused_by(number);
        let mut lent = Parted::new(run, WHOLE);
        assert_eq!(frame(lent.record(), &mut tables), number);
        assert_eq!(lent.held(), run, "{number}");
    }
}

/// A fresh start stores the whole record, and a refused one nothing at all.
#[test]
fn a_fresh_start_stores_all_or_nothing() {
    for &number in [0].iter().chain(FRESH) {
        let (run, mut tables) = refused_by(0);
        let mut values = [1, 5, 7, 0];
        match number {
            0 => {}
            1 => values[0] = 65,
            2 => values[1] = 0,
            3 => values[3] = 2,
            5 => tables.dropped.clear(),
            _ => values[2] = 0,
        }
        let [nodes, slots, limit, rule] = values;
        let started = Run {
            nodes,
            slots,
            limit,
            rule,
            posts: 0,
            frames: 0,
        };
        let (shut, held) = if number == 0 {
            (Shut::From(size_of::<Run>()), started)
        } else {
            (WHOLE, run)
        };
        let mut lent = Parted::new(run, shut);
        assert_eq!(fresh(lent.record(), values, &mut tables), number);
        assert_eq!(lent.held(), held, "{number}");
    }
}
