//! A run as three parties hold it: the second program, the library called in C and the library
//! called in Rust. Every call is made to all three, and then they hold the same.

use gyodaebeun::{Run, raw};
use second::limits::LEAST;
use second::matrix::{Matrix, full_capacity};
use second::plan::{Report, Written};
use second::run::{self, Books, Record};
use second::{judge, least, schedule};

use crate::{Answer, Lent, Said, by_library, by_second, said_in_c, said_in_rust};

/// One call of a run.
#[derive(Clone, Debug)]
pub enum Call {
    Fresh {
        nodes: u32,
        slots: u32,
        limit: u32,
        rule: u32,
    },
    Post(Vec<u32>),
    Frame,
}

impl Call {
    /// Starts a run with the values of this record.
    pub fn fresh(record: &Record) -> Call {
        let Record {
            nodes,
            slots,
            limit,
            rule,
            ..
        } = *record;
        Call::Fresh {
            nodes,
            slots,
            limit,
            rule,
        }
    }
}

/// The record and all tables, as the second program holds them.
#[derive(Clone, Debug, Default, PartialEq, Eq)]
pub struct State {
    pub record: Record,
    pub books: Books,
    pub written: Written,
}

impl State {
    /// A run just started, with tables of just the length needed.
    pub fn fresh(nodes: u32, slots: u32, limit: u32, rule: u32) -> State {
        let cells = (nodes * nodes) as usize;
        State {
            record: Record::fresh(nodes, slots, limit, rule),
            books: Books::zero(cells),
            written: Written {
                kept: vec![7; cells],
                withdrawn: vec![7; cells],
                schedule: vec![7; (slots * nodes) as usize],
            },
        }
    }

    /// What the second program answers, and does unless the call is a frame: of a frame many plans
    /// are right, and [`State::carry`] does what the library chose.
    fn follow(&mut self, call: &Call) -> Answer {
        let State { record, books, .. } = self;
        by_second(match *call {
            Call::Fresh {
                nodes,
                slots,
                limit,
                rule,
            } => run::fresh(record, nodes, slots, limit, rule, books),
            Call::Post(ref arrivals) => run::post(record, arrivals, books),
            Call::Frame => run::check_frame(record, books, &self.written),
        })
    }

    /// Takes over the plan that the library wrote for an accepted frame, once it is judged; the
    /// books go on with what its schedule carries.
    #[track_caller]
    fn carry(&mut self, library: &mut Loan, report: Report) {
        let Record { slots, rule, .. } = self.record;
        let demand = Matrix::read(self.record.nodes as usize, &self.books.waiting);
        let bytes = demand.nodes() * slots as usize;
        self.take_over(library, bytes);
        let judged = judge::plan(&demand, slots as usize, rule, &self.written, report);
        assert_eq!(judged, Ok(()), "{self:?}");
        if rule == LEAST {
            let capacity = full_capacity(demand.nodes(), slots as usize);
            let most = demand.total() - least::refused(&demand, &capacity);
            assert_eq!(i64::from(report.kept), most, "{self:?}");
        }
        let carried = schedule::counts(demand.nodes(), &self.written.schedule[..bytes]);
        run::send(&mut self.record, &mut self.books, &carried);
    }

    /// The cells of a plan; extra cells stay.
    fn take_over(&mut self, library: &mut Loan, bytes: usize) {
        let Written {
            kept,
            withdrawn,
            schedule,
        } = &mut self.written;
        let cells = (self.record.nodes * self.record.nodes) as usize;
        kept[..cells].copy_from_slice(&library.kept.cells()[..cells]);
        withdrawn[..cells].copy_from_slice(&library.withdrawn.cells()[..cells]);
        schedule[..bytes].copy_from_slice(&library.schedule.cells()[..bytes]);
    }
}

/// What a call says that is no frame.
fn unreported(answer: Answer) -> Said {
    (answer, Report::default())
}

/// The same record and tables, lent to the library with watched cells around each.
#[derive(Clone, Debug, PartialEq, Eq)]
struct Loan {
    record: Lent<Run>,
    waiting: Lent<u32>,
    posted: Lent<u64>,
    sent: Lent<u64>,
    dropped: Lent<u64>,
    kept: Lent<u32>,
    withdrawn: Lent<u32>,
    schedule: Lent<u8>,
}

impl Loan {
    fn of(state: &State) -> Loan {
        let State {
            record,
            books,
            written,
        } = state;
        let canary = as_lent(&Record::fresh(3, 5, 7, 1));
        Loan {
            record: Lent::new(&[as_lent(record)], canary),
            waiting: Lent::new(&books.waiting, u32::MAX),
            posted: Lent::new(&books.posted, u64::MAX),
            sent: Lent::new(&books.sent, u64::MAX),
            dropped: Lent::new(&books.dropped, u64::MAX),
            kept: Lent::new(&written.kept, u32::MAX),
            withdrawn: Lent::new(&written.withdrawn, u32::MAX),
            schedule: Lent::new(&written.schedule, 254),
        }
    }

    fn in_c(&mut self, call: &Call) -> Said {
        match *call {
            Call::Fresh {
                nodes,
                slots,
                limit,
                rule,
            } => unreported(self.fresh_in_c(nodes, slots, limit, rule)),
            Call::Post(ref arrivals) => unreported(self.post_in_c(arrivals)),
            Call::Frame => self.frame_in_c(),
        }
    }

    fn fresh_in_c(&mut self, nodes: u32, slots: u32, limit: u32, rule: u32) -> Answer {
        let mut place = u32::MAX;
        let number = raw::fresh(
            &mut self.record.cells()[0],
            nodes,
            slots,
            limit,
            rule,
            self.waiting.cells(),
            self.posted.cells(),
            self.sent.cells(),
            self.dropped.cells(),
            &mut place,
        );
        (number, place)
    }

    fn post_in_c(&mut self, arrivals: &[u32]) -> Answer {
        let before = Lent::new(arrivals, 0);
        let mut arrivals = before.clone();
        let mut place = u32::MAX;
        let number = raw::post(
            &mut self.record.cells()[0],
            arrivals.cells(),
            self.waiting.cells(),
            self.posted.cells(),
            self.sent.cells(),
            self.dropped.cells(),
            &mut place,
        );
        assert_eq!(arrivals, before, "the arrivals were written to");
        (number, place)
    }

    fn frame_in_c(&mut self) -> Said {
        let mut report = [u32::MAX; 4];
        let number = raw::frame(
            &mut self.record.cells()[0],
            self.waiting.cells(),
            self.posted.cells(),
            self.sent.cells(),
            self.dropped.cells(),
            self.kept.cells(),
            self.withdrawn.cells(),
            self.schedule.cells(),
            &mut report,
        );
        said_in_c(number, report)
    }

    fn in_rust(&mut self, call: &Call) -> Said {
        let run = &mut self.record.cells()[0];
        let mut books = gyodaebeun::Books {
            waiting: self.waiting.cells(),
            posted: self.posted.cells(),
            sent: self.sent.cells(),
            dropped: self.dropped.cells(),
        };
        match *call {
            Call::Fresh {
                nodes,
                slots,
                limit,
                rule,
            } => {
                let answer = run.fresh(nodes, slots, limit, rule, &mut books);
                unreported(by_library(answer))
            }
            Call::Post(ref arrivals) => unreported(by_library(run.post(arrivals, &mut books))),
            Call::Frame => {
                let (kept, withdrawn) = (self.kept.cells(), self.withdrawn.cells());
                said_in_rust(run.frame(&mut books, kept, withdrawn, self.schedule.cells()))
            }
        }
    }
}

fn as_lent(record: &Record) -> Run {
    Run {
        nodes: record.nodes,
        slots: record.slots,
        limit: record.limit,
        rule: record.rule,
        posts: record.posts,
        frames: record.frames,
    }
}

/// What each pair has posted, sent and dropped, read off posts and schedules alone.
#[derive(Clone, Debug)]
struct Ledger {
    posted: Vec<u64>,
    sent: Vec<u64>,
    dropped: Vec<u64>,
}

impl Ledger {
    fn of(books: &Books) -> Ledger {
        Ledger {
            posted: books.posted.clone(),
            sent: books.sent.clone(),
            dropped: books.dropped.clone(),
        }
    }

    fn waiting(&self, cell: usize) -> u64 {
        self.posted[cell] - self.sent[cell] - self.dropped[cell]
    }

    /// Enters an accepted call, after which the parties hold `state`.
    fn enter(&mut self, call: &Call, state: &State) {
        let n = state.record.nodes as usize;
        match call {
            Call::Fresh { .. } => {
                for table in [&mut self.posted, &mut self.sent, &mut self.dropped] {
                    table[..n * n].fill(0);
                }
            }
            Call::Post(arrivals) => {
                for (cell, &arrival) in arrivals[..n * n].iter().enumerate() {
                    let queue = self.waiting(cell) + u64::from(arrival);
                    self.posted[cell] += u64::from(arrival);
                    self.dropped[cell] += queue.saturating_sub(u64::from(state.record.limit));
                }
            }
            Call::Frame => {
                let bytes = n * state.record.slots as usize;
                for (at, &source) in state.written.schedule[..bytes].iter().enumerate() {
                    if source != schedule::IDLE {
                        self.sent[usize::from(source) * n + at % n] += 1;
                    }
                }
            }
        }
    }

    fn agrees(&self, state: &State) -> bool {
        let Books {
            waiting,
            posted,
            sent,
            dropped,
        } = &state.books;
        let cells = (state.record.nodes * state.record.nodes) as usize;
        let tables = [&self.posted, &self.sent, &self.dropped];
        tables == [posted, sent, dropped]
            && (0..cells).all(|cell| self.waiting(cell) == u64::from(waiting[cell]))
    }
}

/// The three parties, and what posts and schedules say.
#[derive(Clone, Debug)]
pub struct Parties {
    state: State,
    in_c: Loan,
    in_rust: Loan,
    ledger: Ledger,
}

impl Parties {
    pub fn holding(state: State) -> Parties {
        Parties {
            in_c: Loan::of(&state),
            in_rust: Loan::of(&state),
            ledger: Ledger::of(&state.books),
            state,
        }
    }

    /// What all three hold.
    pub fn state(&self) -> &State {
        &self.state
    }

    /// The answer that all three give, once they hold the same; nothing is changed by a refusal.
    #[track_caller]
    pub fn call(&mut self, call: &Call) -> Answer {
        let before = self.state.clone();
        let (answer, report) = self.in_c.in_c(call);
        let again = self.in_rust.in_rust(call);
        assert_eq!(again, (answer, report), "{call:?} on {before:?}");
        let expected = self.state.follow(call);
        assert_eq!(answer, expected, "{call:?} on {before:?}");
        if answer == (0, 0) {
            self.accepted(call, report);
        } else {
            assert_eq!(report, Report::default(), "{call:?} on {before:?}");
            assert_eq!(self.state, before, "{call:?}");
        }
        let held = Loan::of(&self.state);
        assert_eq!(self.in_c, held, "{call:?} on {before:?}");
        assert_eq!(self.in_rust, held, "{call:?} on {before:?}");
        answer
    }

    #[track_caller]
    fn accepted(&mut self, call: &Call, report: Report) {
        if let Call::Frame = call {
            self.state.carry(&mut self.in_c, report);
        }
        self.ledger.enter(call, &self.state);
        let agrees = self.ledger.agrees(&self.state);
        assert!(agrees, "{call:?} led to {:?}", self.state);
    }
}
