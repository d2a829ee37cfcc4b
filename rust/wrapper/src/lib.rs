//! Safe Rust over the proved planner for optical star networks: N edge nodes on one switch, frames
//! of L slots. A call is accepted, or refused with a [`Refusal`] and then nothing is written.
//!
//! Matrices are row-major: pair (i,j), source i to destination j, is cell i×N+j. A longer table
//! than needed is accepted; its extra cells are neither read nor changed. All tables are the
//! caller's, and so is the record of a run. A call takes no other memory than its stack, of which
//! 4 KiB are enough on x86-64, but for [`play_scenario`], for which 220 KiB are
//! (`gyodaebeun.h` has what was measured).
//!
//! One frame, planned under the least rule: of 12 slots asked, the frame carries 10.
//!
//! ```
//! let demand = [11, 1, 0, 0];
//! let (mut kept, mut withdrawn, mut schedule) = ([0; 4], [0; 4], [0; 20]);
//! let report = gyodaebeun::plan(2, 10, 1, &demand, &mut kept, &mut withdrawn, &mut schedule)?;
//! assert_eq!((report.kept, report.refused), (10, 2));
//! assert_eq!(kept, [9, 1, 0, 0]);
//! assert_eq!(withdrawn, [1, 0, 0, 0]);
//! let idle = schedule.iter().filter(|&&source| source == 255);
//! assert_eq!(idle.count(), 10);
//! # Ok::<(), gyodaebeun::Refusal>(())
//! ```
//!
//! A run: what does not fit into a frame waits for the next, as far as the queue limit allows.
//!
//! ```
//! use gyodaebeun::{Books, Run};
//!
//! let mut books = Books {
//!     waiting: &mut [0],
//!     posted: &mut [0],
//!     sent: &mut [0],
//!     dropped: &mut [0],
//! };
//! let (mut kept, mut withdrawn, mut schedule) = ([0], [0], [0; 4]);
//! let mut run = Run::default();
//! run.fresh(1, 4, 6, 1, &mut books)?;
//! for arrivals in [[10], [3]] {
//!     run.post(&arrivals, &mut books)?;
//!     let report = run.frame(&mut books, &mut kept, &mut withdrawn, &mut schedule)?;
//!     assert_eq!(report.kept, 4);
//! }
//! assert_eq!((books.posted[0], books.sent[0]), (13, 8));
//! assert_eq!((books.dropped[0], books.waiting[0]), (4, 1));
//! # Ok::<(), gyodaebeun::Refusal>(())
//! ```
//!
//! A run can be kept as a file: [`write_scenario`] makes one, and [`play_scenario`] plays it, as the
//! program `scenario` does.
//!
//! A refusal says why, and where.
//!
//! ```
//! let refusal = gyodaebeun::slacks(1, 4, &[65_536], &mut [0; 2]).unwrap_err();
//! assert_eq!((refusal.number(), refusal.place()), (6, 0));
//! ```

mod refusal;
mod run;
mod scenario;

pub mod raw;

pub use refusal::Refusal;
pub use run::{Books, Run};
pub use scenario::{FRAME, POST, TEXT_BYTES, play_scenario, write_scenario};

/// The slack of each line, L minus the line's sum, into the first 2N cells of `slacks`: the rows,
/// then the columns. A line overflows where its slack is negative.
///
/// `demand` holds N×N cells. Refused by [`Refusal::Nodes`], [`Refusal::Slots`],
/// [`Refusal::DemandShort`], [`Refusal::TableShort`] and [`Refusal::DemandAbove`]; then nothing is
/// written.
pub fn slacks(nodes: u32, slots: u32, demand: &[u32], slacks: &mut [i32]) -> Result<(), Refusal> {
    let mut place = 0;
    let number = raw::slacks(nodes, slots, demand, slacks, &mut place);
    Refusal::given(number, place)
}

/// What a plan or a frame reports beside its tables.
#[derive(Clone, Copy, Debug, PartialEq, Eq)]
pub struct Report {
    /// The slots that all pairs keep.
    pub kept: u32,
    /// The demand of all pairs minus what they keep.
    pub refused: u32,
    /// How many slots differ from the one before for some destination, idle being a value like any
    /// other.
    pub reconfigurations: u32,
}

impl Report {
    /// The answer of a call that returned this number and stored this report.
    fn given(number: u32, report: [u32; 4]) -> Result<Report, Refusal> {
        let [place, kept, refused, reconfigurations] = report;
        Refusal::given(number, place).map(|()| Report {
            kept,
            refused,
            reconfigurations,
        })
    }
}

/// The slots that each pair keeps under a rule, 0 fair or 1 least, into the first N×N cells of
/// `kept`, what the least rule withdrew into those of `withdrawn`, zeros under the fair rule, and
/// how a frame carries what is kept into the first L×N bytes of `schedule`: slot k, destination j at
/// k×N+j holds the source, or 255 for idle.
///
/// The fair rule: as long as the sum of some line is above L, each such line has the fraction
/// (L−b)/a, where b is the sum of its cells that were cut before and a that of the others, and the
/// line with the smallest fraction, of equal ones the lowest line, is cut: its other cells are
/// multiplied by the fraction and rounded down. Slots lost by rounding stay idle.
///
/// The least rule: from the pairs whose row and column both have a sum above L, as many slots as
/// possible are withdrawn, from no pair more than it asks and from no line more than it is above L.
/// Each line whose sum s is then still above L keeps v×L/s of each cell v, rounded down, and its
/// slots still missing from L go one each to the cells with the largest remainder, of equal ones the
/// first in the line.
///
/// Under both rules what is kept is at most the demand, no line of it is above L, the schedule gives
/// each pair exactly its kept slots and is idle elsewhere, and no source stands twice in a slot.
/// Under the least rule no schedule of L slots could refuse less. Withdrawn is not demand minus kept,
/// but only what was withdrawn before lines were cut: in the [first example](crate) that is 1 slot,
/// and 2 are refused. Where several plans are right, in which slots a pair sends or in what is
/// withdrawn, the library chooses one.
///
/// `demand` holds N×N cells. Refused by [`Refusal::Nodes`], [`Refusal::Slots`], [`Refusal::Rule`],
/// [`Refusal::DemandShort`], [`Refusal::TableShort`] and [`Refusal::DemandAbove`]; then nothing is
/// written.
pub fn plan(
    nodes: u32,
    slots: u32,
    rule: u32,
    demand: &[u32],
    kept: &mut [u32],
    withdrawn: &mut [u32],
    schedule: &mut [u8],
) -> Result<Report, Refusal> {
    let mut report = [0; 4];
    let number = raw::plan(
        nodes,
        slots,
        rule,
        demand,
        kept,
        withdrawn,
        schedule,
        &mut report,
    );
    Report::given(number, report)
}
