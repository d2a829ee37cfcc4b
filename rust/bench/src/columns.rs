//! What is measured: a table for each step, and in it the programs beside each other. A further
//! program is one more column of a table.

use std::time::Instant;

use second::limits::{FAIR, LEAST};
use second::matrix::{Matrix, full_capacity};
use second::plan::Written;
use second::{fair, least, schedule};

use crate::lemon::{self, Network};

/// A demand, and the tables that the programs fill, one column after the other: a later column
/// reads what an earlier one wrote.
pub struct Work {
    n: usize,
    slots: usize,
    demand: Vec<u32>,
    capacity: Vec<u32>,
    withdrawn: Vec<u32>,
    marks: Vec<u8>,
    least: Written,
    fair: Written,
    second: Second,
    lemon: Lemon,
}

/// The same for the second program.
struct Second {
    demand: Matrix,
    capacity: Vec<i64>,
    withdrawn: Matrix,
    least: Matrix,
    fair: Matrix,
    schedule: Vec<u8>,
    written: Written,
}

/// The same for LEMON; no graph where it is not installed.
struct Lemon {
    graph: Option<Network>,
    withdrawn: Vec<u32>,
}

impl Work {
    pub fn new(n: usize, slots: u32, demand: Vec<u32>) -> Work {
        let capacity = vec![slots; 2 * n];
        Work {
            n,
            slots: slots as usize,
            withdrawn: vec![0; n * n],
            marks: vec![0; 2 * n],
            least: tables(n, slots),
            fair: tables(n, slots),
            second: Second::new(n, slots, &demand),
            lemon: Lemon {
                graph: Network::new(n, &capacity, &demand),
                withdrawn: vec![0; n * n],
            },
            demand,
            capacity,
        }
    }

    /// Whether what the library and LEMON withdrew is greatest, and so of the same total; the second
    /// program judges. Asked once all columns of [`FLOW`] and [`PLAN`] were called.
    pub fn flows_are_greatest(&self) -> bool {
        let Second {
            demand, capacity, ..
        } = &self.second;
        let is_greatest =
            |table: &[u32]| least::is_greatest(demand, capacity, &Matrix::read(self.n, table));
        is_greatest(&self.withdrawn)
            && is_greatest(&self.least.withdrawn)
            && (!lemon::INSTALLED || is_greatest(&self.lemon.withdrawn))
    }
}

impl Second {
    fn new(n: usize, slots: u32, demand: &[u32]) -> Second {
        Second {
            demand: Matrix::read(n, demand),
            capacity: full_capacity(n, slots as usize),
            withdrawn: Matrix::zero(n),
            least: Matrix::zero(n),
            fair: Matrix::zero(n),
            schedule: Vec::new(),
            written: tables(n, slots),
        }
    }
}

/// As long as a plan needs them.
fn tables(n: usize, slots: u32) -> Written {
    Written {
        kept: vec![0; n * n],
        withdrawn: vec![0; n * n],
        schedule: vec![0; slots as usize * n],
    }
}

/// Whose time a column shows.
#[derive(Clone, Copy, PartialEq, Eq)]
pub enum Program {
    Library,
    Second,
    Lemon,
}

impl Program {
    /// How often it is called; not at all where it is not installed.
    fn calls(self) -> usize {
        match self {
            Program::Library => 5,
            Program::Second => 1,
            Program::Lemon if lemon::INSTALLED => 5,
            Program::Lemon => 0,
        }
    }
}

/// A program, and what of it is called.
pub struct Column {
    pub program: Program,
    pub title: &'static str,
    call: fn(&mut Work),
}

impl Column {
    const fn new(program: Program, title: &'static str, call: fn(&mut Work)) -> Column {
        Column {
            program,
            title,
            call,
        }
    }

    /// The fastest call; none where the program is not installed.
    pub fn microseconds(&self, work: &mut Work) -> Option<f64> {
        let time = |_| {
            let start = Instant::now();
            (self.call)(work);
            start.elapsed().as_secs_f64() * 1e6
        };
        (0..self.program.calls()).map(time).min_by(f64::total_cmp)
    }
}

/// From the demands to a greatest withdrawn matrix. LEMON works on a graph: its first column is
/// `Preflow` alone, its start and both its phases, on a graph made beforehand; its second is from
/// table to table as in the library, the graph made and freed.
pub const FLOW: [Column; 4] = [
    Column::new(Program::Library, "library", |w| {
        let (withdrawn, marks) = (&mut w.withdrawn, &mut w.marks);
        lab::withdraw(w.n, &w.capacity, &w.demand, withdrawn, marks);
    }),
    Column::new(Program::Second, "second", |w| {
        let Second {
            demand, capacity, ..
        } = &w.second;
        w.second.withdrawn = least::withdrawn(demand, capacity);
    }),
    Column::new(Program::Lemon, "LEMON Preflow", |w| {
        if let Some(graph) = &mut w.lemon.graph {
            graph.run();
        }
    }),
    Column::new(Program::Lemon, "LEMON with graph", |w| {
        if let Some(mut graph) = Network::new(w.n, &w.capacity, &w.demand) {
            graph.withdraw(&mut w.lemon.withdrawn);
        }
    }),
];

/// From the demands, and for the least rule what was withdrawn, to the kept matrix.
pub const KEPT: [Column; 4] = [
    Column::new(Program::Library, "least, library", |w| {
        let kept = &mut w.least.kept;
        // The table before found what is withdrawn.
        unsafe { lab::keep(w.n, &w.capacity, &w.demand, &w.withdrawn, kept) };
    }),
    Column::new(Program::Second, "least, second", |w| {
        let Second {
            demand, capacity, ..
        } = &w.second;
        w.second.least = least::kept_from(demand, capacity, &w.second.withdrawn);
    }),
    Column::new(Program::Library, "fair, library", |w| {
        lab::fair_cut(w.n, &w.capacity, &w.demand, &mut w.fair.kept);
    }),
    Column::new(Program::Second, "fair, second", |w| {
        w.second.fair = fair::kept(&w.second.demand, &w.second.capacity);
    }),
];

/// From the kept matrix to a schedule; the library counts its reconfigurations too.
pub const PLACEMENT: [Column; 4] = [
    Column::new(Program::Library, "least, library", |w| {
        lab::place(w.n, w.slots, &mut w.least.kept, &mut w.least.schedule);
    }),
    Column::new(Program::Second, "least, second", |w| {
        w.second.schedule = schedule::place(&w.second.least, w.slots);
    }),
    Column::new(Program::Library, "fair, library", |w| {
        lab::place(w.n, w.slots, &mut w.fair.kept, &mut w.fair.schedule);
    }),
    Column::new(Program::Second, "fair, second", |w| {
        w.second.schedule = schedule::place(&w.second.fair, w.slots);
    }),
];

/// The entry `plan`: its checks, the steps above and, in the second program, the count of
/// reconfigurations.
pub const PLAN: [Column; 4] = [
    Column::new(Program::Library, "least, library", |w| {
        plan(w.n, w.slots, LEAST, &w.demand, &mut w.least);
    }),
    Column::new(Program::Second, "least, second", |w| plan_second(w, LEAST)),
    Column::new(Program::Library, "fair, library", |w| {
        plan(w.n, w.slots, FAIR, &w.demand, &mut w.fair);
    }),
    Column::new(Program::Second, "fair, second", |w| plan_second(w, FAIR)),
];

fn plan(n: usize, slots: usize, rule: u32, demand: &[u32], written: &mut Written) {
    let (nodes, slots) = (n as u32, slots as u32);
    let Written {
        kept,
        withdrawn,
        schedule,
    } = written;
    gyodaebeun::plan(nodes, slots, rule, demand, kept, withdrawn, schedule).expect("accepted");
}

fn plan_second(w: &mut Work, rule: u32) {
    let (nodes, slots) = (w.n as u32, w.slots as u32);
    let written = &mut w.second.written;
    second::plan::plan(nodes, slots, rule, &w.demand, written).expect("accepted");
}

pub type Count = fn(&Work) -> usize;

/// Reconfigurations of the library's schedules, and a bound that no schedule stays below.
pub const RECONFIGURATIONS: [(&str, Count); 4] = [
    ("least, library", |w| reconfigurations(w, &w.least)),
    ("least, bound", |w| fewest(w, &w.least)),
    ("fair, library", |w| reconfigurations(w, &w.fair)),
    ("fair, bound", |w| fewest(w, &w.fair)),
];

fn reconfigurations(w: &Work, written: &Written) -> usize {
    schedule::reconfigurations(w.n, &written.schedule)
}

fn fewest(w: &Work, written: &Written) -> usize {
    schedule::fewest_reconfigurations(&Matrix::read(w.n, &written.kept), w.slots)
}
