//! What the comparisons share: lent tables whose surroundings are watched, answers that both
//! programs give in their own words, stars for the inner layers, the parties to a run, the player of
//! a scenario, the proved programs, calls whose stack is measured, and signatures in three
//! languages.

pub mod measured;
pub mod program;
pub mod run;
pub mod scenario;
pub mod signatures;

use std::path::Path;

use second::inputs::{FAMILIES, Random};
use second::matrix::Matrix;
use second::plan::Report;

/// The folder of the repository.
pub fn repository() -> &'static Path {
    let here = Path::new(env!("CARGO_MANIFEST_DIR"));
    here.ancestors().nth(2).expect("rust/ lies in it")
}

/// A table lent from the middle of a longer one, so that a write outside it shows.
#[derive(Clone, Debug, PartialEq, Eq)]
pub struct Lent<T> {
    all: Vec<T>,
    length: usize,
}

/// How many cells are watched on each side.
const MARGIN: usize = 16;

impl<T: Copy> Lent<T> {
    /// Lends these cells; those around them hold `canary`.
    pub fn new(cells: &[T], canary: T) -> Lent<T> {
        let margin = [canary; MARGIN];
        Lent {
            all: [&margin, cells, &margin].concat(),
            length: cells.len(),
        }
    }

    pub fn cells(&mut self) -> &mut [T] {
        &mut self.all[MARGIN..MARGIN + self.length]
    }
}

impl<T: PartialEq> Lent<T> {
    /// Whether all but the first `count` cells are as they were, those around the table included.
    pub fn changed_only(&self, count: usize, before: &Lent<T>) -> bool {
        let rest = MARGIN + count..;
        self.all[..MARGIN] == before.all[..MARGIN] && self.all[rest.clone()] == before.all[rest]
    }
}

/// A refusal's number and place, both 0 for an accepted call.
pub type Answer = (u32, u32);

pub fn by_second<T>(answer: Result<T, second::refusal::Refusal>) -> Answer {
    answer.map_or_else(|refusal| (refusal.number, refusal.place), |_| (0, 0))
}

pub fn by_library<T>(answer: Result<T, gyodaebeun::Refusal>) -> Answer {
    answer.map_or_else(|refusal| (refusal.number(), refusal.place()), |_| (0, 0))
}

/// What a plan or a frame says: its answer and its report, zeros where it is refused.
pub type Said = (Answer, Report);

/// Of a call in C that returned this number and stored this report.
pub fn said_in_c(number: u32, report: [u32; 4]) -> Said {
    let [place, kept, refused, reconfigurations] = report;
    let report = Report {
        kept,
        refused,
        reconfigurations,
    };
    ((number, place), report)
}

pub fn said_in_rust(said: Result<gyodaebeun::Report, gyodaebeun::Refusal>) -> Said {
    let report = said.map_or(Report::default(), |report| Report {
        kept: report.kept,
        refused: report.refused,
        reconfigurations: report.reconfigurations,
    });
    (by_library(said), report)
}

/// A demand, and the capacity of each line, in tables with extra cells out of every range.
#[derive(Clone, Debug)]
pub struct Star {
    pub n: usize,
    pub slots: u32,
    pub capacity: Vec<u32>,
    pub demand: Vec<u32>,
}

impl Star {
    pub fn new(slots: u32, capacity: &[u32], demand: &[u32]) -> Star {
        let n = capacity.len() / 2;
        assert_eq!(demand.len(), n * n);
        Star {
            n,
            slots,
            capacity: [capacity, &[1_025, u32::MAX]].concat(),
            demand: [demand, &[65_536, u32::MAX]].concat(),
        }
    }

    /// Every line's capacity is L.
    pub fn even(n: usize, slots: u32, demand: &[u32]) -> Star {
        Star::new(slots, &vec![slots; 2 * n], demand)
    }

    /// The demand as the second program takes it.
    pub fn asked(&self) -> Matrix {
        Matrix::read(self.n, &self.demand)
    }

    /// The capacities as the second program takes them.
    pub fn capacities(&self) -> Vec<i64> {
        wide(&self.capacity[..2 * self.n])
    }
}

/// Stars of every family in turn. In one round every line's capacity is L, in the next each line's
/// is from 0 to L.
pub fn stars(random: &mut Random, rounds: usize) -> Vec<Star> {
    let mut stars = Vec::new();
    for round in 0..rounds {
        for (_, family) in FAMILIES {
            let (n, slots) = (random.nodes(), random.slots());
            let demand = family(random, n, slots);
            let lowest = if round % 2 == 0 { slots } else { 0 };
            let capacity = (0..2 * n).map(|_| lowest + random.up_to(slots - lowest));
            stars.push(Star::new(slots, &capacity.collect::<Vec<_>>(), &demand));
        }
    }
    stars
}

/// Stars of 64 nodes and 1,024 slots, one of every family.
pub fn largest_stars(random: &mut Random) -> Vec<Star> {
    let demands = FAMILIES.map(|(_, family)| family(random, 64, 1_024));
    let star = |demand: Vec<u32>| Star::even(64, 1_024, &demand);
    demands.into_iter().map(star).collect()
}

/// Every list of `length` numbers below `end`.
pub fn lists(length: usize, end: u32) -> impl Iterator<Item = Vec<u32>> {
    (0..end.pow(length as u32)).map(move |code| {
        let digit = |place| code / end.pow(place) % end;
        (0..length as u32).map(digit).collect()
    })
}

pub fn wide(table: &[u32]) -> Vec<i64> {
    table.iter().map(|&v| i64::from(v)).collect()
}

/// What no matrix below `bound` can exceed whose line sums are at most `ceiling`, whichever lines
/// are marked: the ceilings of the rows without a mark and of the columns with one, and the bounds
/// where a row with a mark meets a column without.
pub fn cut(bound: &Matrix, ceiling: &[i64], marks: &[u8]) -> i64 {
    let n = bound.nodes();
    let marked = |line: usize| marks[line] != 0;
    let lines = bound.lines().filter(|&line| marked(line) == (line >= n));
    let pairs = bound.pairs().filter(|&(i, j)| marked(i) && !marked(n + j));
    lines.map(|line| ceiling[line]).sum::<i64>() + pairs.map(|pair| bound.at(pair)).sum::<i64>()
}
