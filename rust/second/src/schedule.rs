//! Schedules: "slot k, destination j at k×N+j, holding the source, or 255 for idle".

use crate::matrix::Matrix;

pub const IDLE: u8 = 255;

/// "In each slot a destination hears one source or nobody, and a source feeds at most one
/// destination."
pub fn is_conflict_free(n: usize, schedule: &[u8]) -> bool {
    schedule.chunks(n).all(|slot| {
        let mut fed: Vec<u8> = slot.iter().copied().filter(|&s| s != IDLE).collect();
        fed.sort_unstable();
        fed.iter().all(|&s| usize::from(s) < n) && fed.windows(2).all(|two| two[0] != two[1])
    })
}

/// How many slots each pair gets.
pub fn counts(n: usize, schedule: &[u8]) -> Matrix {
    let mut counts = Matrix::zero(n);
    for slot in schedule.chunks(n) {
        for (j, &source) in slot.iter().enumerate().filter(|&(_, &s)| s != IDLE) {
            let pair = (usize::from(source), j);
            counts.put(pair, counts.at(pair) + 1);
        }
    }
    counts
}

/// "Refused in 000 is the sum over pairs of the demand not met by the slots given."
pub fn refused(demand: &Matrix, counts: &Matrix) -> i64 {
    let lacking = |pair| (demand.at(pair) - counts.at(pair)).max(0);
    demand.pairs().map(lacking).sum()
}

/// "The number of k from 0 to L−2 at which slot k and slot k+1 differ for some destination, idle
/// being a value like any other."
pub fn reconfigurations(n: usize, schedule: &[u8]) -> usize {
    let settings: Vec<&[u8]> = schedule.chunks(n).collect();
    settings.windows(2).filter(|two| two[0] != two[1]).count()
}

/// What no schedule of these slots stays below: a line takes turns among its pairs that get slots
/// and, unless it is full, idle.
pub fn fewest_reconfigurations(kept: &Matrix, slots: usize) -> usize {
    let turns = |line| {
        let pairs = kept.line(line).filter(|&pair| kept.at(pair) > 0).count();
        let idle = kept.line_sum(line) < slots as i64;
        pairs + usize::from(idle)
    };
    let most = kept.lines().map(turns).max();
    most.map_or(0, |turns| turns - 1)
}

/// A schedule that gives each pair exactly its kept slots, entered one by one.
pub fn place(kept: &Matrix, slots: usize) -> Vec<u8> {
    let mut frame = Frame::idle(kept.nodes(), slots);
    for pair in kept.pairs() {
        for _ in 0..kept.at(pair) {
            frame.enter(pair);
        }
    }
    frame.bytes()
}

/// Who hears whom and who feeds whom, slot by slot.
struct Frame {
    heard: Vec<Vec<Option<usize>>>,
    fed: Vec<Vec<Option<usize>>>,
}

impl Frame {
    fn idle(n: usize, slots: usize) -> Frame {
        Frame {
            heard: vec![vec![None; n]; slots],
            fed: vec![vec![None; n]; slots],
        }
    }

    /// Both lines of the pair must have a slot left.
    fn enter(&mut self, (source, destination): (usize, usize)) {
        let source_idle = |frame: &Frame, k: usize| frame.fed[k][source].is_none();
        let destination_idle = |frame: &Frame, k: usize| frame.heard[k][destination].is_none();
        let common = self.first(|frame, k| source_idle(frame, k) && destination_idle(frame, k));
        let slot = common.unwrap_or_else(|| {
            let from = self.first(source_idle).expect("the row has room");
            let to = self.first(destination_idle).expect("the column has room");
            self.exchange(destination, from, to);
            from
        });
        self.put(slot, source, destination);
    }

    fn first(&self, fits: impl Fn(&Frame, usize) -> bool) -> Option<usize> {
        (0..self.heard.len()).find(|&slot| fits(self, slot))
    }

    /// Frees the destination in slot `from`: what it hears there moves to slot `to`, what that
    /// source feeds in `to` moves back to `from`, and so on with the destination it feeds. A source
    /// that is idle in `from` is never met, nor one node twice.
    fn exchange(&mut self, destination: usize, from: usize, to: usize) {
        let mut chain = Vec::new();
        let mut next = Some(destination);
        while let Some(j) = next
            && let Some(i) = self.heard[from][j]
        {
            chain.push((from, to, i, j));
            next = self.fed[to][i];
            chain.extend(next.map(|fed| (to, from, i, fed)));
        }
        for &(here, _, i, j) in &chain {
            self.heard[here][j] = None;
            self.fed[here][i] = None;
        }
        for &(_, there, i, j) in &chain {
            self.put(there, i, j);
        }
    }

    fn put(&mut self, slot: usize, source: usize, destination: usize) {
        self.heard[slot][destination] = Some(source);
        self.fed[slot][source] = Some(destination);
    }

    fn bytes(&self) -> Vec<u8> {
        let byte = |source: &Option<usize>| source.map_or(IDLE, |i| i as u8);
        self.heard.iter().flatten().map(byte).collect()
    }
}
