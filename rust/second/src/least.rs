//! Document 01, "Least rule".

use std::cmp::Reverse;

use crate::flow;
use crate::matrix::Matrix;

/// The plain formulation: a largest admissible matrix below the demand, as one flow over every row
/// and column.
pub fn largest_admissible(demand: &Matrix, capacity: &[i64]) -> Matrix {
    flow::largest(demand, capacity)
}

/// The least that any conflict-free schedule refuses.
pub fn refused(demand: &Matrix, capacity: &[i64]) -> i64 {
    demand.total() - largest_admissible(demand, capacity).total()
}

/// A withdrawn matrix of the greatest total.
pub fn withdrawn(demand: &Matrix, capacity: &[i64]) -> Matrix {
    let mut bound = demand.clone();
    for pair in demand.pairs() {
        if !demand.is_critical(capacity, pair) {
            bound.put(pair, 0);
        }
    }
    flow::largest(&bound, &excesses(demand, capacity))
}

/// "Zero off the critical pairs, at most D at each, its row sums at most the row's excess and its
/// column sums at most the column's."
pub fn is_withdrawn(demand: &Matrix, capacity: &[i64], a: &Matrix) -> bool {
    let excess = excesses(demand, capacity);
    a.is_below(demand)
        && a.is_admissible(&excess)
        && a.pairs()
            .all(|pair| a.at(pair) == 0 || demand.is_critical(capacity, pair))
}

/// "Among all such matrices its total is the greatest": then "the refused total is all row
/// excesses plus all column excesses minus the total of A", and the plain formulation gives it.
pub fn is_greatest(demand: &Matrix, capacity: &[i64], a: &Matrix) -> bool {
    let excess: i64 = excesses(demand, capacity).iter().sum();
    is_withdrawn(demand, capacity, a) && excess - a.total() == refused(demand, capacity)
}

/// What D keeps once A, a greatest withdrawn matrix, is taken out: "for a line whose sum s in E
/// exceeds L", its shares; "other cells keep E".
pub fn kept_from(demand: &Matrix, capacity: &[i64], a: &Matrix) -> Matrix {
    let e = demand.minus(a);
    let mut kept = e.clone();
    for line in e.lines().filter(|&line| e.overflows(capacity, line)) {
        let asked: Vec<i64> = e.line(line).map(|pair| e.at(pair)).collect();
        for (pair, share) in e.line(line).zip(shares(&asked, capacity[line])) {
            kept.put(pair, share);
        }
    }
    kept
}

/// "Each cell v keeps v×L/s rounded down. The slots still missing from L go one each to the cells
/// with the largest remainder of v×L by s; equal remainders, the lowest index in the line first."
fn shares(asked: &[i64], capacity: i64) -> Vec<i64> {
    let sum: i64 = asked.iter().sum();
    let mut shares: Vec<i64> = asked.iter().map(|v| v * capacity / sum).collect();
    let mut order: Vec<usize> = (0..asked.len()).collect();
    order.sort_by_key(|&index| (Reverse(asked[index] * capacity % sum), index));
    let missing = capacity - shares.iter().sum::<i64>();
    for &index in order.iter().take(missing as usize) {
        shares[index] += 1;
    }
    shares
}

/// The excess of each line.
pub fn excesses(demand: &Matrix, capacity: &[i64]) -> Vec<i64> {
    let excess = |line| demand.excess(capacity, line);
    demand.lines().map(excess).collect()
}
