//! Document 01, "Fair rule".

use std::collections::BTreeSet;

use crate::fraction::Fraction;
use crate::matrix::Matrix;

type Pairs = BTreeSet<(usize, usize)>;

/// "While some line's sum exceeds L ..: each unmodified cell v becomes v×(L−b)/a rounded down at
/// once, and counts as modified from then on."
pub fn kept(demand: &Matrix, capacity: &[i64]) -> Matrix {
    let mut kept = demand.clone();
    let mut modified = Pairs::new();
    while let Some((fraction, line)) = next_cut(&kept, &modified, capacity) {
        for pair in kept.line(line) {
            if modified.insert(pair) {
                kept.put(pair, fraction.of(kept.at(pair)));
            }
        }
    }
    kept
}

/// "Take the line with the smallest fraction (L−b)/a, compared exactly; on a tie, the lowest line
/// number."
fn next_cut(kept: &Matrix, modified: &Pairs, capacity: &[i64]) -> Option<(Fraction, usize)> {
    kept.lines()
        .filter(|&line| kept.line_sum(line) > capacity[line])
        .map(|line| (fraction(kept, modified, capacity, line), line))
        .min()
}

/// (L−b)/a, where "b is the sum of its modified cells and a the sum of its unmodified ones".
fn fraction(kept: &Matrix, modified: &Pairs, capacity: &[i64], line: usize) -> Fraction {
    let (done, open): (Vec<_>, Vec<_>) = kept.line(line).partition(|pair| modified.contains(pair));
    let sum = |pairs: Vec<_>| pairs.into_iter().map(|pair| kept.at(pair)).sum::<i64>();
    Fraction::new(capacity[line] - sum(done), sum(open))
}
