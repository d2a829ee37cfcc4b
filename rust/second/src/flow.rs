//! The greatest flow, by pushing stored flow downhill and lifting what is stuck.

use std::collections::VecDeque;

use crate::matrix::Matrix;

/// A largest matrix below `bound` whose line sums stay within `ceiling`: one vertex per line, a
/// start that feeds the rows and an end that takes from the columns.
pub fn largest(bound: &Matrix, ceiling: &[i64]) -> Matrix {
    let n = bound.nodes();
    let (start, end) = (2 * n, 2 * n + 1);
    let mut headroom = vec![vec![0; 2 * n + 2]; 2 * n + 2];
    for i in 0..n {
        headroom[start][i] = ceiling[i];
        headroom[n + i][end] = ceiling[n + i];
    }
    for (i, j) in bound.pairs() {
        headroom[i][n + j] = bound.at((i, j));
    }
    push_all(&mut headroom, start, end);
    let mut largest = Matrix::zero(n);
    for (i, j) in bound.pairs() {
        largest.put((i, j), headroom[n + j][i]);
    }
    largest
}

/// Sends the greatest flow from `start` to `end`; `headroom` is what each arc can still carry, and
/// gains backwards what it loses forwards.
fn push_all(headroom: &mut [Vec<i64>], start: usize, end: usize) {
    let count = headroom.len();
    let mut height = vec![0; count];
    let mut stored = vec![0; count];
    let mut active = VecDeque::new();
    height[start] = count;
    stored[start] = headroom[start].iter().sum();
    for v in 0..count {
        if push(headroom, &mut stored, start, v) {
            active.push_back(v);
        }
    }
    while let Some(u) = active.pop_front() {
        while stored[u] > 0 {
            for v in 0..count {
                let was_empty = stored[v] == 0;
                if height[u] == height[v] + 1
                    && push(headroom, &mut stored, u, v)
                    && was_empty
                    && v != start
                    && v != end
                {
                    active.push_back(v);
                }
            }
            if stored[u] > 0 {
                let open = (0..count).filter(|&v| headroom[u][v] > 0);
                height[u] = 1 + open.map(|v| height[v]).min().expect("the way back is open");
            }
        }
    }
}

/// Moves what is stored at u to v as far as there is headroom; whether anything moved.
fn push(headroom: &mut [Vec<i64>], stored: &mut [i64], u: usize, v: usize) -> bool {
    let moved = stored[u].min(headroom[u][v]);
    headroom[u][v] -= moved;
    headroom[v][u] += moved;
    stored[u] -= moved;
    stored[v] += moved;
    moved > 0
}
