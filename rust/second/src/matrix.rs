//! Matrices over pairs, their lines, and what a line lacks or has too much.

/// One number per pair, source by source.
#[derive(Clone, Debug, PartialEq, Eq, PartialOrd, Ord)]
pub struct Matrix {
    n: usize,
    cells: Vec<i64>,
}

impl Matrix {
    pub fn zero(n: usize) -> Matrix {
        Matrix {
            n,
            cells: vec![0; n * n],
        }
    }

    /// "Matrices are row-major: pair (i,j) is cell i×N+j." Extra cells of the table are not read.
    pub fn read(n: usize, table: &[u32]) -> Matrix {
        Matrix {
            n,
            cells: table[..n * n].iter().map(|&v| i64::from(v)).collect(),
        }
    }

    /// Into the first N×N cells of a table.
    pub fn write(&self, table: &mut [u32]) {
        for (cell, &v) in table.iter_mut().zip(&self.cells) {
            *cell = u32::try_from(v).expect("a cell holds a 32-bit number");
        }
    }

    pub fn nodes(&self) -> usize {
        self.n
    }

    pub fn at(&self, (i, j): (usize, usize)) -> i64 {
        self.cells[i * self.n + j]
    }

    pub fn put(&mut self, (i, j): (usize, usize), v: i64) {
        self.cells[i * self.n + j] = v;
    }

    pub fn pairs(&self) -> impl Iterator<Item = (usize, usize)> + use<> {
        let n = self.n;
        (0..n).flat_map(move |i| (0..n).map(move |j| (i, j)))
    }

    pub fn lines(&self) -> std::ops::Range<usize> {
        0..2 * self.n
    }

    /// "Lines 0 to N−1 are the rows; line N+j is column j." The pairs of a line, by index.
    pub fn line(&self, line: usize) -> impl Iterator<Item = (usize, usize)> + use<> {
        let n = self.n;
        (0..n).map(move |t| if line < n { (line, t) } else { (t, line - n) })
    }

    pub fn line_sum(&self, line: usize) -> i64 {
        self.line(line).map(|pair| self.at(pair)).sum()
    }

    pub fn total(&self) -> i64 {
        self.cells.iter().sum()
    }

    /// Cell by cell, what this matrix has beyond the other.
    pub fn minus(&self, other: &Matrix) -> Matrix {
        let cells = self.cells.iter().zip(&other.cells).map(|(v, w)| v - w);
        Matrix {
            n: self.n,
            cells: cells.collect(),
        }
    }

    /// No cell above the other's.
    pub fn is_below(&self, other: &Matrix) -> bool {
        self.cells.iter().zip(&other.cells).all(|(v, w)| v <= w)
    }

    /// "The slack of a line is L minus its sum": here the line's capacity minus its sum.
    pub fn slack(&self, capacity: &[i64], line: usize) -> i64 {
        capacity[line] - self.line_sum(line)
    }

    /// "A line overflows when its slack is negative; sum equal to L does not overflow."
    pub fn overflows(&self, capacity: &[i64], line: usize) -> bool {
        self.slack(capacity, line) < 0
    }

    /// "The excess is minus the slack of an overflowing line"; 0 for any other line.
    pub fn excess(&self, capacity: &[i64], line: usize) -> i64 {
        (-self.slack(capacity, line)).max(0)
    }

    /// "A pair is critical when its row and its column both overflow."
    pub fn is_critical(&self, capacity: &[i64], (i, j): (usize, usize)) -> bool {
        self.overflows(capacity, i) && self.overflows(capacity, self.n + j)
    }

    /// "Admissible: no line above L."
    pub fn is_admissible(&self, capacity: &[i64]) -> bool {
        self.cells.iter().all(|&v| v >= 0)
            && !self.lines().any(|line| self.overflows(capacity, line))
    }
}

/// L for every line.
pub fn full_capacity(n: usize, slots: usize) -> Vec<i64> {
    vec![i64::try_from(slots).expect("L is at most 1,024"); 2 * n]
}
