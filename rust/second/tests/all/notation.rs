//! The notation of document 01: rows parted by strokes.

use second::judge;
use second::matrix::Matrix;
use second::plan::{self, Report, Written};

pub struct Demand {
    pub nodes: u32,
    pub cells: Vec<u32>,
}

pub fn rows(text: &str) -> Demand {
    let row = |row: &str| -> Vec<u32> {
        let cells = row.split_whitespace();
        cells.map(|cell| cell.parse().expect("a number")).collect()
    };
    let rows: Vec<Vec<u32>> = text.split('/').map(row).collect();
    assert!(rows.iter().all(|row| row.len() == rows.len()), "{text}");
    Demand {
        nodes: rows.len() as u32,
        cells: rows.concat(),
    }
}

pub fn matrix(text: &str) -> Matrix {
    let Demand { nodes, cells } = rows(text);
    Matrix::read(nodes as usize, &cells)
}

/// Tables of just the length needed.
pub fn tables(nodes: usize, slots: usize) -> Written {
    Written {
        kept: vec![7; nodes * nodes],
        withdrawn: vec![7; nodes * nodes],
        schedule: vec![7; slots * nodes],
    }
}

/// The plan for a demand, found right in every respect.
pub fn planned(demand: &Demand, slots: u32, rule: u32) -> (Written, Report) {
    let Demand { nodes, cells } = demand;
    let mut written = tables(*nodes as usize, slots as usize);
    let report = plan::plan(*nodes, slots, rule, cells, &mut written).expect("accepted");
    let demand = Matrix::read(*nodes as usize, cells);
    let judged = judge::plan(&demand, slots as usize, rule, &written, report);
    assert_eq!(judged, Ok(()), "{demand:?}");
    (written, report)
}
