//! A day of three nodes, written as a scenario to standard output: a morning, a noon at which queues
//! run over, an evening. The program `day.c` writes the same, and `examples/day.scenario` of the
//! repository is what they write.

use std::error::Error;
use std::io::{self, Write};

use gyodaebeun::{FRAME, POST, write_scenario};

const NODES: usize = 3;
const PAIRS: usize = NODES * NODES;
const SLOTS: u32 = 8;
const QUEUE_LIMIT: u32 = 40;
const FAIR: u32 = 0;

const KINDS: [u32; 12] = [
    POST, FRAME, POST, FRAME, POST, POST, FRAME, FRAME, POST, FRAME, FRAME, FRAME,
];

const ARRIVALS: [[u32; PAIRS]; 5] = [
    [0, 4, 2, 3, 0, 5, 1, 6, 0],
    [0, 9, 3, 8, 0, 2, 4, 7, 0],
    [0, 30, 5, 12, 0, 20, 2, 25, 0],
    [0, 25, 0, 30, 0, 4, 0, 28, 6],
    [0, 2, 1, 1, 0, 3, 2, 1, 0],
];

const LENGTH: usize = 20 + 8 * KINDS.len() + 2 * PAIRS * ARRIVALS.len();

fn main() -> Result<(), Box<dyn Error>> {
    let mut file = [0; LENGTH];
    let cells = ARRIVALS.as_flattened();
    let nodes = NODES as u32;
    let length = write_scenario(nodes, SLOTS, QUEUE_LIMIT, FAIR, &KINDS, cells, &mut file)?;
    io::stdout().write_all(&file[..length])?;
    Ok(())
}
