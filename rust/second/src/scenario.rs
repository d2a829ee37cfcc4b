//! Document 02, #101: a run kept as one file, read, written and played.

use crate::limits;
use crate::matrix::{Matrix, full_capacity};
use crate::plan;
use crate::refusal::{self, Call, Refusal};
use crate::run::{self, Books, Record};

/// "Each entry's kind (0 post, 1 frame)."
pub const POST: u32 = 0;
pub const FRAME: u32 = 1;

/// What the numbers before the first entry take, and what an entry takes: "four bytes each".
const HEAD: u64 = 5 * 4;
const ENTRY: u64 = 2 * 4;

/// A run from its fresh start on.
#[derive(Clone, Debug, PartialEq, Eq)]
pub struct Scenario {
    /// N, L, B and the rule, before any call.
    pub start: Record,
    pub entries: Vec<Entry>,
}

#[derive(Clone, Debug, PartialEq, Eq)]
pub enum Entry {
    /// With its N×N arrivals.
    Post(Vec<u32>),
    Frame,
}

/// "10, place 0, for a table cut short or over 4,096 entries; 1, 2, 3, 7; then 10, place the first
/// entry, from 0," with a fault.
pub fn read(file: &[u8]) -> Result<Scenario, Refusal> {
    let (start, table) = table(file).ok_or(Refusal::bad_file(0))?;
    check_values(&start)?;
    let matrices = Matrices {
        file,
        from: HEAD + ENTRY * table.len() as u64,
        pairs: pairs(&start),
    };
    let entry = |(index, &row): (usize, &[u32; 2])| {
        let entry = matrices.entry(row);
        entry.ok_or(Refusal::bad_file(index))
    };
    let entries = table.iter().enumerate().map(entry);
    Ok(Scenario {
        start,
        entries: entries.collect::<Result<_, _>>()?,
    })
}

/// "It starts with a table: N, L, B, the rule, the number of entries (at most 4,096), then each
/// entry's kind and the place of its matrix"; none where that is cut short or has too many entries.
fn table(file: &[u8]) -> Option<(Record, Vec<[u32; 2]>)> {
    let words = numbers(file, 4);
    let (&[nodes, slots, limit, rule, entries], rows) = words.split_first_chunk()?;
    let (rows, _) = rows.as_chunks();
    let entries = usize::try_from(entries).ok()?;
    let few = entries <= limits::ENTRIES && entries <= rows.len();
    let start = Record::fresh(nodes, slots, limit, rule);
    few.then(|| (start, rows[..entries].to_vec()))
}

fn check_values(start: &Record) -> Result<(), Refusal> {
    let call = Call {
        values: *start,
        ..Call::default()
    };
    call.check(refusal::SCENARIO)
}

/// The cells of a matrix. N is in its range.
fn pairs(start: &Record) -> u64 {
    u64::from(start.nodes) * u64::from(start.nodes)
}

/// Where the matrices of a file may lie.
struct Matrices<'a> {
    file: &'a [u8],
    /// Where the table ends.
    from: u64,
    pairs: u64,
}

impl Matrices<'_> {
    /// The entry of this kind and place. None for "an unknown kind, a frame's place not 0, or a
    /// matrix not wholly between the table and the file's end".
    fn entry(&self, row: [u32; 2]) -> Option<Entry> {
        match row {
            [POST, place] => self.at(u64::from(place)).map(Entry::Post),
            [FRAME, 0] => Some(Entry::Frame),
            _ => None,
        }
    }

    /// "Cells of two bytes; posts may share one."
    fn at(&self, place: u64) -> Option<Vec<u32>> {
        let end = place + 2 * self.pairs;
        let between = self.from <= place && end <= self.file.len() as u64;
        between.then(|| numbers(&self.file[place as usize..end as usize], 2))
    }
}

/// The numbers of so many bytes each, as far as there are whole ones. "Low bytes come first."
fn numbers(bytes: &[u8], width: usize) -> Vec<u32> {
    let number = |bytes: &[u8]| {
        let high_first = bytes.iter().rev();
        high_first.fold(0, |v, &byte| 256 * v + u32::from(byte))
    };
    bytes.chunks_exact(width).map(number).collect()
}

fn bytes(numbers: &[u32], width: usize) -> Vec<u8> {
    let low_first = |v: &u32| v.to_le_bytes().into_iter().take(width);
    numbers.iter().flat_map(low_first).collect()
}

/// Writes a file from N, L, B, the rule, each entry's kind, and the cells of one post after the
/// other; gives its length. "Write it too, each post's matrix in turn."
pub fn write(
    nodes: u32,
    slots: u32,
    limit: u32,
    rule: u32,
    kinds: &[u32],
    cells: &[u32],
    file: &mut [u8],
) -> Result<usize, Refusal> {
    let start = Record::fresh(nodes, slots, limit, rule);
    check_write(&start, kinds, cells, file)?;
    let bytes = Scenario::from_tables(start, kinds, cells).bytes();
    file[..bytes.len()].copy_from_slice(&bytes);
    Ok(bytes.len())
}

/// "Writing: those that apply, then 4 for missing cells, 5, 6."
fn check_write(start: &Record, kinds: &[u32], cells: &[u32], file: &[u8]) -> Result<(), Refusal> {
    let refuse = |number, place| Err(Refusal { number, place });
    if kinds.len() > limits::ENTRIES {
        return Err(Refusal::bad_file(0));
    }
    check_values(start)?;
    if let Some(entry) = kinds.iter().position(|kind| ![POST, FRAME].contains(kind)) {
        return Err(Refusal::bad_file(entry));
    }
    let posts = kinds.iter().filter(|&&kind| kind == POST).count() as u64;
    let needed = posts * pairs(start);
    if (cells.len() as u64) < needed {
        return refuse(4, 0);
    }
    if (file.len() as u64) < HEAD + ENTRY * kinds.len() as u64 + 2 * needed {
        return refuse(5, 0);
    }
    let above = cells.iter().position(|&cell| cell > limits::DEMAND);
    match above.filter(|&cell| (cell as u64) < needed) {
        Some(cell) => refuse(6, cell as u32),
        None => Ok(()),
    }
}

/// What a run holds at its end.
pub struct Played {
    pub books: Books,
    /// Whether some frame had a choice of what to withdraw: another player may have chosen
    /// otherwise, and end with other books.
    pub chose: bool,
}

/// Whether the least rule can withdraw from several pairs.
fn has_choice(demand: &Matrix, slots: usize) -> bool {
    let capacity = full_capacity(demand.nodes(), slots);
    let open = |&pair: &_| demand.at(pair) > 0 && demand.is_critical(&capacity, pair);
    demand.pairs().filter(open).count() > 1
}

impl Scenario {
    /// The tables hold as many cells as the posts need, or more.
    fn from_tables(start: Record, kinds: &[u32], cells: &[u32]) -> Scenario {
        let mut matrices = cells.chunks(pairs(&start) as usize);
        let entry = |&kind: &u32| match kind {
            POST => Entry::Post(matrices.next().expect("one for each post").to_vec()),
            _ => Entry::Frame,
        };
        Scenario {
            start,
            entries: kinds.iter().map(entry).collect(),
        }
    }

    /// The file whose matrices stand right behind the table, one for each post.
    pub fn bytes(&self) -> Vec<u8> {
        let Record {
            nodes,
            slots,
            limit,
            rule,
            ..
        } = self.start;
        let count = self.entries.len() as u32;
        let mut table = vec![nodes, slots, limit, rule, count];
        let mut cells = Vec::new();
        for entry in &self.entries {
            match entry {
                Entry::Post(arrivals) => {
                    let before = 2 * cells.len() as u64;
                    let place = HEAD + ENTRY * u64::from(count) + before;
                    table.extend([POST, place as u32]);
                    cells.extend(arrivals);
                }
                Entry::Frame => table.extend([FRAME, 0]),
            }
        }
        [bytes(&table, 4), bytes(&cells, 2)].concat()
    }

    pub fn frames(&self) -> u64 {
        let frames = self.entries.iter().filter(|&entry| *entry == Entry::Frame);
        frames.count() as u64
    }

    /// From empty queues on. No call is refused: cells have two bytes, and there are fewer entries
    /// than a run accepts calls.
    pub fn play(&self) -> Played {
        let mut record = self.start;
        let (n, slots) = (record.nodes as usize, record.slots as usize);
        let mut books = Books::zero(n * n);
        let mut chose = false;
        for entry in &self.entries {
            match entry {
                Entry::Post(arrivals) => {
                    run::post(&mut record, arrivals, &mut books).expect("accepted");
                }
                Entry::Frame => {
                    let demand = Matrix::read(n, &books.waiting);
                    let (kept, _) = plan::kept(&demand, slots, record.rule);
                    run::send(&mut record, &mut books, &kept);
                    chose |= record.rule == limits::LEAST && has_choice(&demand, slots);
                }
            }
        }
        Played { books, chose }
    }
}
