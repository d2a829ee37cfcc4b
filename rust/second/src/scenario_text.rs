//! Document 02, #101: the scenario program, from its input to its output.

use crate::limits;
use crate::matrix_text::Wrong;
use crate::run::Books;
use crate::scenario::{self, Played};

pub fn scenario_text(input: &[u8]) -> Vec<u8> {
    answer(input).unwrap_or_else(Wrong::text).into_bytes()
}

/// "Over 65,536 bytes prints `bad input`"; "a refusal prints as in the matrix program".
fn answer(input: &[u8]) -> Result<String, Wrong> {
    if input.len() > limits::INPUT {
        return Err(Wrong::BadInput);
    }
    let scenario = scenario::read(input).map_err(Wrong::Refused)?;
    let Played { books, .. } = scenario.play();
    Ok(print(&lines(scenario.start.nodes, &books)))
}

/// "Source, destination, posted, sent, dropped, waiting."
pub type Line = [u64; 6];

/// "A line per pair with anything posted, in row order."
pub fn lines(nodes: u32, books: &Books) -> Vec<Line> {
    let pairs = (0..nodes).flat_map(|i| (0..nodes).map(move |j| (i, j)));
    let line = |(cell, (source, destination)): (usize, (u32, u32))| {
        [
            u64::from(source),
            u64::from(destination),
            books.posted[cell],
            books.sent[cell],
            books.dropped[cell],
            u64::from(books.waiting[cell]),
        ]
    };
    let lines = pairs.enumerate().map(line);
    lines.filter(|&[_, _, posted, ..]| posted > 0).collect()
}

/// "Parted by one space."
pub fn print(lines: &[Line]) -> String {
    let line = |numbers: &Line| numbers.map(|v| v.to_string()).join(" ") + "\n";
    lines.iter().map(line).collect()
}

/// The lines of a text, if it is printed so.
pub fn read_lines(text: &[u8]) -> Option<Vec<Line>> {
    let text = str::from_utf8(text).ok()?;
    let line = |line: &str| -> Option<Line> {
        let numbers: Option<Vec<u64>> = line.split(' ').map(|word| word.parse().ok()).collect();
        numbers?.try_into().ok()
    };
    let lines: Vec<Line> = text.lines().map(line).collect::<Option<_>>()?;
    (print(&lines) == text).then_some(lines)
}
