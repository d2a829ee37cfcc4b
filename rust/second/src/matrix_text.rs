//! Document 01, "The matrix program", from its input to its output.

use std::fmt::Write;

use crate::limits;
use crate::matrix::Matrix;
use crate::plan::Plan;
use crate::refusal::{Call, Refusal};
use crate::run::Record;

pub fn matrix_text(input: &[u8]) -> Vec<u8> {
    answer(input).unwrap_or_else(Wrong::text).into_bytes()
}

/// Why there is nothing else to print.
pub(crate) enum Wrong {
    BadInput,
    Refused(Refusal),
}

impl Wrong {
    pub(crate) fn text(self) -> String {
        match self {
            Wrong::BadInput => "bad input\n".to_string(),
            Wrong::Refused(Refusal { number, place }) => format!("refused {number} {place}\n"),
        }
    }
}

/// "Then refusals 1, 2, 3 are given; then a wrong count of demands prints `bad input`; then 6."
fn answer(input: &[u8]) -> Result<String, Wrong> {
    let list = numbers(input).ok_or(Wrong::BadInput)?;
    let [nodes, slots, rule, demand @ ..] = &list[..] else {
        return Err(Wrong::BadInput);
    };
    let call = Call {
        values: Record::outside(*nodes, *slots, *rule),
        asked: demand,
        ..Call::default()
    };
    call.check(&[1, 2, 3]).map_err(Wrong::Refused)?;
    if demand.len() != (nodes * nodes) as usize {
        return Err(Wrong::BadInput);
    }
    call.check(&[6]).map_err(Wrong::Refused)?;
    let demand = Matrix::read(*nodes as usize, demand);
    let plan = Plan::new(&demand, *slots as usize, *rule);
    Ok(print(&demand, *slots, *rule, &plan))
}

/// "Decimal numbers of 1 to 9 digits parted by one or more spaces or line feeds (also allowed at
/// either end)"; none for anything else, or where the input is too long.
fn numbers(input: &[u8]) -> Option<Vec<u32>> {
    if input.len() > limits::INPUT {
        return None;
    }
    let words = input.split(|byte| matches!(byte, b' ' | b'\n'));
    words.filter(|word| !word.is_empty()).map(number).collect()
}

fn number(word: &[u8]) -> Option<u32> {
    let decimal = word.len() <= limits::DIGITS && word.iter().all(u8::is_ascii_digit);
    let value = |word: &[u8]| word.iter().fold(0, |v, d| 10 * v + u32::from(d - b'0'));
    decimal.then(|| value(word))
}

/// "Line 1 gives N, L and the rule, line 2 gives the two totals, then one line per source with its
/// kept slots by destination."
fn print(demand: &Matrix, slots: u32, rule: u32, plan: &Plan) -> String {
    let n = demand.nodes();
    let report = plan.report(demand);
    let mut text = format!("nodes {n} slots {slots} rule {rule}\n");
    writeln!(text, "kept {} refused {}", report.kept, report.refused).expect("text grows");
    for source in 0..n {
        let row = plan.kept.line(source);
        let cells: Vec<String> = row.map(|pair| plan.kept.at(pair).to_string()).collect();
        text += &cells.join(" ");
        text += "\n";
    }
    text
}
