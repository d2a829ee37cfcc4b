//! Whether a plan, by whoever made it, is one that document 01 allows. Under the least rule many
//! are; under both rules the slots a pair gets are free. And whether a text can be that of a
//! scenario.

use crate::matrix::{self, Matrix};
use crate::plan::{Report, Written};
use crate::scenario::{Played, Scenario};
use crate::scenario_text::{self, Line};
use crate::{fair, least, limits, schedule};

/// Says the first thing wrong with the written tables and the report that came with them.
pub fn plan(
    demand: &Matrix,
    slots: usize,
    rule: u32,
    written: &Written,
    report: Report,
) -> Result<(), &'static str> {
    let n = demand.nodes();
    let capacity = matrix::full_capacity(n, slots);
    let kept = Matrix::read(n, &written.kept);
    let withdrawn = Matrix::read(n, &written.withdrawn);
    let bytes = &written.schedule[..slots * n];
    if rule == limits::FAIR {
        require(
            withdrawn == Matrix::zero(n),
            "fair, yet slots are withdrawn",
        )?;
        require(kept == fair::kept(demand, &capacity), "not the fair cut")?;
    } else {
        let greatest = least::is_greatest(demand, &capacity, &withdrawn);
        require(greatest, "withdrawn is not a greatest one")?;
        let follows = kept == least::kept_from(demand, &capacity, &withdrawn);
        require(follows, "kept does not follow from demand and withdrawn")?;
    }
    require(kept.is_below(demand), "more kept than asked")?;
    require(kept.is_admissible(&capacity), "kept is not admissible")?;
    require(schedule::is_conflict_free(n, bytes), "a conflict in a slot")?;
    require(schedule::counts(n, bytes) == kept, "not the kept slots")?;
    let refused = demand.total() - kept.total();
    require(i64::from(report.kept) == kept.total(), "wrong kept total")?;
    require(i64::from(report.refused) == refused, "wrong refused total")?;
    let counted = schedule::reconfigurations(n, bytes);
    let right = report.reconfigurations as usize == counted;
    require(right, "wrong reconfigurations")
}

/// Says the first thing wrong with the text printed of a scenario.
pub fn played(scenario: &Scenario, text: &[u8]) -> Result<(), &'static str> {
    let Played { books, chose } = scenario.play();
    let expected = scenario_text::lines(scenario.start.nodes, &books);
    if !chose {
        let same = text == scenario_text::print(&expected).as_bytes();
        return require(same, "not the only right text");
    }
    let lines = scenario_text::read_lines(text).ok_or("not lines of six numbers")?;
    let pairs = |lines: &[Line]| -> Vec<Vec<u64>> {
        let posted = lines.iter().map(|line| line[..3].to_vec());
        posted.collect()
    };
    let same = pairs(&lines) == pairs(&expected);
    require(same, "other pairs, or more or less posted")?;
    books_can_be(scenario, &lines)?;
    let sent = |lines: &[Line]| -> u64 { lines.iter().map(|line| line[3]).sum() };
    let most = scenario.frames() != 1 || sent(&lines) == sent(&expected);
    require(most, "a frame that sends another total")
}

/// What is known of the books of a run whatever was withdrawn: they agree, and no line sends more
/// than its frames carry.
fn books_can_be(scenario: &Scenario, lines: &[Line]) -> Result<(), &'static str> {
    let start = &scenario.start;
    let agree = |&[_, _, posted, sent, dropped, waiting]: &Line| {
        let sum = u128::from(sent) + u128::from(dropped) + u128::from(waiting);
        u128::from(posted) == sum && waiting <= u64::from(start.limit)
    };
    require(lines.iter().all(agree), "books that disagree")?;
    let carried = scenario.frames() * u64::from(start.slots);
    let fits = |end: usize, node: u64| {
        let on_line = lines.iter().filter(|line| line[end] == node);
        on_line.map(|line| line[3]).sum::<u64>() <= carried
    };
    let mut nodes = 0..u64::from(start.nodes);
    let all_fit = nodes.all(|node| fits(0, node) && fits(1, node));
    require(all_fit, "more sent than the frames carry")
}

fn require(holds: bool, otherwise: &'static str) -> Result<(), &'static str> {
    if holds { Ok(()) } else { Err(otherwise) }
}
