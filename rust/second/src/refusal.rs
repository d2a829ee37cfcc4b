//! Document 01, "What is refused", and what document 02 adds.

use crate::limits;
use crate::run::{Books, Record};

#[derive(Clone, Copy, Debug, PartialEq, Eq)]
pub struct Refusal {
    pub number: u32,
    pub place: u32,
}

impl Refusal {
    /// Document 02's 10: "place 0, for a table cut short or over 4,096 entries", otherwise "the
    /// first entry, from 0", that has a fault.
    pub fn bad_file(entry: usize) -> Refusal {
        Refusal {
            number: 10,
            place: entry as u32,
        }
    }
}

/// "Checks run in the order 1, 2, 3, 7, 4, 5, 8, 9, 6, as far as they apply."
pub const ORDER: [u32; 9] = [1, 2, 3, 7, 4, 5, 8, 9, 6];

/// "Which apply."
pub const SLACKS: &[u32] = &[1, 2, 4, 5, 6];
pub const PLAN: &[u32] = &[1, 2, 3, 4, 5, 6];
pub const FRESH: &[u32] = &[1, 2, 3, 7, 5];
pub const POST: &[u32] = &[1, 2, 3, 7, 4, 5, 8, 9, 6];
pub const FRAME: &[u32] = &[1, 2, 3, 7, 5, 8, 9];

/// Of a scenario file, between a 10 that is about its table and a 10 that is about an entry.
pub const SCENARIO: &[u32] = &[1, 2, 3, 7];

/// What an entry was called with, as far as the checks that apply to it look.
#[derive(Default)]
pub struct Call<'a> {
    /// N, L, the rule, B and the posts; an entry outside a run leaves the last two at 0.
    pub values: Record,
    /// Demand or arrivals.
    pub asked: &'a [u32],
    /// The length of each table that 5 is about, and what it must hold.
    pub tables: Vec<(usize, Holds)>,
    pub books: Option<&'a Books>,
    /// How often this kind of call was accepted.
    pub accepted: u32,
}

/// What a table must hold.
#[derive(Clone, Copy)]
pub enum Holds {
    Lines,
    Pairs,
    Slots,
}

impl Call<'_> {
    /// "The first that fires is given."
    pub fn check(&self, apply: &[u32]) -> Result<(), Refusal> {
        let mut order = ORDER.into_iter().filter(|number| apply.contains(number));
        let fires = |number| self.place(number).map(|place| Refusal { number, place });
        order.find_map(fires).map_or(Ok(()), Err)
    }

    /// The place of a refusal, if its check fires. The checks of tables come after those of N and L.
    fn place(&self, number: u32) -> Option<u32> {
        let values = &self.values;
        match number {
            1 => (!limits::NODES.contains(&values.nodes)).then_some(0),
            2 => (!limits::SLOTS.contains(&values.slots)).then_some(0),
            3 => (!limits::RULES.contains(&values.rule)).then_some(0),
            4 => (self.asked.len() < self.needed(Holds::Pairs)).then_some(0),
            5 => {
                let short = |&(length, holds): &(usize, Holds)| length < self.needed(holds);
                self.tables.iter().any(short).then_some(0)
            }
            6 => self.first_cell(|cell| self.asked[cell] > limits::DEMAND),
            7 => (!limits::QUEUE.contains(&values.limit)).then_some(0),
            8 => {
                let books = self.books.expect("a call of a run lends its books");
                self.first_cell(|cell| !books.agree(cell, values.limit, values.posts))
            }
            9 => (self.accepted >= limits::CALLS).then_some(0),
            _ => unreachable!("there is no other refusal"),
        }
    }

    /// "The first such cell in row order gives the place."
    fn first_cell(&self, bad: impl Fn(usize) -> bool) -> Option<u32> {
        let cell = (0..self.needed(Holds::Pairs)).find(|&cell| bad(cell));
        cell.map(|cell| cell as u32)
    }

    fn needed(&self, holds: Holds) -> usize {
        let n = self.values.nodes as usize;
        match holds {
            Holds::Lines => 2 * n,
            Holds::Pairs => n * n,
            Holds::Slots => n * self.values.slots as usize,
        }
    }
}
