use std::error::Error;
use std::fmt;

/// Why a call was refused. Where several reasons hold, the first in the order of the checks is
/// given; `README.md` of the repository has that order, under "What is refused".
#[derive(Clone, Copy, Debug, PartialEq, Eq)]
pub enum Refusal {
    /// 1: N is not 1 to 64.
    Nodes,
    /// 2: L is not 1 to 1,024.
    Slots,
    /// 3: the rule is neither 0 nor 1.
    Rule,
    /// 4: demand or arrivals are shorter than N×N, or a scenario's than N×N for each post.
    DemandShort,
    /// 5: a table to be written, or one of a run's four, is too short.
    TableShort,
    /// 6: a demand or arrival is above 65,535; the first such cell.
    DemandAbove { cell: u32 },
    /// 7: the queue limit is not 1 to 65,535.
    QueueLimit,
    /// 8: a pair's books disagree; the first such cell.
    BooksDisagree { cell: u32 },
    /// 9: this kind of call was accepted 1,000,000 times or more already.
    CallsSpent,
    /// 10: a scenario has more than 4,096 entries, and then the entry is 0; or an entry is neither
    /// a post nor a frame, and it is the first such entry.
    BadFile { entry: u32 },
}

impl Refusal {
    /// The answer of a call that returned this number and this place.
    pub(crate) fn given(number: u32, place: u32) -> Result<(), Refusal> {
        Err(match number {
            0 => return Ok(()),
            1 => Refusal::Nodes,
            2 => Refusal::Slots,
            3 => Refusal::Rule,
            4 => Refusal::DemandShort,
            5 => Refusal::TableShort,
            6 => Refusal::DemandAbove { cell: place },
            7 => Refusal::QueueLimit,
            8 => Refusal::BooksDisagree { cell: place },
            9 => Refusal::CallsSpent,
            10 => Refusal::BadFile { entry: place },
            _ => unreachable!("there is no refusal {number}"),
        })
    }

    /// The number of the refusal, 1 to 10.
    pub fn number(self) -> u32 {
        match self {
            Refusal::Nodes => 1,
            Refusal::Slots => 2,
            Refusal::Rule => 3,
            Refusal::DemandShort => 4,
            Refusal::TableShort => 5,
            Refusal::DemandAbove { .. } => 6,
            Refusal::QueueLimit => 7,
            Refusal::BooksDisagree { .. } => 8,
            Refusal::CallsSpent => 9,
            Refusal::BadFile { .. } => 10,
        }
    }

    /// The cell or the entry the refusal is about, 0 where it is about none.
    pub fn place(self) -> u32 {
        match self {
            Refusal::DemandAbove { cell } | Refusal::BooksDisagree { cell } => cell,
            Refusal::BadFile { entry } => entry,
            _ => 0,
        }
    }
}

impl fmt::Display for Refusal {
    fn fmt(&self, f: &mut fmt::Formatter<'_>) -> fmt::Result {
        match self {
            Refusal::Nodes => f.write_str("the number of nodes is not 1 to 64"),
            Refusal::Slots => f.write_str("the number of slots is not 1 to 1024"),
            Refusal::Rule => f.write_str("the rule is neither 0 nor 1"),
            Refusal::DemandShort => f.write_str("demand or arrivals lack cells"),
            Refusal::TableShort => f.write_str("a table is too short"),
            Refusal::DemandAbove { cell } => {
                write!(f, "the demand or arrival of cell {cell} is above 65535")
            }
            Refusal::QueueLimit => f.write_str("the queue limit is not 1 to 65535"),
            Refusal::BooksDisagree { cell } => write!(f, "the books of cell {cell} disagree"),
            Refusal::CallsSpent => f.write_str("this call was accepted 1000000 times already"),
            Refusal::BadFile { entry: 0 } => {
                f.write_str("there are over 4096 entries, or entry 0 is neither a post nor a frame")
            }
            Refusal::BadFile { entry } => {
                write!(f, "entry {entry} is neither a post nor a frame")
            }
        }
    }
}

impl Error for Refusal {}

#[cfg(test)]
mod tests {
    use super::Refusal;

    #[test]
    fn numbers_and_places_come_back() {
        assert_eq!(Refusal::given(0, 0), Ok(()));
        for number in 1..=10 {
            let place = if matches!(number, 6 | 8 | 10) {
                4_095
            } else {
                0
            };
            let refusal = Refusal::given(number, place).expect_err("refused");
            assert_eq!((refusal.number(), refusal.place()), (number, place));
            assert!(!refusal.to_string().is_empty());
        }
    }
}
