//! The entries `slacks` and `plan`.

use crate::matrix::{self, Matrix};
use crate::refusal::{self, Call, Holds, Refusal};
use crate::run::Record;
use crate::{fair, least, limits, schedule};

/// "Slacks go to a signed table of 2N cells in line order."
pub fn slacks(nodes: u32, slots: u32, demand: &[u32], slacks: &mut [i32]) -> Result<(), Refusal> {
    let call = Call {
        values: Record::outside(nodes, slots, limits::FAIR),
        asked: demand,
        tables: vec![(slacks.len(), Holds::Lines)],
        ..Call::default()
    };
    call.check(refusal::SLACKS)?;
    let demand = Matrix::read(nodes as usize, demand);
    let capacity = matrix::full_capacity(nodes as usize, slots as usize);
    for line in demand.lines() {
        let slack = demand.slack(&capacity, line);
        slacks[line] = i32::try_from(slack).expect("from −4,194,239 to 1,024");
    }
    Ok(())
}

/// The tables that a plan or a frame writes.
#[derive(Clone, Debug, Default, PartialEq, Eq)]
pub struct Written {
    pub kept: Vec<u32>,
    pub withdrawn: Vec<u32>,
    pub schedule: Vec<u8>,
}

impl Written {
    pub fn tables(&self) -> Vec<(usize, Holds)> {
        vec![
            (self.kept.len(), Holds::Pairs),
            (self.withdrawn.len(), Holds::Pairs),
            (self.schedule.len(), Holds::Slots),
        ]
    }

    /// Into the first N×N or L×N cells of each table.
    pub fn write(&mut self, plan: &Plan) {
        plan.kept.write(&mut self.kept);
        plan.withdrawn.write(&mut self.withdrawn);
        self.schedule[..plan.schedule.len()].copy_from_slice(&plan.schedule);
    }
}

/// What a plan or a frame reports beside its tables.
#[derive(Clone, Copy, Debug, Default, PartialEq, Eq)]
pub struct Report {
    pub kept: u32,
    pub refused: u32,
    pub reconfigurations: u32,
}

pub fn plan(
    nodes: u32,
    slots: u32,
    rule: u32,
    demand: &[u32],
    written: &mut Written,
) -> Result<Report, Refusal> {
    let call = Call {
        values: Record::outside(nodes, slots, rule),
        asked: demand,
        tables: written.tables(),
        ..Call::default()
    };
    call.check(refusal::PLAN)?;
    let demand = Matrix::read(nodes as usize, demand);
    let plan = Plan::new(&demand, slots as usize, rule);
    written.write(&plan);
    Ok(plan.report(&demand))
}

/// A plan for a frame of L slots.
#[derive(Clone, Debug)]
pub struct Plan {
    pub kept: Matrix,
    pub withdrawn: Matrix,
    pub schedule: Vec<u8>,
}

/// What is kept under a rule, and what is withdrawn. "Under rule 0 the withdrawn table is filled
/// with zeros."
pub fn kept(demand: &Matrix, slots: usize, rule: u32) -> (Matrix, Matrix) {
    let n = demand.nodes();
    let capacity = matrix::full_capacity(n, slots);
    if rule == limits::FAIR {
        return (fair::kept(demand, &capacity), Matrix::zero(n));
    }
    let withdrawn = least::withdrawn(demand, &capacity);
    (least::kept_from(demand, &capacity, &withdrawn), withdrawn)
}

impl Plan {
    pub fn new(demand: &Matrix, slots: usize, rule: u32) -> Plan {
        let (kept, withdrawn) = kept(demand, slots, rule);
        Plan {
            schedule: schedule::place(&kept, slots),
            kept,
            withdrawn,
        }
    }

    /// "The kept total, the refused total (D's total minus the kept total) and the
    /// reconfigurations."
    pub fn report(&self, demand: &Matrix) -> Report {
        let kept = self.kept.total();
        Report {
            kept: kept as u32,
            refused: (demand.total() - kept) as u32,
            reconfigurations: schedule::reconfigurations(demand.nodes(), &self.schedule) as u32,
        }
    }
}
