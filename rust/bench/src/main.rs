//! How long the proved planner takes, step by step, and beside it the second program and, where it
//! is installed, LEMON; and how much stack the library takes.
//!
//! Demands are drawn from a fixed seed. A step of the library, and LEMON, is called five times on
//! the same tables, which hold what the call before left in them, and the fastest call counts; the
//! test of what the step asks is part of the call. The second program is called once. What is
//! printed is the median and the worst over several demands.

mod columns;
mod figures;
mod lemon;

use columns::{Column, Count, FLOW, KEPT, PLACEMENT, PLAN, Program, RECONFIGURATIONS, Work};
use compare::measured::{MEASURED, Taken};
use figures::{Figures, print_header, print_numbers, print_row};
use second::inputs::{FAMILIES, Family, Random};

const SEED: u64 = 1;

/// How many demands of each family.
const DEMANDS: usize = 11;

/// The flow comes first: the rest reads what it wrote.
const STEPS: [(&str, &[Column]); 4] = [
    ("flow", &FLOW),
    ("kept", &KEPT),
    ("placement", &PLACEMENT),
    ("the whole plan", &PLAN),
];

/// A name, and its demands.
type Row = (String, Vec<Work>);

fn main() {
    println!(
        "seed {SEED}, {DEMANDS} demands of each family; median and worst, times in microseconds"
    );
    let mut families = by_family(64, 1_024);
    print_times("N 64, L 1,024", "family", &mut families, |_| true);
    print_stack("N 64, L 1,024");
    print_reconfigurations("N 64, L 1,024", "family", &families);
    let mut sizes = by_size();
    let quick = |column: &Column| column.program != Program::Second;
    print_times("all families", "N, L", &mut sizes, quick);
    let mut works = families.iter().chain(&sizes).flat_map(|row| &row.1);
    assert!(
        works.all(Work::flows_are_greatest),
        "a flow is not greatest"
    );
    println!("\non every demand each flow was judged greatest by the second program");
}

fn by_family(n: usize, slots: u32) -> Vec<Row> {
    let mut random = Random::seeded(SEED);
    let row = |(name, family)| (described(name), works(&mut random, family, n, slots));
    FAMILIES.map(row).into()
}

fn by_size() -> Vec<Row> {
    let sizes = [8, 16, 32, 64].map(|n| [64, 256, 1_024].map(|slots| (n, slots)));
    let row = |(n, slots)| {
        let works = by_family(n, slots).into_iter().flat_map(|row| row.1);
        (format!("{n}, {slots}"), works.collect())
    };
    sizes.into_iter().flatten().map(row).collect()
}

/// What a family is for, where its name alone does not say.
fn described(name: &str) -> String {
    match name {
        "uniform" => "uniform, full load".into(),
        "half load" | "double load" => format!("uniform, {name}"),
        "staircase" | "chain" => format!("adversarial {name}"),
        _ => name.into(),
    }
}

fn works(random: &mut Random, family: Family, n: usize, slots: u32) -> Vec<Work> {
    let work = |_| Work::new(n, slots, family(random, n, slots));
    (0..DEMANDS).map(work).collect()
}

/// One table for each step, with those of its columns that are to be shown.
fn print_times(which: &str, named: &str, rows: &mut [Row], shown: fn(&Column) -> bool) {
    for (step, columns) in STEPS {
        let columns = || columns.iter().filter(|column| shown(column));
        println!("\n{which}: {step}");
        print_header(named, columns().map(|column| column.title));
        for (name, works) in &mut *rows {
            print_row(name, columns().map(|column| timed(column, works)), 1);
        }
    }
}

/// What each call takes on the demands of all families: the least and the most.
fn print_stack(which: &str) {
    println!("\n{which}: stack in bytes");
    print_header("call", ["least", "most"].into_iter());
    for call in MEASURED {
        let Taken { least, most, .. } = call.stack_taken(&mut Random::seeded(SEED), DEMANDS);
        print_numbers(call.name, [least, most].into_iter());
    }
}

/// The reconfigurations of what was planned.
fn print_reconfigurations(which: &str, named: &str, rows: &[Row]) {
    println!("\n{which}: reconfigurations, and a bound that no schedule stays below");
    print_header(named, RECONFIGURATIONS.iter().map(|&(title, _)| title));
    for (name, works) in rows {
        let counted = |count: Count| {
            let counts = works.iter().map(|work| count(work) as f64);
            Some(Figures::of(counts.collect()))
        };
        print_row(
            name,
            RECONFIGURATIONS.iter().map(|&(_, count)| counted(count)),
            0,
        );
    }
}

/// None where the program is not installed.
fn timed(column: &Column, works: &mut [Work]) -> Option<Figures> {
    let times = works.iter_mut().map(|work| column.microseconds(work));
    times.collect::<Option<_>>().map(Figures::of)
}
