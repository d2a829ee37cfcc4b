//! How much stack a call may take at N 64 and L 1,024, whatever is asked.

use compare::measured::{MEASURED, Taken, measured};
use second::inputs::Random;

#[track_caller]
fn at_most(bytes: usize, name: &str) {
    let Taken { most, family, .. } = measured(name).stack_taken(&mut Random::announced(), 3);
    assert!(most <= bytes, "{name}: {most} bytes, {family}");
}

#[test]
fn placement() {
    at_most(2_048, "placement, fair");
    at_most(2_048, "placement, least");
}

/// It holds the tables of the run that it plays.
#[test]
fn playing() {
    at_most(225_280, "play_scenario, fair");
    at_most(225_280, "play_scenario, least");
}

#[test]
fn every_other_entry() {
    let plays = |name: &str| name.starts_with("play_scenario");
    for call in MEASURED.into_iter().filter(|call| !plays(call.name)) {
        at_most(4_096, call.name);
    }
}
