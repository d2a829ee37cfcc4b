//! Schedules read byte by byte.

use crate::notation::matrix;
use second::schedule::{
    IDLE, counts, fewest_reconfigurations, is_conflict_free, reconfigurations, refused,
};

const I: u8 = IDLE;

#[test]
fn a_source_feeds_at_most_one_destination_in_a_slot() {
    assert!(is_conflict_free(2, &[0, 1, 1, 0, I, I, 0, I]));
    assert!(is_conflict_free(3, &[2, I, 0]));
    assert!(!is_conflict_free(3, &[0, 1, 2, 2, I, 2]));
    assert!(!is_conflict_free(2, &[0, 2]));
    assert!(!is_conflict_free(2, &[254, I]));
}

#[test]
fn slots_are_counted_by_pair() {
    let schedule = [0, 1, 1, 0, I, 0, 1, I];
    assert_eq!(counts(2, &schedule), matrix("1 2 / 2 1"));
}

#[test]
fn more_than_was_asked_makes_up_for_nothing() {
    let demand = matrix("1 3 / 0 2");
    assert_eq!(refused(&demand, &matrix("3 1 / 1 2")), 2);
}

#[test]
fn a_change_at_any_destination_counts_once() {
    assert_eq!(reconfigurations(2, &[0, 1]), 0);
    assert_eq!(reconfigurations(2, &[0, 1, 0, 1]), 0);
    assert_eq!(reconfigurations(2, &[0, I, 0, 1]), 1);
    assert_eq!(reconfigurations(2, &[0, 1, 1, 0]), 1);
    assert_eq!(reconfigurations(2, &[I, I, 0, I, 0, 1, 0, 1, I, I]), 3);
    assert_eq!(reconfigurations(1, &[0, I, 0, I, I]), 3);
}

#[test]
fn a_line_takes_its_turns() {
    assert_eq!(fewest_reconfigurations(&matrix("0 0 / 0 0"), 3), 0);
    assert_eq!(fewest_reconfigurations(&matrix("3 0 / 0 3"), 3), 0);
    assert_eq!(fewest_reconfigurations(&matrix("3 0 / 0 2"), 3), 1);
    assert_eq!(fewest_reconfigurations(&matrix("1 2 / 2 1"), 3), 1);
    assert_eq!(fewest_reconfigurations(&matrix("1 0 / 1 0"), 3), 2);
    assert_eq!(fewest_reconfigurations(&matrix("1 1 / 0 0"), 3), 2);
}
