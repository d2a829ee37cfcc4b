//! Every conflict-free schedule of the smallest stars.

use std::collections::BTreeSet;

use crate::notation::{Demand, planned};
use second::limits::{FAIR, LEAST};
use second::matrix::{Matrix, full_capacity};
use second::{least, schedule};

/// Every list of `length` members of `choices`.
fn lists<T: Copy>(length: usize, choices: &[T]) -> Vec<Vec<T>> {
    (0..length).fold(vec![Vec::new()], |lists, _| {
        let longer = |list: Vec<T>| choices.iter().map(move |&t| [&list[..], &[t]].concat());
        lists.into_iter().flat_map(longer).collect()
    })
}

/// What pairs may get together: the counts of every conflict-free schedule.
fn every_count(n: usize, slots: usize) -> BTreeSet<Matrix> {
    let bytes: Vec<u8> = (0..n as u8).chain([schedule::IDLE]).collect();
    let schedules = lists(slots * n, &bytes).into_iter();
    schedules
        .filter(|bytes| schedule::is_conflict_free(n, bytes))
        .map(|bytes| schedule::counts(n, &bytes))
        .collect()
}

/// Over all schedules, also those that give a pair more than it asked.
fn least_over_all(demand: &Matrix, counts: &BTreeSet<Matrix>) -> i64 {
    let refused = counts.iter().map(|count| schedule::refused(demand, count));
    refused.min().expect("the idle schedule at least")
}

fn least_is_least(n: usize, slots: usize, most: u32) {
    let counts = every_count(n, slots);
    let capacity = full_capacity(n, slots);
    let asked: Vec<u32> = (0..=most).collect();
    for cells in lists(n * n, &asked) {
        let demand = Matrix::read(n, &cells);
        let expected = least_over_all(&demand, &counts);
        assert_eq!(least::refused(&demand, &capacity), expected, "{demand:?}");
        let asked = Demand {
            nodes: n as u32,
            cells,
        };
        let (_, report) = planned(&asked, slots as u32, LEAST);
        assert_eq!(i64::from(report.refused), expected, "{demand:?}");
        let (_, report) = planned(&asked, slots as u32, FAIR);
        assert!(i64::from(report.refused) >= expected, "{demand:?}");
    }
}

#[test]
fn admissible_matrices_are_those_that_a_schedule_carries() {
    for (n, slots) in [(1, 4), (2, 3), (3, 2)] {
        let carried = every_count(n, slots);
        let entries: Vec<u32> = (0..=slots as u32 + 1).collect();
        let capacity = full_capacity(n, slots);
        for cells in lists(n * n, &entries) {
            let kept = Matrix::read(n, &cells);
            let admissible = kept.is_admissible(&capacity);
            assert_eq!(carried.contains(&kept), admissible, "{kept:?}");
        }
    }
}

#[test]
fn withdrawn_is_greatest_among_all() {
    let asked = [0, 1, 2, 3];
    for slots in 1..=3 {
        let capacity = full_capacity(2, slots);
        for cells in lists(4, &asked) {
            let demand = Matrix::read(2, &cells);
            let mut all: Vec<Matrix> = lists(4, &asked)
                .iter()
                .map(|cells| Matrix::read(2, cells))
                .filter(|a| least::is_withdrawn(&demand, &capacity, a))
                .collect();
            let most = all.iter().map(Matrix::total).max();
            all.retain(|a| Some(a.total()) == most);
            assert!(all.contains(&least::withdrawn(&demand, &capacity)));
            assert!(
                all.iter()
                    .all(|a| least::is_greatest(&demand, &capacity, a))
            );
        }
    }
}

#[test]
fn one_node() {
    for slots in 1..=4 {
        least_is_least(1, slots, 9);
    }
}

#[test]
fn two_nodes() {
    for slots in 1..=4 {
        least_is_least(2, slots, 5);
    }
}

#[test]
fn three_nodes_and_a_slot() {
    least_is_least(3, 1, 2);
}

#[test]
fn three_nodes_and_two_slots() {
    least_is_least(3, 2, 2);
}
