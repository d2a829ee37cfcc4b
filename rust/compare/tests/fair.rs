//! The fair rule's layer and the second program, cell by cell.

use compare::{Lent, Star, largest_stars, lists, stars};
use second::fair;
use second::inputs::Random;
use second::matrix::Matrix;

/// What is kept, on which both agree.
#[track_caller]
fn compared(random: &mut Random, star: &Star) -> Matrix {
    let n = star.n;
    let before = Lent::new(&random.words(n * n + 3), 7);
    let mut expected = before.clone();
    let kept = fair::kept(&star.asked(), &star.capacities());
    kept.write(expected.cells());
    let mut found = before;
    lab::fair_cut(n, &star.capacity, &star.demand, found.cells());
    assert_eq!(found, expected, "{star:?}");
    kept
}

#[test]
fn random_stars() {
    let mut random = Random::announced();
    let stars = stars(&mut random, 200);
    let mut cut = 0;
    for star in &stars {
        let kept = compared(&mut random, star);
        cut += usize::from(kept != star.asked());
    }
    let count = stars.len();
    println!("{count} stars, {cut} of them cut");
    assert!(cut > count / 2);
}

#[test]
fn the_largest_stars() {
    let mut random = Random::announced();
    for star in largest_stars(&mut random) {
        compared(&mut random, &star);
    }
}

/// Small numbers make ties, and what rounding leaves decides the next line.
#[test]
fn ties_and_rounding_chains() {
    let mut random = Random::announced();
    for _ in 0..3_000 {
        let n = 2 + random.below(8);
        let (slots, most) = (1 + random.up_to(5), 1 + random.up_to(3));
        let demand: Vec<u32> = (0..n * n).map(|_| random.up_to(most)).collect();
        compared(&mut random, &Star::even(n, slots, &demand));
    }
}

/// Three nodes: every demand from 0 to 2 for each pair.
#[test]
fn every_small_star() {
    let mut random = Random::announced();
    for demand in lists(9, 3) {
        for slots in 1..=3 {
            compared(&mut random, &Star::even(3, slots, &demand));
        }
    }
}

/// Two nodes: every demand from 0 to 3 for each pair, every capacity from 0 to 2 for each line.
#[test]
fn every_small_capacity() {
    let mut random = Random::announced();
    for demand in lists(4, 4) {
        for capacity in lists(4, 3) {
            compared(&mut random, &Star::new(2, &capacity, &demand));
        }
    }
}

/// A demand and L, and what is kept.
#[track_caller]
fn case(slots: u32, demand: &[u32], kept: &[u32]) {
    let n = demand.len().isqrt();
    let found = compared(&mut Random::announced(), &Star::even(n, slots, demand));
    assert_eq!(found, Matrix::read(n, kept));
}

/// Document 01, "Worked by hand".
#[test]
fn worked_by_hand() {
    case(4, &[4], &[4]);
    case(4, &[5], &[4]);
    case(10, &[11, 1, 0, 0], &[9, 0, 0, 0]);
    case(4, &[3, 3, 3, 0], &[2, 2, 2, 0]);
    let rest = [0; 6];
    let demand = [&[7, 7, 7][..], &rest].concat();
    case(10, &demand, &[&[3, 3, 3][..], &rest].concat());
    let demand = [2, 2, 1, 2, 0, 3, 1, 3, 0];
    case(4, &demand, &[1, 1, 0, 1, 0, 2, 1, 3, 0]);
}

/// By the largest sum, or by L over the sum, pair (0,0) would keep 0.
#[test]
fn the_next_line_goes_by_fraction_after_earlier_cuts() {
    case(2, &[1, 2, 2, 2], &[1, 1, 1, 1]);
}

/// Row 0 and column 0 tie at 3/4.
#[test]
fn a_tie_goes_to_the_lowest_line() {
    case(3, &[2, 2, 2, 0], &[1, 1, 2, 0]);
}

/// Rounded at the end, nothing would be kept.
#[test]
fn a_line_is_rounded_at_once() {
    case(1, &[0, 1, 1, 1], &[0, 1, 0, 0]);
}

/// A line of capacity 0 keeps nothing; without demand it does not overflow.
#[test]
fn capacity_0() {
    let mut random = Random::announced();
    for n in [1, 2, 5, 24] {
        for closed in 0..2 * n {
            let mut capacity = vec![1_024; 2 * n];
            capacity[closed] = 0;
            let demand = vec![65_535; n * n];
            let kept = compared(&mut random, &Star::new(1_024, &capacity, &demand));
            assert_eq!(kept.line_sum(closed), 0);
            let zero = compared(&mut random, &Star::new(1_024, &capacity, &vec![0; n * n]));
            assert_eq!(zero.total(), 0);
        }
    }
}

/// Cross products that fit 32 bits but not 31, and fractions that differ in the last place.
#[test]
fn the_widest_products() {
    let mut random = Random::announced();
    for n in [1, 2, 63, 64] {
        for slots in [1, 2, 1_023, 1_024] {
            compared(&mut random, &Star::even(n, slots, &vec![65_535; n * n]));
            let demand: Vec<u32> = (0..n * n).map(|_| 65_535 - random.up_to(2)).collect();
            let capacity: Vec<u32> = (0..2 * n).map(|_| slots - random.up_to(1)).collect();
            compared(&mut random, &Star::new(slots, &capacity, &demand));
        }
    }
}

#[test]
fn a_sum_equal_to_the_capacity_is_not_cut() {
    case(5, &[2, 3, 1, 2], &[2, 3, 1, 2]);
}

#[test]
fn no_node() {
    compared(&mut Random::announced(), &Star::new(1, &[], &[]));
}
