//! The layer `largest` and the second program's flow, which finds its own by other means: the
//! totals agree, and the marks prove the library's.

use compare::{Lent, Star, cut, largest_stars, lists, stars, wide};
use second::flow;
use second::inputs::Random;
use second::matrix::Matrix;

/// The largest matrix found, once it is found right. The ceilings have extra cells of their own.
#[track_caller]
fn compared(random: &mut Random, n: usize, bound: &[u32], ceiling: &[u32]) -> Matrix {
    let before = Lent::new(&random.words(n * n + 3), 7);
    let marks_before = Lent::new(&random.bytes(2 * n + 3), 7);
    let headroom_before = Lent::new(ceiling, 7);
    let (mut a, mut marks) = (before.clone(), marks_before.clone());
    let mut headroom = headroom_before.clone();
    lab::largest(n, bound, headroom.cells(), a.cells(), marks.cells());
    assert!(a.changed_only(n * n, &before), "{bound:?} {ceiling:?}");
    let headroom_kept = headroom.changed_only(2 * n, &headroom_before);
    assert!(headroom_kept, "{bound:?} {ceiling:?}");
    let marks_kept = marks.changed_only(2 * n, &marks_before);
    assert!(marks_kept, "{bound:?} {ceiling:?}");

    let a = Matrix::read(n, a.cells());
    let (most, ceilings) = (Matrix::read(n, bound), wide(&ceiling[..2 * n]));
    assert!(a.is_below(&most), "{bound:?} {ceiling:?}");
    assert!(a.is_admissible(&ceilings), "{bound:?} {ceiling:?}");
    for (line, &left) in wide(&headroom.cells()[..2 * n]).iter().enumerate() {
        let whole = a.line_sum(line) + left;
        assert_eq!(whole, ceilings[line], "{bound:?} {ceiling:?}");
    }
    let closed = cut(&most, &ceilings, marks.cells());
    assert_eq!(a.total(), closed, "{bound:?} {ceiling:?}");
    let expected = flow::largest(&most, &ceilings).total();
    assert_eq!(a.total(), expected, "{bound:?} {ceiling:?}");
    a
}

/// Ceilings of one kind for all lines, or of any kind for each, and two extra cells.
fn random_ceilings(random: &mut Random, star: &Star) -> Vec<u32> {
    let bound = star.asked();
    let kind = random.below(7);
    let mut ceilings = Vec::new();
    for line in bound.lines() {
        let sum = bound.line_sum(line) as u32;
        let bits = random.below(32);
        ceilings.push(match if kind == 6 { random.below(6) } else { kind } {
            0 => random.up_to(star.slots),
            1 => random.up_to(sum),
            2 => sum,
            3 => random.pick(&[0, 0, 1, sum]),
            4 => random.up_to(u32::MAX >> bits),
            _ => u32::MAX,
        });
    }
    ceilings.extend(random.words(2));
    ceilings
}

#[test]
fn random_bounds_and_ceilings() {
    let mut random = Random::announced();
    let stars = stars(&mut random, 600);
    let mut less = 0;
    for star in &stars {
        let ceiling = random_ceilings(&mut random, star);
        let a = compared(&mut random, star.n, &star.demand, &ceiling);
        less += usize::from(a != star.asked());
    }
    let count = stars.len();
    println!("{count} bounds, {less} of them not reached");
    assert!(less > count / 2);
}

#[test]
fn the_largest_stars() {
    let mut random = Random::announced();
    for star in largest_stars(&mut random) {
        let ceiling = random_ceilings(&mut random, &star);
        compared(&mut random, 64, &star.demand, &ceiling);
    }
}

#[test]
fn every_small_matrix() {
    let mut random = Random::announced();
    for bound in lists(4, 3) {
        for ceiling in lists(4, 4) {
            compared(&mut random, 2, &bound, &ceiling);
        }
    }
}

#[test]
fn wide_ceilings_leave_the_bounds() {
    let mut random = Random::announced();
    for star in stars(&mut random, 10) {
        let ceiling = vec![u32::MAX; 2 * star.n];
        let a = compared(&mut random, star.n, &star.demand, &ceiling);
        assert_eq!(a, star.asked());
    }
}

#[test]
fn the_ends_of_the_range() {
    let mut random = Random::announced();
    for n in [0, 1, 2, 63, 64] {
        let bound = vec![65_535; n * n];
        let most = 65_535 * n as u32;
        for ceiling in [0, 1, 65_535, 65_536, most, u32::MAX] {
            let a = compared(&mut random, n, &bound, &vec![ceiling; 2 * n]);
            assert_eq!(a.total(), n as i64 * i64::from(ceiling.min(most)));
        }
    }
}

/// Row i may use column i or column i+1, the last row column 0 alone: each must move on.
#[test]
fn a_chain_of_every_length() {
    let mut random = Random::announced();
    for n in 2..=64 {
        for v in [1, 65_535] {
            let mut bound = vec![0; n * n];
            for i in 0..n - 1 {
                bound[i * n + i] = v;
                bound[i * n + i + 1] = v;
            }
            bound[(n - 1) * n] = v;
            let a = compared(&mut random, n, &bound, &vec![v; 2 * n]);
            assert_eq!(a.total(), i64::from(v) * n as i64);
        }
    }
}
