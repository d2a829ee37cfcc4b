//! The layer `place` and the second program. Which slots a pair gets is free; that it gets them,
//! without conflict, is not, nor is the count of reconfigurations.

use compare::{Lent, Star, largest_stars, stars};
use second::inputs::{Random, family};
use second::matrix::Matrix;
use second::schedule;

/// The reconfigurations of a kept matrix, once its schedule is found right.
#[track_caller]
fn placed(random: &mut Random, n: usize, slots: usize, kept: &[u32]) -> usize {
    let before = Lent::new(&random.bytes(slots * n + 5), 7);
    let mut bytes = before.clone();
    let mut table = kept.to_vec();
    let answered = lab::place(n, slots, &mut table, bytes.cells()) as usize;
    assert_eq!(table, kept, "L {slots}");
    assert!(bytes.changed_only(slots * n, &before), "L {slots} {kept:?}");

    let (kept, bytes) = (Matrix::read(n, kept), &bytes.cells()[..slots * n]);
    let conflict_free = schedule::is_conflict_free(n, bytes);
    assert!(conflict_free, "L {slots} {kept:?}");
    assert_eq!(schedule::counts(n, bytes), kept, "L {slots}");
    let counted = schedule::reconfigurations(n, bytes);
    assert_eq!(answered, counted, "L {slots} {kept:?}");
    let fewest = schedule::fewest_reconfigurations(&kept, slots);
    assert!(fewest <= counted, "L {slots} {kept:?}");
    counted
}

/// What each rule keeps, in tables with extra cells.
fn kept_by_both(star: &Star) -> [Vec<u32>; 2] {
    let Star { n, .. } = *star;
    let (capacity, demand) = (&star.capacity, &star.demand);
    let mut kept = [vec![u32::MAX; n * n + 3], vec![u32::MAX; n * n + 3]];
    lab::fair_cut(n, capacity, demand, &mut kept[0]);
    let mut withdrawn = vec![0; n * n];
    lab::withdraw(n, capacity, demand, &mut withdrawn, &mut vec![0; 2 * n]);
    unsafe { lab::keep(n, capacity, demand, &withdrawn, &mut kept[1]) };
    kept
}

/// The largest number of reconfigurations met, and what no schedule of that matrix stays below.
#[derive(Default)]
struct Most {
    counted: usize,
    fewest: usize,
}

impl Most {
    fn meet(&mut self, counted: usize, n: usize, slots: usize, kept: &[u32]) {
        if counted > self.counted {
            let fewest = schedule::fewest_reconfigurations(&Matrix::read(n, kept), slots);
            *self = Most { counted, fewest };
        }
    }

    fn print(&self) {
        let Most { counted, fewest } = self;
        println!("at most {counted} reconfigurations, where no schedule has fewer than {fewest}");
    }
}

#[test]
fn random_stars() {
    let mut random = Random::announced();
    let stars = stars(&mut random, 300);
    let mut most = Most::default();
    for star in &stars {
        let (n, slots) = (star.n, star.slots as usize);
        for kept in kept_by_both(star) {
            let counted = placed(&mut random, n, slots, &kept);
            most.meet(counted, n, slots, &kept);
        }
    }
    println!("{} kept matrices", 2 * stars.len());
    most.print();
}

#[test]
fn the_largest_stars() {
    let mut random = Random::announced();
    let mut most = Most::default();
    for star in largest_stars(&mut random) {
        for kept in kept_by_both(&star) {
            let counted = placed(&mut random, 64, 1_024, &kept);
            most.meet(counted, 64, 1_024, &kept);
        }
    }
    most.print();
}

/// Every line full, or one, or none, at the ends of both ranges.
#[test]
fn loads_at_the_ends_of_the_range() {
    let mut random = Random::announced();
    for n in [1, 2, 63, 64] {
        for slots in [1, 2, 1_023, 1_024] {
            for load in ["full", "one line full", "zero"] {
                let kept = family(load)(&mut random, n, slots);
                placed(&mut random, n, slots as usize, &kept);
            }
        }
    }
}

/// A permutation that holds for the whole frame never changes, nor does an idle frame.
#[test]
fn nothing_changes_where_nothing_must() {
    let mut random = Random::announced();
    for n in [1, 2, 7, 64] {
        for slots in [1, 2, 100, 1_024] {
            let mut kept = vec![0; n * n];
            assert_eq!(placed(&mut random, n, slots, &kept), 0);
            for i in 0..n {
                kept[i * n + (i + n / 2) % n] = slots as u32;
            }
            assert_eq!(placed(&mut random, n, slots, &kept), 0);
        }
    }
}

/// Constant matrices, up to a full frame.
#[test]
fn every_pair_alike() {
    let mut random = Random::announced();
    for (n, slots) in [(1, 9), (3, 12), (8, 64), (64, 1_024)] {
        for v in 0..=slots / n {
            placed(&mut random, n, slots, &vec![v as u32; n * n]);
        }
    }
}
