//! The least rule's two layers, `withdraw` and `keep`, and the second program. Which greatest
//! withdrawn matrix is found is free; all else follows from it.

use compare::{Lent, Star, cut, largest_stars, lists, stars};
use second::inputs::Random;
use second::least;
use second::matrix::Matrix;

/// The withdrawn and the kept matrix, once they are found right.
#[track_caller]
fn compared(random: &mut Random, star: &Star) -> (Matrix, Matrix) {
    let (demand, capacity) = (star.asked(), star.capacities());
    let excess = least::excesses(&demand, &capacity);
    let refused = least::refused(&demand, &capacity);

    let (withdrawn, marks) = withdrawn(random, star);
    let a = Matrix::read(star.n, &withdrawn);
    assert!(least::is_withdrawn(&demand, &capacity, &a), "{star:?}");
    assert_eq!(a.total(), cut(&demand, &excess, &marks), "{star:?}");
    let total: i64 = excess.iter().sum();
    assert_eq!(total - a.total(), refused, "{star:?}");

    let kept = Matrix::read(star.n, &kept(random, star, &withdrawn));
    let expected = least::kept_from(&demand, &capacity, &a);
    assert_eq!(kept, expected, "{star:?}");
    assert!(kept.is_admissible(&capacity), "{star:?}");
    assert_eq!(demand.total() - kept.total(), refused, "{star:?}");
    (a, kept)
}

/// What `withdraw` leaves in tables of more cells than needed.
#[track_caller]
fn withdrawn(random: &mut Random, star: &Star) -> (Vec<u32>, Vec<u8>) {
    let n = star.n;
    let before = Lent::new(&random.words(n * n + 3), 7);
    let marks_before = Lent::new(&random.bytes(2 * n + 3), 7);
    let (mut withdrawn, mut marks) = (before.clone(), marks_before.clone());
    let (capacity, demand) = (&star.capacity, &star.demand);
    lab::withdraw(n, capacity, demand, withdrawn.cells(), marks.cells());
    assert!(withdrawn.changed_only(n * n, &before), "{star:?}");
    assert!(marks.changed_only(2 * n, &marks_before), "{star:?}");
    (withdrawn.cells().to_vec(), marks.cells().to_vec())
}

/// What `keep` leaves in a table of more cells than needed.
#[track_caller]
fn kept(random: &mut Random, star: &Star, withdrawn: &[u32]) -> Vec<u32> {
    let n = star.n;
    let before = Lent::new(&random.words(n * n + 3), 7);
    let mut kept = before.clone();
    // The withdrawn matrix was found right for this star.
    unsafe { lab::keep(n, &star.capacity, &star.demand, withdrawn, kept.cells()) };
    assert!(kept.changed_only(n * n, &before), "{star:?}");
    kept.cells().to_vec()
}

#[test]
fn random_stars() {
    let mut random = Random::announced();
    let (mut withdrawing, mut cutting) = (0, 0);
    let stars = stars(&mut random, 600);
    for star in &stars {
        let (a, kept) = compared(&mut random, star);
        withdrawing += usize::from(a.total() > 0);
        cutting += usize::from(star.asked().minus(&a) != kept);
    }
    let count = stars.len();
    println!("{count} stars: {withdrawing} withdrawn from, {cutting} cut further");
    assert!(withdrawing > count / 2 && cutting > count / 3);
}

#[test]
fn the_largest_stars() {
    let mut random = Random::announced();
    for star in largest_stars(&mut random) {
        compared(&mut random, &star);
    }
}

/// Two nodes: every demand from 0 to 3 for each pair, every capacity from 0 to 2 for each line.
#[test]
fn every_small_star() {
    let mut random = Random::announced();
    for demand in lists(4, 4) {
        for capacity in lists(4, 3) {
            compared(&mut random, &Star::new(2, &capacity, &demand));
        }
    }
}

#[test]
fn one_node() {
    let mut random = Random::announced();
    for slots in [1, 2, 1_023, 1_024] {
        for asked in [0, 1, slots - 1, slots, slots + 1, 65_534, 65_535] {
            let (a, kept) = compared(&mut random, &Star::even(1, slots, &[asked]));
            assert_eq!(kept.total(), i64::from(asked.min(slots)));
            assert_eq!(a.total(), i64::from(asked.saturating_sub(slots)));
        }
    }
}

#[test]
fn no_node() {
    compared(&mut Random::announced(), &Star::new(1, &[], &[]));
}

/// The largest demands everywhere, with the largest and the smallest capacities.
#[test]
fn the_ends_of_the_range() {
    let mut random = Random::announced();
    for n in [1, 2, 63, 64] {
        for slots in [0, 1, 1_023, 1_024] {
            let capacity = vec![slots; 2 * n];
            let star = Star::new(1_024, &capacity, &vec![65_535; n * n]);
            let (_, kept) = compared(&mut random, &star);
            assert_eq!(kept.total(), i64::from(slots) * n as i64);
        }
    }
}

/// A demand and L, the withdrawn and the kept matrix.
#[track_caller]
fn case(slots: u32, demand: &[u32], withdrawn: &[u32], kept: &[u32]) {
    let n = demand.len().isqrt();
    let found = compared(&mut Random::announced(), &Star::even(n, slots, demand));
    let expected = (Matrix::read(n, withdrawn), Matrix::read(n, kept));
    assert_eq!(found, expected);
}

/// Document 01, "Worked by hand", where the withdrawn matrix is the only one.
#[test]
fn worked_by_hand() {
    case(4, &[4], &[0], &[4]);
    case(4, &[5], &[1], &[4]);
    case(10, &[11, 1, 0, 0], &[1, 0, 0, 0], &[9, 1, 0, 0]);
    case(4, &[3, 3, 3, 0], &[2, 0, 0, 0], &[1, 3, 3, 0]);
    let (first, rest) = ([7, 7, 7], [0; 6]);
    let demand = [&first[..], &rest].concat();
    let kept = [&[4, 3, 3][..], &rest].concat();
    case(10, &demand, &[0; 9], &kept);
    let demand = [2, 2, 1, 2, 0, 3, 1, 3, 0];
    let withdrawn = [0, 1, 0, 1, 0, 0, 0, 0, 0];
    case(4, &demand, &withdrawn, &[2, 1, 1, 1, 0, 3, 1, 3, 0]);
    case(1_024, &[65_535], &[64_511], &[1_024]);
}

/// Document 01, case k: any of several may be withdrawn.
#[test]
fn case_k() {
    let star = Star::even(2, 2, &[2; 4]);
    let (a, kept) = compared(&mut Random::announced(), &star);
    assert_eq!((a.total(), kept.total()), (4, 4));
}

/// Equal remainders: the missing slots go to the lowest indices, in a row and in a column.
#[test]
fn missing_slots_go_to_the_first_of_equal_remainders() {
    for n in [3, 5, 64] {
        for slots in 1..40 {
            let across = |cell: usize| if cell < n { 7 } else { 0 };
            let down = |cell: usize| if cell.is_multiple_of(n) { 7 } else { 0 };
            let kept = |t: usize| {
                let most = slots.min(7 * n);
                (most / n + usize::from(t < most % n)) as i64
            };
            let row: Vec<u32> = (0..n * n).map(across).collect();
            let column: Vec<u32> = (0..n * n).map(down).collect();
            let mut random = Random::announced();
            let (_, row) = compared(&mut random, &Star::even(n, slots as u32, &row));
            let (_, column) = compared(&mut random, &Star::even(n, slots as u32, &column));
            assert!((0..n).all(|t| row.at((0, t)) == kept(t)));
            assert!((0..n).all(|t| column.at((t, 0)) == kept(t)));
        }
    }
}
