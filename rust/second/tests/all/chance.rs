//! Promises held on random stars. A test that fails shows the seed that repeats it.

use crate::notation::{Demand, planned, tables};
use second::fair;
use second::inputs::{FAMILIES, Random, family};
use second::judge;
use second::least;
use second::limits::{FAIR, LEAST};
use second::matrix::{Matrix, full_capacity};
use second::run::{self, Books, Record};
use second::schedule;

#[test]
fn plans_are_right_in_every_family() {
    let mut random = Random::announced();
    for round in 0..20 {
        for (name, family) in FAMILIES {
            let (n, slots) = (random.nodes(), random.slots());
            println!("round {round}, {name}, N {n}, L {slots}");
            let demand = Demand {
                nodes: n as u32,
                cells: family(&mut random, n, slots),
            };
            let (_, fair) = planned(&demand, slots, FAIR);
            let (_, least) = planned(&demand, slots, LEAST);
            assert!(least.refused <= fair.refused);
        }
    }
}

#[test]
fn the_largest_star() {
    let mut random = Random::announced();
    for (_, family) in FAMILIES {
        let demand = Demand {
            nodes: 64,
            cells: family(&mut random, 64, 1_024),
        };
        planned(&demand, 1_024, FAIR);
        planned(&demand, 1_024, LEAST);
    }
}

/// Lines of unlike capacity, some of them 0.
#[test]
fn rules_hold_for_any_capacities() {
    let mut random = Random::announced();
    for _ in 0..300 {
        let (n, slots) = (random.nodes().min(12), random.slots());
        let demand = Matrix::read(n, &random.demand(n, slots));
        let capacity: Vec<i64> = (0..2 * n).map(|_| i64::from(random.up_to(slots))).collect();
        let kept = fair::kept(&demand, &capacity);
        assert!(kept.is_admissible(&capacity) && kept.is_below(&demand));
        let a = least::withdrawn(&demand, &capacity);
        assert!(least::is_greatest(&demand, &capacity, &a));
        let kept = least::kept_from(&demand, &capacity, &a);
        assert!(kept.is_admissible(&capacity) && kept.is_below(&demand));
        let refused = demand.total() - kept.total();
        assert_eq!(refused, least::refused(&demand, &capacity));
        let bytes = schedule::place(&kept, slots as usize);
        assert!(schedule::is_conflict_free(n, &bytes));
        assert_eq!(schedule::counts(n, &bytes), kept);
    }
}

/// A withdrawn matrix of which one slot is given back is no greatest one.
#[test]
fn less_withdrawn_is_not_greatest() {
    let mut random = Random::announced();
    let mut tried = 0;
    while tried < 50 {
        let (n, slots) = (random.nodes().min(8), random.slots());
        let demand = Matrix::read(n, &random.demand(n, slots));
        let capacity = full_capacity(n, slots as usize);
        let mut a = least::withdrawn(&demand, &capacity);
        let Some(pair) = a.pairs().find(|&pair| a.at(pair) > 0) else {
            continue;
        };
        a.put(pair, a.at(pair) - 1);
        assert!(least::is_withdrawn(&demand, &capacity, &a));
        assert!(!least::is_greatest(&demand, &capacity, &a));
        tried += 1;
    }
}

/// Who withdraws pair by pair and never takes back finds less in these two families.
#[test]
fn staircases_and_chains_mislead_a_greedy_withdrawal() {
    let mut random = Random::announced();
    let mut misled = 0;
    for _ in 0..200 {
        for name in ["staircase", "chain"] {
            let (n, slots) = (8 + random.below(8), 8 + random.slots().min(1_016));
            let demand = Matrix::read(n, &family(name)(&mut random, n, slots));
            let capacity = full_capacity(n, slots as usize);
            let greatest = least::withdrawn(&demand, &capacity).total();
            let greedy = greedy_withdrawal(&demand, &capacity);
            assert!(greedy <= greatest);
            misled += usize::from(greedy < greatest);
        }
    }
    println!("misled {misled} times in 400");
    assert!(misled > 300);
}

fn greedy_withdrawal(demand: &Matrix, capacity: &[i64]) -> i64 {
    let n = demand.nodes();
    let excess = demand.lines().map(|line| demand.excess(capacity, line));
    let mut headroom: Vec<i64> = excess.collect();
    let mut total = 0;
    for (i, j) in demand.pairs() {
        let taken = demand.at((i, j)).min(headroom[i]).min(headroom[n + j]);
        headroom[i] -= taken;
        headroom[n + j] -= taken;
        total += taken;
    }
    total
}

#[test]
fn a_run_keeps_its_books() {
    let mut random = Random::announced();
    for _ in 0..40 {
        let (n, slots) = (random.nodes().min(10), random.slots());
        let cells = n * n;
        let limit = 1 + random.up_to(3 * slots);
        let rule = random.pick(&[FAIR, LEAST]);
        let mut record = Record::default();
        let mut books = Books::zero(cells);
        let mut written = tables(n, slots as usize);
        run::fresh(&mut record, n as u32, slots, limit, rule, &mut books).expect("accepted");
        let (mut arrived, mut planned) = (vec![0; cells], vec![0; cells]);
        for _ in 0..20 {
            if random.one_in(2) {
                let arrivals = random.demand(n, slots);
                run::post(&mut record, &arrivals, &mut books).expect("accepted");
                add(&mut arrived, &arrivals);
            } else {
                let demand = Matrix::read(n, &books.waiting);
                let report = run::frame(&mut record, &mut books, &mut written).expect("accepted");
                let judged = judge::plan(&demand, slots as usize, rule, &written, report);
                assert_eq!(judged, Ok(()));
                add(&mut planned, &written.kept);
            }
            assert!((0..cells).all(|cell| books.agree(cell, limit, record.posts)));
            assert_eq!(books.posted, arrived);
            assert_eq!(books.sent, planned);
        }
        assert_eq!(record.posts + record.frames, 20);
    }
}

fn add(sums: &mut [u64], table: &[u32]) {
    for (sum, &v) in sums.iter_mut().zip(table) {
        *sum += u64::from(v);
    }
}
