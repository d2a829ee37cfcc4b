//! The entry `slacks`: the proved library and the second program, answer by answer and cell by
//! cell.

use compare::{Answer, Lent, by_library, by_second};
use gyodaebeun::{Refusal, raw};
use second::inputs::{Random, choices, family};
use second::plan;
use second::refusal::SLACKS;

/// What the entry is called with; `slacks` is the table before the call.
#[derive(Clone, Debug)]
struct Input {
    nodes: u32,
    slots: u32,
    demand: Vec<u32>,
    slacks: Vec<i32>,
}

impl Input {
    /// Tables of just the length needed.
    fn exact(nodes: u32, slots: u32, demand: Vec<u32>) -> Input {
        Input {
            nodes,
            slots,
            demand,
            slacks: vec![-7; 2 * nodes as usize],
        }
    }
}

/// The answer and the lent cells of `slacks` afterwards, on which the library's C entry, its Rust
/// entry and the second program agree.
#[track_caller]
fn compared(input: &Input) -> (Answer, Vec<i32>) {
    let Input { nodes, slots, .. } = *input;
    let mut demand = Lent::new(&input.demand, u32::MAX);
    let asked = demand.clone();
    let before = Lent::new(&input.slacks, i32::MIN);

    let mut expected = before.clone();
    let answer = plan::slacks(nodes, slots, demand.cells(), expected.cells());
    let answer = by_second(answer);

    let mut slacks = before.clone();
    let mut place = u32::MAX;
    let number = raw::slacks(nodes, slots, demand.cells(), slacks.cells(), &mut place);
    assert_eq!((number, place), answer, "{input:?}");
    assert_eq!(slacks, expected, "{input:?}");
    assert_eq!(demand, asked, "the demand was written to: {input:?}");

    let mut slacks = before;
    let safe = gyodaebeun::slacks(nodes, slots, demand.cells(), slacks.cells());
    assert_eq!(by_library(safe), answer, "{input:?}");
    assert_eq!(slacks, expected, "{input:?}");
    (answer, slacks.cells().to_vec())
}

#[track_caller]
fn accepted(input: &Input) -> Vec<i32> {
    let (answer, slacks) = compared(input);
    assert_eq!(answer, (0, 0), "{input:?}");
    slacks
}

#[test]
fn random_inputs() {
    let mut random = Random::announced();
    let mut given = [0; 7];
    for _ in 0..6_000 {
        let (answer, _) = compared(&random_input(&mut random));
        given[answer.0 as usize] += 1;
    }
    println!("answers by number: {given:?}");
    assert!(given[0] > 1_000, "too few are accepted");
    assert!(SLACKS.iter().all(|&number| given[number as usize] > 100));
}

/// A good input, then, often, one or more faults.
fn random_input(random: &mut Random) -> Input {
    let (n, slots) = (random.nodes(), random.slots());
    let mut demand = random.demand(n, slots);
    let longer = random.pick(&[0, 0, 1, 9]);
    demand.extend((0..longer).map(|_| random.word() as u32));
    let length = 2 * n + random.pick(&[0, 0, 1, 9]);
    let mut input = Input {
        nodes: n as u32,
        slots,
        demand,
        slacks: (0..length).map(|_| random.word() as i32).collect(),
    };
    for _ in 0..random.pick(&[0, 0, 0, 1, 1, 2, 3]) {
        damage(random, &mut input, n);
    }
    input
}

fn damage(random: &mut Random, input: &mut Input, n: usize) {
    let any = random.word() as u32;
    match random.pick(SLACKS) {
        1 => input.nodes = random.pick(&[0, n as u32 + 1, 65, 257, u32::MAX, any]),
        2 => input.slots = random.pick(&[0, 1_025, 65_537, u32::MAX, any]),
        4 => input.demand.truncate(random.below(n * n)),
        5 => input.slacks.truncate(random.below(2 * n)),
        _ => {
            let above = random.pick(&[65_536, 65_537, 131_071, u32::MAX, any]);
            let cell = random.below(n * n);
            if let Some(demand) = input.demand.get_mut(cell) {
                *demand = above;
            }
        }
    }
}

/// Every single refusal, every pair of them and every larger choice: the first in the order.
#[test]
fn faults_together() {
    for (n, slots) in [(2, 1), (3, 10), (5, 1_024), (64, 7)] {
        for faults in choices(SLACKS) {
            for input in with_faults(n, slots, &faults) {
                let expected = match faults.first() {
                    None => (0, 0),
                    Some(6) => (6, 1),
                    Some(&number) => (number, 0),
                };
                assert_eq!(compared(&input).0, expected, "{faults:?}");
            }
        }
    }
}

/// Inputs with just these faults: the numbers out of range by a little and by a lot, the tables
/// short by one cell and by nearly all.
fn with_faults(n: u32, slots: u32, faults: &[u32]) -> Vec<Input> {
    let choose = |fault, bad: &[u32], good| {
        let bad = bad.to_vec();
        if faults.contains(&fault) {
            bad
        } else {
            vec![good]
        }
    };
    let mut inputs = Vec::new();
    for nodes in choose(1, &[0, 65, 257, u32::MAX], n) {
        for slots in choose(2, &[0, 1_025, 65_537, u32::MAX], slots) {
            let size = if nodes == u32::MAX { n } else { nodes.max(n) };
            for demand_length in choose(4, &[n * n - 1, 2], size * size) {
                for slacks_length in choose(5, &[2 * n - 1, 0], 2 * size) {
                    let mut demand = vec![3; demand_length as usize];
                    if faults.contains(&6) {
                        demand[1..].fill(65_536);
                    }
                    inputs.push(Input {
                        nodes,
                        slots,
                        demand,
                        slacks: vec![9; slacks_length as usize],
                    });
                }
            }
        }
    }
    inputs
}

#[test]
fn boundary_values() {
    for nodes in [0, 1, 2, 63, 64, 65, 256, 257, 1 << 31, u32::MAX] {
        for slots in [0, 1, 2, 1_023, 1_024, 1_025, 65_537, 1 << 31, u32::MAX] {
            for asked in [0, 1, 65_535, 65_536, u32::MAX] {
                let size = nodes.min(257);
                let demand = vec![asked; (size * size) as usize];
                let mut input = Input::exact(size, slots, demand);
                input.nodes = nodes;
                compared(&input);
            }
        }
    }
}

#[test]
fn the_ends_of_the_range() {
    let lowest = accepted(&Input::exact(64, 1, vec![65_535; 4_096]));
    assert_eq!(lowest, [-4_194_239; 128]);
    let highest = accepted(&Input::exact(64, 1_024, vec![0; 4_096]));
    assert_eq!(highest, [1_024; 128]);
}

#[test]
fn one_pair_counts_in_its_two_lines() {
    for n in [1, 2, 3, 7, 64] {
        for cell in 0..n * n {
            let mut demand = vec![0; n * n];
            demand[cell] = 65_535;
            let slacks = accepted(&Input::exact(n as u32, 1, demand));
            for (line, &slack) in slacks.iter().enumerate() {
                let on_it = line == cell / n || line == n + cell % n;
                assert_eq!(slack, if on_it { -65_534 } else { 1 });
            }
        }
    }
}

#[test]
fn every_bad_cell_is_the_place() {
    for n in [1, 2, 5, 64] {
        for cell in 0..n * n {
            let mut demand = vec![65_535; n * n];
            demand[cell] = 65_536;
            let (answer, _) = compared(&Input::exact(n as u32, 1, demand));
            assert_eq!(answer, (6, cell as u32));
        }
    }
}

#[test]
fn every_small_matrix() {
    let asked = [0, 1, 2, 65_535, 65_536];
    for slots in [1, 2, 3] {
        for code in 0..asked.len().pow(4) {
            let digit = |cell| code / asked.len().pow(cell) % asked.len();
            let demand = (0..4).map(|cell| asked[digit(cell)]).collect();
            compared(&Input::exact(2, slots, demand));
        }
    }
}

#[test]
fn every_length_of_table() {
    for n in 1..=4 {
        for demand_length in 0..=n * n + 2 {
            for slacks_length in 0..=2 * n + 2 {
                let (answer, _) = compared(&Input {
                    nodes: n as u32,
                    slots: 4,
                    demand: vec![2; demand_length],
                    slacks: vec![5; slacks_length],
                });
                let expected = match (demand_length < n * n, slacks_length < 2 * n) {
                    (true, _) => (4, 0),
                    (false, true) => (5, 0),
                    (false, false) => (0, 0),
                };
                assert_eq!(answer, expected);
            }
        }
    }
}

#[test]
fn extra_cells_are_not_read() {
    let mut random = Random::announced();
    for _ in 0..200 {
        let (n, slots) = (random.nodes(), random.slots());
        let mut input = Input::exact(n as u32, slots, random.demand(n, slots));
        let slacks = accepted(&input);
        input.demand.extend([65_536, u32::MAX, 1]);
        assert_eq!(accepted(&input), slacks);
    }
}

#[test]
fn a_full_line_has_no_slack() {
    let mut random = Random::announced();
    let full = family("one line full");
    for _ in 0..200 {
        let (n, slots) = (random.nodes(), random.slots());
        let demand = full(&mut random, n, slots);
        let slacks = accepted(&Input::exact(n as u32, slots, demand));
        assert!(slacks.contains(&0));
        assert!(slacks.iter().all(|&slack| slack >= 0));
    }
}

/// Document 01, case o, as far as it speaks of this entry.
#[test]
fn case_o() {
    assert_eq!(compared(&Input::exact(0, 0, vec![])).0, (1, 0));
    let demand = vec![0; 65 * 65];
    assert_eq!(compared(&Input::exact(65, 4, demand)).0, (1, 0));
    assert_eq!(compared(&Input::exact(1, 1_025, vec![0])).0, (2, 0));
    let mut short = Input::exact(1, 4, vec![65_536]);
    short.slacks.pop();
    assert_eq!(compared(&short).0, (5, 0));
}

#[test]
fn tables_without_a_cell() {
    assert_eq!(gyodaebeun::slacks(0, 1, &[], &mut []), Err(Refusal::Nodes));
    assert_eq!(gyodaebeun::slacks(1, 0, &[], &mut []), Err(Refusal::Slots));
    let short = gyodaebeun::slacks(1, 1, &[], &mut []);
    assert_eq!(short, Err(Refusal::DemandShort));
    let short = gyodaebeun::slacks(1, 1, &[0], &mut []);
    assert_eq!(short, Err(Refusal::TableShort));
}
