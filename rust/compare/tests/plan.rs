//! The entry `plan`: the proved library and the second program, answer by answer. Of an accepted
//! plan many are right, so it is judged by document 01.

use compare::{
    Answer, Lent, Said, by_second, largest_stars, lists, said_in_c, said_in_rust, stars,
};
use gyodaebeun::raw;
use second::inputs::{Random, choices};
use second::limits::{FAIR, LEAST};
use second::matrix::Matrix;
use second::plan::{self, Report, Written};
use second::{judge, refusal};

/// What the entry is called with; `written` has the tables before the call.
#[derive(Clone, Debug)]
struct Input {
    nodes: u32,
    slots: u32,
    rule: u32,
    demand: Vec<u32>,
    written: Written,
}

impl Input {
    /// Tables of just the length needed.
    fn exact(nodes: u32, slots: u32, rule: u32, demand: &[u32]) -> Input {
        let cells = (nodes * nodes) as usize;
        Input {
            nodes,
            slots,
            rule,
            demand: demand[..cells].to_vec(),
            written: Written {
                kept: vec![7; cells],
                withdrawn: vec![7; cells],
                schedule: vec![7; (slots * nodes) as usize],
            },
        }
    }
}

/// The tables lent to one call.
#[derive(Clone, Debug, PartialEq, Eq)]
struct Tables {
    demand: Lent<u32>,
    kept: Lent<u32>,
    withdrawn: Lent<u32>,
    schedule: Lent<u8>,
}

impl Tables {
    fn lent(input: &Input) -> Tables {
        Tables {
            demand: Lent::new(&input.demand, u32::MAX),
            kept: Lent::new(&input.written.kept, u32::MAX),
            withdrawn: Lent::new(&input.written.withdrawn, u32::MAX),
            schedule: Lent::new(&input.written.schedule, 254),
        }
    }

    /// Whether only what an accepted plan writes has changed.
    fn changed_only(&self, cells: usize, bytes: usize, before: &Tables) -> bool {
        self.demand == before.demand
            && self.kept.changed_only(cells, &before.kept)
            && self.withdrawn.changed_only(cells, &before.withdrawn)
            && self.schedule.changed_only(bytes, &before.schedule)
    }

    fn written(&mut self) -> Written {
        Written {
            kept: self.kept.cells().to_vec(),
            withdrawn: self.withdrawn.cells().to_vec(),
            schedule: self.schedule.cells().to_vec(),
        }
    }
}

fn by_c(input: &Input, tables: &mut Tables) -> Said {
    let mut report = [u32::MAX; 4];
    let number = raw::plan(
        input.nodes,
        input.slots,
        input.rule,
        tables.demand.cells(),
        tables.kept.cells(),
        tables.withdrawn.cells(),
        tables.schedule.cells(),
        &mut report,
    );
    said_in_c(number, report)
}

fn by_rust(input: &Input, tables: &mut Tables) -> Said {
    said_in_rust(gyodaebeun::plan(
        input.nodes,
        input.slots,
        input.rule,
        tables.demand.cells(),
        tables.kept.cells(),
        tables.withdrawn.cells(),
        tables.schedule.cells(),
    ))
}

/// The answer, on which the library's C entry, its Rust entry and the second program agree, and
/// what an accepted plan wrote and reported, once it is judged.
#[track_caller]
fn compared(input: &Input) -> (Answer, Option<(Written, Report)>) {
    let Input { nodes, slots, .. } = *input;
    let mut written = input.written.clone();
    let planned = plan::plan(nodes, slots, input.rule, &input.demand, &mut written);
    let expected = by_second(planned);

    let before = Tables::lent(input);
    let mut tables = before.clone();
    let (answer, report) = by_c(input, &mut tables);
    assert_eq!(answer, expected, "{input:?}");
    let mut again = before.clone();
    let said_again = by_rust(input, &mut again);
    assert_eq!(again, tables, "{input:?}");
    assert_eq!(said_again, (answer, report), "{input:?}");

    if answer != (0, 0) {
        assert_eq!(tables, before, "{input:?}");
        assert_eq!(report, Report::default(), "{input:?}");
        return (answer, None);
    }
    let (cells, bytes) = ((nodes * nodes) as usize, (slots * nodes) as usize);
    assert!(tables.changed_only(cells, bytes, &before), "{input:?}");
    let written = tables.written();
    let demand = Matrix::read(nodes as usize, &input.demand);
    let judged = judge::plan(&demand, slots as usize, input.rule, &written, report);
    assert_eq!(judged, Ok(()), "{input:?}");
    (answer, Some((written, report)))
}

#[track_caller]
fn accepted(input: &Input) -> (Written, Report) {
    let (answer, plan) = compared(input);
    assert_eq!(answer, (0, 0), "{input:?}");
    plan.expect("accepted")
}

#[test]
fn random_inputs() {
    let mut random = Random::announced();
    let mut given = [0; 7];
    for star in stars(&mut random, 120) {
        let (answer, _) = compared(&random_input(&mut random, star.n, star.slots, &star.demand));
        given[answer.0 as usize] += 1;
    }
    println!("answers by number: {given:?}");
    assert!(given[0] > 500, "too few are accepted");
    assert!(
        refusal::PLAN
            .iter()
            .all(|&number| given[number as usize] > 20)
    );
}

/// A good input, its tables often longer than needed; then, often, one or more faults.
fn random_input(random: &mut Random, n: usize, slots: u32, demand: &[u32]) -> Input {
    let rule = random.pick(&[FAIR, LEAST]);
    let mut input = Input::exact(n as u32, slots, rule, demand);
    let cells = n * n + random.pick(&[0, 1, 9]);
    let longer = random.pick(&[0, 1, 9]);
    input.demand.extend(random.words(longer));
    input.written = Written {
        kept: random.words(cells),
        withdrawn: random.words(n * n + longer),
        schedule: random.bytes(slots as usize * n + longer),
    };
    for _ in 0..random.pick(&[0, 0, 0, 1, 1, 2, 3]) {
        damage(random, &mut input, n);
    }
    input
}

fn damage(random: &mut Random, input: &mut Input, n: usize) {
    let any = random.word() as u32;
    match random.pick(refusal::PLAN) {
        1 => input.nodes = random.pick(&[0, n as u32 + 1, 65, 257, u32::MAX, any]),
        2 => input.slots = random.pick(&[0, 1_025, 65_537, u32::MAX, any]),
        3 => input.rule = random.pick(&[2, 256, 1 << 31, u32::MAX]),
        4 => input.demand.truncate(random.below(n * n)),
        5 => match random.below(3) {
            0 => input.written.kept.truncate(random.below(n * n)),
            1 => input.written.withdrawn.truncate(random.below(n * n)),
            _ => {
                let length = (n * input.slots.min(1_024) as usize).max(1);
                input.written.schedule.truncate(random.below(length));
            }
        },
        _ => {
            let above = random.pick(&[65_536, 65_537, 131_071, u32::MAX]);
            let cell = random.below(n * n);
            if let Some(demand) = input.demand.get_mut(cell) {
                *demand = above;
            }
        }
    }
}

/// Every single refusal, every pair of them and every larger choice: the first in the order.
#[test]
fn faults_together() {
    for (n, slots) in [(2, 2), (3, 10), (64, 7)] {
        for faults in choices(refusal::PLAN) {
            for short in 0..3 {
                let expected = match faults.first() {
                    None => (0, 0),
                    Some(6) => (6, 1),
                    Some(&number) => (number, 0),
                };
                let input = with_faults(n, slots, &faults, short);
                assert_eq!(compared(&input).0, expected, "{faults:?}");
            }
        }
    }
}

/// An input with just these faults; `short` says which table 5 is about.
fn with_faults(n: u32, slots: u32, faults: &[u32], short: usize) -> Input {
    let mut input = Input::exact(n, slots, LEAST, &vec![3; (n * n) as usize]);
    for fault in faults {
        match fault {
            1 => input.nodes = 0,
            2 => input.slots = 0,
            3 => input.rule = 2,
            4 => input.demand.truncate((n * n - 1) as usize),
            5 => match short {
                0 => drop(input.written.kept.pop()),
                1 => drop(input.written.withdrawn.pop()),
                _ => drop(input.written.schedule.pop()),
            },
            _ => input.demand[1..].fill(65_536),
        }
    }
    input
}

#[test]
fn boundary_values() {
    for nodes in [0, 1, 2, 64, 65, 257, 1 << 31, u32::MAX] {
        for slots in [0, 1, 2, 1_024, 1_025, 65_537, u32::MAX] {
            for rule in [0, 1, 2, 256, u32::MAX] {
                let size = nodes.min(65);
                let demand = vec![1; (size * size) as usize];
                let mut input = Input::exact(size, slots.min(1_025), rule, &demand);
                (input.nodes, input.slots) = (nodes, slots);
                compared(&input);
            }
        }
    }
}

#[test]
fn the_largest_stars() {
    let mut random = Random::announced();
    for star in largest_stars(&mut random) {
        let fair = accepted(&Input::exact(64, 1_024, FAIR, &star.demand)).1;
        let least = accepted(&Input::exact(64, 1_024, LEAST, &star.demand)).1;
        assert!(least.refused <= fair.refused);
    }
}

/// Two nodes: every demand from 0 to 3 for each pair.
#[test]
fn every_small_demand() {
    for demand in lists(4, 4) {
        for slots in 1..=4 {
            let fair = accepted(&Input::exact(2, slots, FAIR, &demand)).1;
            let least = accepted(&Input::exact(2, slots, LEAST, &demand)).1;
            assert!(least.refused <= fair.refused);
        }
    }
}

#[test]
fn every_length_of_table() {
    for n in 1..=3 {
        for slots in 1..=3 {
            let good = Input::exact(n, slots, LEAST, &[2; 9]);
            let needed = [n * n, n * n, n * n, slots * n];
            for (table, needed) in needed.map(|cells| cells as usize).into_iter().enumerate() {
                for length in 0..needed + 3 {
                    let mut input = good.clone();
                    match table {
                        0 => input.demand.resize(length, 65_536),
                        1 => input.written.kept.resize(length, 9),
                        2 => input.written.withdrawn.resize(length, 9),
                        _ => input.written.schedule.resize(length, 9),
                    }
                    let expected = match (length < needed, table) {
                        (false, _) => (0, 0),
                        (true, 0) => (4, 0),
                        (true, _) => (5, 0),
                    };
                    assert_eq!(compared(&input).0, expected);
                }
            }
        }
    }
}

/// A demand and L under a rule, what is kept, and the refused total.
#[track_caller]
fn case(slots: u32, demand: &[u32], rule: u32, kept: &[u32], refused: u32) {
    let n = demand.len().isqrt() as u32;
    let (written, report) = accepted(&Input::exact(n, slots, rule, demand));
    assert_eq!(written.kept, kept);
    assert_eq!((report.kept, report.refused), (kept.iter().sum(), refused));
}

/// Document 01, "Worked by hand".
#[test]
fn worked_by_hand() {
    for rule in [FAIR, LEAST] {
        case(4, &[4], rule, &[4], 0);
        case(4, &[5], rule, &[4], 1);
    }
    case(10, &[11, 1, 0, 0], LEAST, &[9, 1, 0, 0], 2);
    case(10, &[11, 1, 0, 0], FAIR, &[9, 0, 0, 0], 3);
    case(4, &[3, 3, 3, 0], LEAST, &[1, 3, 3, 0], 2);
    case(4, &[3, 3, 3, 0], FAIR, &[2, 2, 2, 0], 3);
    let row = |cells: [u32; 3]| [&cells[..], &[0; 6]].concat();
    case(10, &row([7, 7, 7]), LEAST, &row([4, 3, 3]), 11);
    case(10, &row([7, 7, 7]), FAIR, &row([3, 3, 3]), 12);
    let demand = [2, 2, 1, 2, 0, 3, 1, 3, 0];
    case(4, &demand, LEAST, &[2, 1, 1, 1, 0, 3, 1, 3, 0], 2);
    case(4, &demand, FAIR, &[1, 1, 0, 1, 0, 2, 1, 3, 0], 5);
    case(1_024, &[65_535], LEAST, &[1_024], 64_511);
}

/// Document 01, cases k, m and o.
#[test]
fn worked_by_hand_further() {
    let (_, report) = accepted(&Input::exact(2, 2, LEAST, &[2; 4]));
    assert_eq!(report.refused, 4);
    for rule in [FAIR, LEAST] {
        let (written, report) = accepted(&Input::exact(3, 5, rule, &[0; 9]));
        assert_eq!(
            (written.kept, written.schedule),
            (vec![0; 9], vec![255; 15])
        );
        assert_eq!(report.reconfigurations, 0);
    }
    assert_eq!(compared(&Input::exact(0, 0, FAIR, &[])).0, (1, 0));
    let large = Input::exact(65, 4, FAIR, &[0; 65 * 65]);
    assert_eq!(compared(&large).0, (1, 0));
    assert_eq!(compared(&Input::exact(1, 1_025, FAIR, &[0])).0, (2, 0));
    let mut short = Input::exact(1, 4, FAIR, &[65_536]);
    short.written.kept.pop();
    assert_eq!(compared(&short).0, (5, 0));
}
