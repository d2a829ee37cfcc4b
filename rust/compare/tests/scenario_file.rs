//! The entry `write_scenario`: the proved library and the second program, answer by answer and byte
//! by byte; what is written reads back the same, and plays.

use compare::scenario::Player;
use compare::{Answer, Lent, by_library, by_second};
use gyodaebeun::{FRAME, POST, Refusal, raw, write_scenario};
use second::inputs::{Random, choices};
use second::limits::{FAIR, INPUT, LEAST};
use second::run::Record;
use second::scenario::{self, Entry, Scenario};

/// What the entry is called with; `file` has the bytes before the call.
#[derive(Clone, Debug)]
struct Input {
    nodes: u32,
    slots: u32,
    limit: u32,
    rule: u32,
    kinds: Vec<u32>,
    cells: Vec<u32>,
    file: Vec<u8>,
}

impl Input {
    /// Tables of just the length needed.
    fn exact([nodes, slots, limit, rule]: [u32; 4], kinds: &[u32], cells: &[u32]) -> Input {
        Input {
            nodes,
            slots,
            limit,
            rule,
            kinds: kinds.to_vec(),
            cells: cells.to_vec(),
            file: vec![7; 20 + 8 * kinds.len() + 2 * cells.len()],
        }
    }

    /// What an accepted call writes.
    fn scenario(&self) -> Scenario {
        let mut posts = self.cells.chunks((self.nodes * self.nodes) as usize);
        let mut entry = |&kind: &u32| match kind {
            POST => Entry::Post(posts.next().expect("its cells").to_vec()),
            _ => Entry::Frame,
        };
        Scenario {
            start: Record::fresh(self.nodes, self.slots, self.limit, self.rule),
            entries: self.kinds.iter().map(&mut entry).collect(),
        }
    }
}

/// The answer of the C entry, and the length that it reports.
fn by_c(input: &Input, file: &mut Lent<u8>) -> (Answer, usize) {
    let kinds = Lent::new(&input.kinds, u32::MAX);
    let cells = Lent::new(&input.cells, u32::MAX);
    let (mut lent_kinds, mut lent_cells) = (kinds.clone(), cells.clone());
    let mut report = [u32::MAX; 2];
    let number = raw::write_scenario(
        input.nodes,
        input.slots,
        input.limit,
        input.rule,
        lent_kinds.cells(),
        lent_cells.cells(),
        file.cells(),
        &mut report,
    );
    assert!(lent_kinds == kinds && lent_cells == cells, "{input:?}");
    let [place, length] = report;
    ((number, place), length as usize)
}

fn by_rust(input: &Input, file: &mut [u8]) -> Result<usize, Refusal> {
    let Input {
        nodes,
        slots,
        limit,
        rule,
        ref kinds,
        ref cells,
        ..
    } = *input;
    write_scenario(nodes, slots, limit, rule, kinds, cells, file)
}

/// The answer, and what an accepted call wrote, on which the library's C entry, its Rust entry and
/// the second program agree; all other bytes are as before. What was written reads back the same.
#[track_caller]
fn compared(input: &Input) -> (Answer, Vec<u8>) {
    let Input {
        nodes,
        slots,
        limit,
        rule,
        ref kinds,
        ref cells,
        ref file,
    } = *input;
    let before = Lent::new(file, 254);
    let mut expected = before.clone();
    let written = scenario::write(nodes, slots, limit, rule, kinds, cells, expected.cells());
    let (answer, length) = (by_second(written), written.unwrap_or(0));

    let mut in_c = before.clone();
    assert_eq!(by_c(input, &mut in_c), (answer, length), "{input:?}");
    assert!(in_c == expected, "{input:?}");
    let mut in_rust = before.clone();
    let safe = by_rust(input, in_rust.cells());
    assert_eq!(by_library(safe), answer, "{input:?}");
    assert_eq!(safe.unwrap_or(0), length, "{input:?}");
    assert!(in_rust == expected, "{input:?}");

    let bytes = in_c.cells()[..length].to_vec();
    if answer == (0, 0) {
        assert!(scenario::read(&bytes) == Ok(input.scenario()), "{input:?}");
    }
    (answer, bytes)
}

/// What was written, once it is also played.
#[track_caller]
fn accepted(player: &mut Player, input: &Input) -> Vec<u8> {
    let (answer, bytes) = compared(input);
    assert_eq!(answer, (0, 0), "{input:?}");
    let text = player.played(&bytes);
    assert_eq!(bytes.len() > INPUT, text == b"bad input\n");
    bytes
}

/// The faults of a call in the order of their checks, numbered by their refusals; too many entries
/// by 0.
const ORDER: [u32; 9] = [0, 1, 2, 3, 7, 10, 4, 5, 6];

/// Good tables, often longer than needed.
fn random_input(random: &mut Random) -> Input {
    let n = random.pick(&[1, 1, 2, 3, 5]);
    let slots = random.slots();
    let most = random.pick(&[1, 4, 12, 30]);
    let count = random.below(most);
    let kinds: Vec<u32> = (0..count).map(|_| random.pick(&[POST, FRAME])).collect();
    let posts = kinds.iter().filter(|&&kind| kind == POST);
    let cells: Vec<u32> = posts.flat_map(|_| random.demand(n, slots)).collect();
    let limit = 1 + random.up_to(65_534);
    let rule = random.pick(&[FAIR, LEAST]);
    let mut input = Input::exact([n as u32, slots, limit, rule], &kinds, &cells);
    let longer = random.pick(&[0, 0, 1, 9, 100]);
    input.cells.extend(random.words(longer));
    let longer = random.pick(&[0, 0, 1, 9, 100]);
    input.file = random.bytes(input.file.len() + longer);
    input
}

fn damage(random: &mut Random, input: &mut Input) {
    let any = random.word() as u32;
    let Input { kinds, cells, .. } = input;
    match random.pick(&ORDER[1..]) {
        1 => input.nodes = random.pick(&[0, 65, 257, u32::MAX, any]),
        2 => input.slots = random.pick(&[0, 1_025, 65_537, any]),
        3 => input.rule = random.pick(&[2, 256, any]),
        7 => input.limit = random.pick(&[0, 65_536, 65_537, any]),
        10 if !kinds.is_empty() => {
            let entry = random.below(kinds.len());
            kinds[entry] = random.pick(&[2, 255, 256, 257, u32::MAX, any]);
        }
        4 => cells.truncate(random.below(cells.len() + 1)),
        5 => input.file.truncate(random.below(input.file.len() + 1)),
        _ => {
            let above = random.pick(&[65_536, 65_537, 131_072, u32::MAX]);
            let cell = random.below(cells.len() + 1);
            if let Some(cell) = cells.get_mut(cell) {
                *cell = above;
            }
        }
    }
}

#[test]
fn random_inputs() {
    let mut random = Random::announced();
    let mut player = Player::default();
    let mut given = [0; 11];
    for _ in 0..2_000 {
        let mut input = random_input(&mut random);
        for _ in 0..random.pick(&[0, 0, 1, 1, 2]) {
            damage(&mut random, &mut input);
        }
        let (answer, bytes) = compared(&input);
        given[answer.0 as usize] += 1;
        if answer == (0, 0) && random.one_in(4) {
            player.played(&bytes);
        }
    }
    println!("answers by number: {given:?}");
    assert!(given[0] > 500, "too few are accepted");
    let mut refusals = ORDER[1..].iter();
    assert!(refusals.all(|&number| given[number as usize] > 20));
}

/// Every single refusal, every pair of them and every larger choice: the first in the order.
#[test]
fn faults_together() {
    let good = [
        Input::exact([1, 9, 9, FAIR], &[FRAME, POST, POST], &[5, 6]),
        Input::exact([3, 9, 9, LEAST], &[FRAME, POST, FRAME, POST], &[8; 18]),
    ];
    for good in good {
        let pairs = (good.nodes * good.nodes) as usize;
        for faults in choices(&ORDER) {
            let mut input = good.clone();
            for fault in &faults {
                match fault {
                    0 => input.kinds.resize(4_097, FRAME),
                    1 => input.nodes = 65,
                    2 => input.slots = 1_025,
                    3 => input.rule = 2,
                    7 => input.limit = 0,
                    10 => input.kinds[1..].fill(2),
                    4 => drop(input.cells.pop()),
                    5 => drop(input.file.pop()),
                    _ => input.cells[pairs - 1..].fill(65_536),
                }
            }
            let expected = match faults.first() {
                None => (0, 0),
                Some(0) => (10, 0),
                Some(10) => (10, 1),
                Some(6) => (6, pairs as u32 - 1),
                Some(&number) => (number, 0),
            };
            assert_eq!(compared(&input).0, expected, "{faults:?}");
        }
    }
}

#[test]
fn boundary_values() {
    for nodes in [0, 1, 2, 64, 65, 256, 257, 1 << 16, 1 << 31, u32::MAX] {
        for slots in [0, 1, 1_024, 1_025, 65_537, u32::MAX] {
            for limit in [0, 1, 65_535, 65_536, u32::MAX] {
                for rule in [0, 1, 2, 256, u32::MAX] {
                    let values = [nodes, slots, limit, rule];
                    compared(&Input::exact(values, &[FRAME], &[]));
                    compared(&Input::exact(values, &[POST], &[65_535]));
                }
            }
        }
    }
}

/// Tables that are just long enough, shorter and longer.
#[test]
fn every_length_of_table() {
    for n in 1..=2 {
        let pairs = (n * n) as usize;
        for kinds in [&[][..], &[POST], &[FRAME], &[POST, FRAME, POST]] {
            let posts = kinds.iter().filter(|&&kind| kind == POST).count();
            let good = Input::exact([n, 4, 6, LEAST], kinds, &vec![9; posts * pairs]);
            let (cells, bytes) = (good.cells.len(), good.file.len());
            for cells_length in 0..cells + 3 {
                for length in 0..bytes + 3 {
                    let mut input = good.clone();
                    input.cells.resize(cells_length, 65_536);
                    input.file.resize(length, 9);
                    let expected = match (cells_length < cells, length < bytes) {
                        (true, _) => (4, 0),
                        (false, true) => (5, 0),
                        (false, false) => (0, 0),
                    };
                    assert_eq!(compared(&input).0, expected);
                }
            }
        }
    }
}

#[test]
fn every_bad_cell_is_the_place() {
    for n in [1, 2, 5] {
        let kinds = [POST, FRAME, POST, POST];
        for cell in 0..3 * n * n {
            let mut cells = vec![65_535; 3 * n * n];
            cells[cell] = 65_536;
            let (answer, _) = compared(&Input::exact([n as u32, 1, 1, FAIR], &kinds, &cells));
            assert_eq!(answer, (6, cell as u32));
        }
    }
}

#[test]
fn every_bad_kind_is_the_place() {
    for kind in [2, 3, 255, 256, 257, 1 << 16, 1 << 31, u32::MAX] {
        for entry in 0..5 {
            let mut kinds = [POST, FRAME, FRAME, POST, FRAME];
            kinds[entry] = kind;
            let (answer, _) = compared(&Input::exact([1, 1, 1, FAIR], &kinds, &[7; 5]));
            assert_eq!(answer, (10, entry as u32));
        }
    }
}

/// Every byte of a cell, and the numbers of four bytes.
#[test]
fn low_bytes_come_first() {
    let mut player = Player::default();
    let cells = [0, 1, 255, 256, 257, 0x1234, 0x8000, 65_534, 65_535];
    let input = Input::exact([3, 1_024, 65_535, FAIR], &[FRAME, POST], &cells);
    let bytes = accepted(&mut player, &input);
    let table = [
        3, 0, 0, 0, 0, 4, 0, 0, 255, 255, 0, 0, 0, 0, 0, 0, 2, 0, 0, 0,
    ];
    assert_eq!(bytes[..20], table);
    let entries = [1, 0, 0, 0, 0, 0, 0, 0, 0, 0, 0, 0, 36, 0, 0, 0];
    assert_eq!(bytes[20..36], entries);
    let cells = [
        0, 0, 1, 0, 255, 0, 0, 1, 1, 1, 0x34, 0x12, 0, 0x80, 254, 255, 255, 255,
    ];
    assert_eq!(bytes[36..], cells);
}

#[test]
fn the_most_entries() {
    let mut random = Random::announced();
    let mut player = Player::default();
    let empty = accepted(&mut player, &Input::exact([1, 1, 1, FAIR], &[], &[]));
    assert_eq!(empty.len(), 20);
    let kinds: Vec<u32> = (0..4_096).map(|_| random.pick(&[POST, FRAME])).collect();
    let posts = kinds.iter().filter(|&&kind| kind == POST).count();
    let cells: Vec<u32> = (0..posts).map(|_| random.up_to(20)).collect();
    let mut input = Input::exact([1, 9, 30, FAIR], &kinds, &cells);
    accepted(&mut player, &input);
    for length in [4_097, 5_000, 1 << 17] {
        input.kinds.resize(length, FRAME);
        assert_eq!(compared(&input).0, (10, 0));
    }
}

/// With seven posts of 64 nodes a file has less than 65,536 bytes, with eight more.
#[test]
fn the_largest_star() {
    let mut random = Random::announced();
    let mut player = Player::default();
    for posts in [1, 7, 8, 40] {
        let cells: Vec<u32> = (0..posts * 4_096).map(|_| random.up_to(65_535)).collect();
        let input = Input::exact([64, 1_024, 65_535, LEAST], &vec![POST; posts], &cells);
        let bytes = accepted(&mut player, &input);
        assert_eq!(bytes.len(), 20 + (8 + 2 * 4_096) * posts);
    }
}

/// Just 65,536 bytes, which are played, and one post more.
#[test]
fn the_longest_file_that_is_played() {
    let mut player = Player::default();
    for (posts, length) in [(2_518, 65_536), (2_519, 65_562)] {
        let kinds = [vec![POST; posts], vec![FRAME; 6]].concat();
        let input = Input::exact([3, 9, 30, FAIR], &kinds, &vec![3; 9 * posts]);
        assert_eq!(accepted(&mut player, &input).len(), length);
    }
}

/// Both are only read.
#[test]
fn kinds_and_cells_may_be_one_table() {
    let table = [POST, FRAME, FRAME, POST];
    let mut file = [7; 56];
    let length = write_scenario(1, 4, 6, LEAST, &table, &table, &mut file);
    assert_eq!(length, Ok(56));
    let (_, expected) = compared(&Input::exact([1, 4, 6, LEAST], &table, &table[..2]));
    assert_eq!(file[..], expected);
}

#[test]
fn tables_without_a_cell() {
    let write = |nodes, kinds: &[u32], file: &mut [u8]| {
        write_scenario(nodes, 4, 6, LEAST, kinds, &[], file)
    };
    assert_eq!(write(0, &[], &mut []), Err(Refusal::Nodes));
    assert_eq!(write(1, &[], &mut []), Err(Refusal::TableShort));
    assert_eq!(write(1, &[POST], &mut []), Err(Refusal::DemandShort));
    let unknown = Err(Refusal::BadFile { entry: 1 });
    assert_eq!(write(1, &[POST, 2], &mut []), unknown);
    assert_eq!(write(1, &[], &mut [0; 20]), Ok(20));
    assert_eq!(write(1, &[FRAME], &mut [0; 28]), Ok(28));
}
