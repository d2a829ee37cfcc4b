//! Playing scenarios, by the entry `play_scenario` and by the program: valid files and damaged ones,
//! held against the second program. Under the least rule what a pair has sent may depend on the
//! plans that were chosen; where it does, the text is judged by its books and totals, and compared
//! with the library's own posts and frames.

use compare::program::SCENARIO;
use compare::run::{Call, Parties, State};
use compare::scenario::Player;
use gyodaebeun::{FRAME, POST, TEXT_BYTES};
use second::inputs::{Random, choices};
use second::limits::{FAIR, LEAST};
use second::run::Record;
use second::scenario::{self, Entry};
use second::scenario_text;

/// The parts of a file, each of which may be wrong.
#[derive(Clone, Debug)]
struct File {
    /// N, L, B, the rule and the number of entries.
    head: [u32; 5],
    /// Kind and place.
    entries: Vec<[u32; 2]>,
    /// What stands behind the table.
    rest: Vec<u8>,
}

impl File {
    fn new([nodes, slots, limit, rule]: [u32; 4], entries: Vec<[u32; 2]>, rest: Vec<u8>) -> File {
        File {
            head: [nodes, slots, limit, rule, entries.len() as u32],
            entries,
            rest,
        }
    }

    /// A post of each matrix and a frame, in turn.
    fn in_turn(values: [u32; 4], matrices: &[Vec<u32>]) -> File {
        let from = 20 + 16 * matrices.len();
        let size = 2 * (values[0] * values[0]) as usize;
        let entries = (0..matrices.len())
            .flat_map(|index| [[POST, (from + size * index) as u32], [FRAME, 0]])
            .collect();
        File::new(values, entries, cells(&matrices.concat()))
    }

    fn bytes(&self) -> Vec<u8> {
        let words = self.head.iter().chain(self.entries.as_flattened());
        let table = words.flat_map(|word| word.to_le_bytes());
        table.chain(self.rest.iter().copied()).collect()
    }

    fn table_length(&self) -> usize {
        20 + 8 * self.entries.len()
    }
}

fn cells(matrix: &[u32]) -> Vec<u8> {
    let low_bytes = |cell: &u32| (*cell as u16).to_le_bytes();
    matrix.iter().flat_map(low_bytes).collect()
}

/// A file without a fault. Some posts name the beginning of a matrix, others any place behind the
/// table from which a matrix fits, odd or not; so matrices are shared, overlap, and leave gaps.
fn valid(random: &mut Random) -> File {
    let n = random.pick(&[1, 1, 2, 2, 3, 3, 4, 6]);
    let slots = random.pick(&[1, 2, 5, 12, 30]);
    let limit = random.pick(&[1, slots, 3 * slots, 300, 65_535]);
    let rule = random.pick(&[FAIR, LEAST]);
    let most = random.pick(&[1, 3, 6, 12, 40]);
    let count = random.below(most);
    let (from, size) = (20 + 8 * count, 2 * n * n);
    let matrices = 1 + random.below(3);
    let gap = random.pick(&[0, 0, 1, 5]);
    let mut rest = random.bytes(gap);
    for _ in 0..matrices {
        rest.extend(cells(&random.demand(n, slots)));
    }
    rest.extend(random.bytes(gap));
    let mut entry = |_| {
        let at = match random.below(4) {
            0 | 1 => return [FRAME, 0],
            2 => gap + size * random.below(matrices),
            _ => random.below(rest.len() - size + 1),
        };
        [POST, (from + at) as u32]
    };
    let entries = (0..count).map(&mut entry).collect();
    File::new([n as u32, slots, limit, rule], entries, rest)
}

/// Changes a number of the table, or cuts what stands behind it.
fn damage(random: &mut Random, file: &mut File) {
    let any = random.word() as u32;
    let end = file.bytes().len() as u32;
    match random.below(8) {
        0 => file.head[0] = random.pick(&[0, 65, 257, u32::MAX, any]),
        1 => file.head[1] = random.pick(&[0, 1_025, 65_537, any]),
        2 => file.head[2] = random.pick(&[0, 65_536, 65_537, any]),
        3 => file.head[3] = random.pick(&[2, 256, any]),
        4 => file.head[4] = random.pick(&[4_096, 4_097, 0x2000_0000, u32::MAX, any]),
        5 => file.rest.truncate(random.below(file.rest.len() + 1)),
        _ => {
            let bad = [1, 2, 7, 256, 0x0100_0000, end - 1, end, u32::MAX - 7, any];
            if !file.entries.is_empty() {
                let entry = random.below(file.entries.len());
                file.entries[entry][random.below(2)] = random.pick(&bad);
            }
        }
    }
}

/// How often a text began with each of these words and numbers.
#[derive(Debug, Default)]
struct Given {
    nothing: usize,
    lines: usize,
    refused: [usize; 11],
}

impl Given {
    fn count(&mut self, text: &[u8]) {
        let text = str::from_utf8(text).expect("words and numbers");
        let words: Vec<&str> = text.split_whitespace().collect();
        match words[..] {
            [] => self.nothing += 1,
            ["refused", number, _] => {
                self.refused[number.parse::<usize>().expect("a number")] += 1;
            }
            _ => self.lines += 1,
        }
    }
}

#[test]
fn random_files() {
    let mut random = Random::announced();
    let mut player = Player::default();
    let mut given = Given::default();
    for _ in 0..2_500 {
        let mut file = valid(&mut random);
        for _ in 0..random.pick(&[0, 0, 0, 1, 1, 2]) {
            damage(&mut random, &mut file);
        }
        given.count(&player.played(&file.bytes()));
    }
    println!("{given:?}");
    assert!(given.lines > 500 && given.nothing > 50);
    let refused = [1, 2, 3, 7, 10].map(|number| given.refused[number]);
    assert!(refused.iter().all(|&times| times > 20));
}

/// Under either rule: the run's calls, made one by one and each frame judged, end with the books
/// that are printed.
#[test]
fn as_the_calls_of_a_run() {
    let mut random = Random::announced();
    let mut player = Player::default();
    for _ in 0..300 {
        let file = valid(&mut random).bytes();
        let scenario = scenario::read(&file).expect("accepted");
        let start = &scenario.start;
        let used = State::fresh(start.nodes, start.slots, 1, FAIR);
        let mut run = Parties::holding(used);
        assert_eq!(run.call(&Call::fresh(start)), (0, 0));
        for entry in scenario.entries {
            let call = match entry {
                Entry::Post(arrivals) => Call::Post(arrivals),
                Entry::Frame => Call::Frame,
            };
            assert_eq!(run.call(&call), (0, 0));
        }
        let Record { nodes, .. } = run.state().record;
        let lines = scenario_text::lines(nodes, &run.state().books);
        let text = scenario_text::print(&lines);
        assert_eq!(player.played(&file), text.as_bytes());
    }
}

/// Two posts share a matrix, one is alone; gaps before, between and behind.
fn small(rule: u32) -> File {
    let (first, second) = ([9, 0, 4, 1], [3, 7, 0, 300]);
    let rest = [&[1][..], &cells(&first), &[2, 0], &cells(&second), &[3]].concat();
    let entries = vec![[POST, 61], [FRAME, 0], [POST, 71], [POST, 61], [FRAME, 0]];
    File::new([2, 6, 40, rule], entries, rest)
}

#[test]
fn every_byte_of_a_table() {
    let mut player = Player::default();
    for rule in [FAIR, LEAST] {
        let file = small(rule);
        let good = file.bytes();
        assert!(player.played(&good).starts_with(b"0 0 "));
        for at in 0..file.table_length() {
            let byte = good[at];
            let near = [byte.wrapping_add(1), byte.wrapping_sub(1), byte ^ 128];
            for value in [0, 1, 2, 64, 65, 255].into_iter().chain(near) {
                let mut bytes = good.clone();
                bytes[at] = value;
                player.played(&bytes);
            }
        }
    }
}

#[test]
fn cut_at_every_length() {
    let mut player = Player::default();
    let file = small(LEAST);
    let good = file.bytes();
    for length in 0..=good.len() {
        let text = player.played(&good[..length]);
        // The table ends at 60, the first matrix at 69, the second at 79.
        let expected: &[u8] = match length {
            0..69 => b"refused 10 0\n",
            69..79 => b"refused 10 2\n",
            _ => b"0 0 ",
        };
        assert!(text.starts_with(expected), "{length}");
    }
}

/// What is wrong with a table, place 0.
const TABLES: [fn(&mut File); 5] = [
    |file| file.head[4] = 4_097,
    |file| file.head[4] = 0x2000_0000,
    |file| file.head[4] = u32::MAX,
    |file| file.head[4] = 4_096,
    |file| {
        file.entries.pop();
        file.rest = vec![0; 7];
    },
];

/// Entries that are wrong, and where: the table ends at 60, the file at 80.
const ENTRIES: [[u32; 2]; 17] = [
    [2, 0],
    [2, 61],
    [256, 61],
    [257, 0],
    [0x0100_0000, 61],
    [u32::MAX, 0],
    [FRAME, 1],
    [FRAME, 61],
    [FRAME, 256],
    [FRAME, 0x0100_0000],
    [FRAME, u32::MAX],
    [POST, 0],
    [POST, 59],
    [POST, 73],
    [POST, 80],
    [POST, 0xffff_fff8],
    [POST, u32::MAX],
];

/// Every single refusal, every pair of them and every larger choice: the first in the order. The
/// faults are numbered by their refusals, one of the table by 0.
#[test]
fn faults_together() {
    let mut player = Player::default();
    for faults in choices(&[0, 1, 2, 3, 7, 10]) {
        for way in 0..ENTRIES.len() {
            let mut file = small(LEAST);
            for fault in &faults {
                match fault {
                    0 => TABLES[way % TABLES.len()](&mut file),
                    1 => file.head[0] = 65,
                    2 => file.head[1] = 0,
                    3 => file.head[3] = 2,
                    7 => file.head[2] = 65_536,
                    _ => file.entries[1] = ENTRIES[way],
                }
            }
            let expected = match faults.first() {
                None => "0 0 ".to_string(),
                Some(0) => "refused 10 0\n".to_string(),
                Some(10) => "refused 10 1\n".to_string(),
                Some(number) => format!("refused {number} 0\n"),
            };
            let text = player.played(&file.bytes());
            assert!(text.starts_with(expected.as_bytes()), "{faults:?} {file:?}");
        }
    }
}

/// Of several bad entries the first, whatever is wrong with each.
#[test]
fn two_bad_entries() {
    let mut player = Player::default();
    for first in ENTRIES {
        for second in ENTRIES {
            let mut file = small(FAIR);
            (file.entries[2], file.entries[4]) = (first, second);
            assert_eq!(player.played(&file.bytes()), b"refused 10 2\n");
        }
    }
}

/// The first place of a matrix and the last, and those beside them.
#[test]
fn a_matrix_lies_between_the_table_and_the_end() {
    let mut player = Player::default();
    for n in [1, 2, 5, 64] {
        let size = 2 * n * n;
        for place in [27, 28, 29, 28 + size - 1, 28 + size, 28 + size + 1] {
            let mut file = File::new([n, 4, 9, FAIR], vec![[POST, place]], vec![]);
            file.rest = vec![1; 2 * size as usize];
            let fits = (28..=28 + size).contains(&place);
            let expected: &[u8] = if fits {
                b"0 0 257 0 248 9\n"
            } else {
                b"refused 10 0\n"
            };
            assert!(
                player.played(&file.bytes()).starts_with(expected),
                "{file:?}"
            );
        }
    }
}

#[test]
fn boundary_values() {
    let mut player = Player::default();
    for nodes in [0, 1, 64, 65, 257, u32::MAX] {
        for slots in [0, 1, 1_024, 1_025, 65_537] {
            for limit in [0, 1, 65_535, 65_536, u32::MAX] {
                for rule in [0, 1, 2, 256] {
                    let file = File::new([nodes, slots, limit, rule], vec![[FRAME, 0]], vec![]);
                    player.played(&file.bytes());
                }
            }
        }
    }
}

#[test]
fn without_entries_or_posts() {
    let mut player = Player::default();
    assert_eq!(player.played(&[]), b"refused 10 0\n");
    for entries in [vec![], vec![[FRAME, 0]; 3]] {
        let file = File::new([64, 1_024, 65_535, LEAST], entries, vec![]);
        assert_eq!(player.played(&file.bytes()), b"");
    }
    let nothing = File::in_turn([3, 4, 5, LEAST], &[vec![0; 9]]);
    assert_eq!(player.played(&nothing.bytes()), b"");
}

#[test]
fn the_most_entries() {
    let mut random = Random::announced();
    let mut player = Player::default();
    let from = 20 + 8 * 4_096;
    let posts = vec![[POST, from]; 4_096];
    let file = File::new([1, 4, 65_535, LEAST], posts, vec![255; 2]);
    let text = player.played(&file.bytes());
    assert_eq!(text, b"0 0 268431360 0 268365825 65535\n");
    for rule in [FAIR, LEAST] {
        let rest = [random.demand(2, 9), random.demand(2, 9)].concat();
        let places = [[POST, from], [POST, from + 7], [FRAME, 0], [FRAME, 0]];
        let entries = (0..4_096).map(|_| random.pick(&places)).collect();
        let file = File::new([2, 9, 30, rule], entries, cells(&rest));
        player.played(&file.bytes());
    }
    for (count, text) in [
        (4_096, ""),
        (4_097, "refused 10 0\n"),
        (5_000, "refused 10 0\n"),
    ] {
        let file = File::new([2, 9, 30, FAIR], vec![[FRAME, 0]; count], vec![]);
        assert_eq!(player.played(&file.bytes()), text.as_bytes());
    }
}

/// Of 65,536 bytes and one less or more, with a matrix at the very end too.
#[test]
fn the_longest_files() {
    let mut player = Player::default();
    for length in [65_535, 65_536, 65_537, 100_000] {
        let last = length as u32 - 8;
        for place in [36, last] {
            let mut file = File::new([2, 4, 9, FAIR], vec![[POST, place], [FRAME, 0]], vec![]);
            file.rest = vec![0; length - file.table_length()];
            file.rest[place as usize - 36] = 7;
            let long: &[u8] = b"bad input\n";
            let expected = if length > 65_536 {
                long
            } else {
                b"0 0 7 4 0 3\n"
            };
            assert_eq!(player.played(&file.bytes()), expected);
        }
        let zeros = vec![0; length];
        let expected: &[u8] = if length > 65_536 {
            b"bad input\n"
        } else {
            b"refused 1 0\n"
        };
        assert_eq!(player.played(&zeros), expected);
    }
}

#[test]
fn the_largest_star() {
    let mut random = Random::announced();
    let mut player = Player::default();
    for rule in [FAIR, LEAST] {
        let matrices: Vec<_> = (0..2).map(|_| random.demand(64, 1_024)).collect();
        let file = File::in_turn([64, 1_024, 65_535, rule], &matrices);
        player.played(&file.bytes());
    }
}

/// A text that has the same line for each pair of 64 nodes.
fn alike(posted: u64, sent: u64, dropped: u64, waiting: u64) -> Vec<u8> {
    let line = |pair: u64| [pair / 64, pair % 64, posted, sent, dropped, waiting];
    let lines: Vec<_> = (0..4_096).map(line).collect();
    scenario_text::print(&lines).into_bytes()
}

/// Seven times all that can be posted: each frame sends 16 slots of each pair, and each later post
/// finds room for as many.
fn full() -> (Vec<u8>, Vec<u8>) {
    let file = File::in_turn([64, 1_024, 65_535, FAIR], &vec![vec![65_535; 4_096]; 7]);
    (file.bytes(), alike(458_745, 112, 393_114, 65_519))
}

#[test]
fn full_matrices() {
    let (file, text) = full();
    assert_eq!(Player::default().call(&file), ((0, 0), text));
}

/// The same matrix posted 4,095 times, and a frame.
#[test]
fn a_long_text() {
    let place = 20 + 8 * 4_096;
    let mut entries = vec![[POST, place]; 4_095];
    entries.push([FRAME, 0]);
    let file = File::new([64, 1_024, 65_535, FAIR], entries, vec![255; 2 * 4_096]);
    let text = alike(268_365_825, 16, 268_300_290, 65_519);
    assert_eq!(Player::default().call(&file.bytes()), ((0, 0), text));
}

/// Refused exactly if the text's bytes are fewer than needed, whatever the file is.
#[test]
fn bytes_for_the_text() {
    for file in [&small(FAIR).bytes()[..], b"", &[0; 65_537]] {
        for length in [0, 1, 13, 65_536, TEXT_BYTES - 1] {
            let mut player = Player::lending(length);
            assert_eq!(player.call(file), ((5, 0), vec![]), "{length}");
        }
        for length in [TEXT_BYTES, TEXT_BYTES + 1, 2 * TEXT_BYTES] {
            Player::lending(length).played(file);
        }
    }
}

/// Document 01, case n.
#[test]
fn case_n() {
    let file = File::in_turn([1, 4, 6, LEAST], &[vec![10], vec![3]]);
    assert_eq!(Player::default().played(&file.bytes()), b"0 0 13 8 4 1\n");
}

/// The program prints what the entry writes, however its input comes.
#[test]
fn the_program() {
    let mut random = Random::announced();
    let mut player = Player::default();
    let mut compared = |file: &[u8], piece| {
        let text = player.played(file);
        assert_eq!(SCENARIO.printed(file, piece), text, "{file:?}");
    };
    for _ in 0..150 {
        let mut file = valid(&mut random);
        if random.one_in(3) {
            damage(&mut random, &mut file);
        }
        compared(&file.bytes(), random.pick(&[1, 7, 64, 4_096]));
    }
    for length in [0, 19, 20, 65_535, 65_536, 65_537, 70_000] {
        let mut file = small(LEAST).bytes();
        file.resize(length, 9);
        for piece in [1_000, 65_536, 70_000] {
            compared(&file, piece);
        }
    }
    let (file, text) = full();
    assert_eq!(SCENARIO.printed(&file, 4_096), text);
}

/// The example of the repository.
#[test]
fn the_day() {
    let day = include_bytes!("../../../examples/day.scenario");
    let text = include_bytes!("../../../examples/day.txt");
    assert_eq!(Player::default().played(day), text);
    assert_eq!(SCENARIO.printed(day, 50), text);
}
