//! Scenario files: what is read, what is refused, what is written, what is printed.

use second::inputs::{Random, choices};
use second::judge;
use second::limits::{FAIR, LEAST};
use second::refusal::Refusal;
use second::run::Record;
use second::scenario::{self, Entry, FRAME, POST, Scenario};
use second::scenario_text::scenario_text;

/// A file: the numbers of its table, then bytes.
fn file(table: &[u32], rest: &[u8]) -> Vec<u8> {
    let table = table.iter().flat_map(|v| v.to_le_bytes());
    table.chain(rest.iter().copied()).collect()
}

#[track_caller]
fn prints(input: impl AsRef<[u8]>, output: &str) {
    let printed = scenario_text(input.as_ref());
    assert_eq!(String::from_utf8_lossy(&printed), output);
}

fn refused<T>(number: u32, place: u32) -> Result<T, Refusal> {
    Err(Refusal { number, place })
}

/// Document 01, case n: N 1, L 4, B 6, rule 1: post 10, frame, post 3, frame.
const CASE_N: [u8; 56] = [
    1, 0, 0, 0, 4, 0, 0, 0, 6, 0, 0, 0, 1, 0, 0, 0, 4, 0, 0, 0, // N, L, B, rule, entries
    0, 0, 0, 0, 52, 0, 0, 0, 1, 0, 0, 0, 0, 0, 0, 0, // post, frame
    0, 0, 0, 0, 54, 0, 0, 0, 1, 0, 0, 0, 0, 0, 0, 0, // post, frame
    10, 0, 3, 0,
];

#[test]
fn case_n() {
    prints(CASE_N, "0 0 13 8 4 1\n");
    let read = scenario::read(&CASE_N).expect("accepted");
    let entries = [
        Entry::Post(vec![10]),
        Entry::Frame,
        Entry::Post(vec![3]),
        Entry::Frame,
    ];
    assert_eq!(read.start, Record::fresh(1, 4, 6, LEAST));
    assert_eq!(read.entries, entries);
    let mut written = [7; 60];
    let kinds = [POST, FRAME, POST, FRAME];
    let length = scenario::write(1, 4, 6, LEAST, &kinds, &[10, 3], &mut written);
    assert_eq!(length, Ok(56));
    assert_eq!(written[..56], CASE_N);
    assert_eq!(written[56..], [7; 4]);
}

#[test]
fn no_entries_print_nothing() {
    prints(file(&[2, 4, 6, FAIR, 0], &[]), "");
    prints(file(&[2, 4, 6, FAIR, 2, FRAME, 0, FRAME, 0], &[]), "");
}

/// Also those that a post named with 0.
#[test]
fn pairs_without_posts_are_not_printed() {
    let table = [2, 4, 6, FAIR, 2, POST, 36, FRAME, 0];
    let cells = [0, 0, 5, 0, 0, 1, 0, 0];
    prints(file(&table, &cells), "0 1 5 4 0 1\n1 0 256 4 250 2\n");
}

#[test]
fn low_bytes_come_first() {
    let cut = file(&[1, 1_024, 65_535, FAIR, 1, POST, 28], &[0x34]);
    prints(&cut, "refused 10 0\n");
    let whole = file(&[1, 1_024, 65_535, FAIR, 1, POST, 28], &[0x34, 0x12]);
    prints(whole, "0 0 4660 0 0 4660\n");
}

/// Shared, odd, overlapping and out of order.
#[test]
fn matrices_may_lie_anywhere_behind_the_table() {
    let posts = [POST, 55, POST, 53, POST, 52, POST, 53];
    let table = [&[1, 4, 65_535, FAIR, 4][..], &posts].concat();
    let read = scenario::read(&file(&table, &[1, 2, 3, 4, 5])).expect("accepted");
    let cells = [4 + 5 * 256, 2 + 3 * 256, 1 + 2 * 256, 2 + 3 * 256];
    let posts = cells.map(|cell| Entry::Post(vec![cell]));
    assert_eq!(read.entries, posts);
}

#[test]
fn the_table_comes_before_its_values() {
    for length in 0..20 {
        prints(&file(&[0; 5], &[])[..length], "refused 10 0\n");
    }
    prints(file(&[0, 0, 0, 2, 1], &[]), "refused 10 0\n");
    prints(file(&[0, 0, 0, 2, 1, 9], &[0; 3]), "refused 10 0\n");
    prints(file(&[0, 0, 0, 2, 4_097], &[0; 40_000]), "refused 10 0\n");
    prints(file(&[1, 1, 1, 0, 4_097], &[0; 40_000]), "refused 10 0\n");
    let wraps = file(&[0, 0, 0, 2, 0x2000_0000], &[]);
    prints(wraps, "refused 10 0\n");
}

#[test]
fn the_order_of_the_values() {
    prints(file(&[0, 0, 0, 2, 0], &[]), "refused 1 0\n");
    prints(file(&[65, 1, 1, 0, 0], &[]), "refused 1 0\n");
    prints(file(&[257, 1, 1, 0, 0], &[]), "refused 1 0\n");
    prints(file(&[1, 0, 0, 2, 0], &[]), "refused 2 0\n");
    prints(file(&[1, 1_025, 1, 0, 0], &[]), "refused 2 0\n");
    prints(file(&[1, 1, 0, 2, 0], &[]), "refused 3 0\n");
    prints(file(&[1, 1, 1, 256, 0], &[]), "refused 3 0\n");
    prints(file(&[1, 1, 0, 1, 1, 2, 0], &[]), "refused 7 0\n");
    prints(file(&[1, 1, 65_536, 1, 0], &[]), "refused 7 0\n");
}

#[test]
fn the_first_entry_with_any_fault() {
    let second = |kind, place| file(&[1, 4, 6, 0, 2, FRAME, 0, kind, place], &[5, 0]);
    prints(second(POST, 36), "0 0 5 0 0 5\n");
    for [kind, place] in [
        [POST, 0],
        [POST, 35],
        [POST, 37],
        [POST, u32::MAX],
        [POST, u32::MAX - 1],
        [FRAME, 1],
        [FRAME, 36],
        [FRAME, 0x0100_0000],
        [2, 0],
        [2, 36],
        [256, 36],
        [257, 0],
        [u32::MAX, 0],
    ] {
        prints(second(kind, place), "refused 10 1\n");
    }
    let both = file(&[1, 4, 6, 0, 3, FRAME, 0, FRAME, 7, 2, 0], &[]);
    prints(both, "refused 10 1\n");
    let wraps = file(&[2, 4, 6, 0, 1, POST, 0xFFFF_FFF8], &[0; 60]);
    prints(wraps, "refused 10 0\n");
}

#[test]
fn the_longest_input() {
    let mut input = CASE_N.to_vec();
    input.resize(65_536, 9);
    prints(&input, "0 0 13 8 4 1\n");
    input.push(9);
    prints(&input, "bad input\n");
    prints(vec![0; 65_537], "bad input\n");
    prints(vec![0; 65_536], "refused 1 0\n");
    assert!(scenario::read(&input).is_ok(), "the reader has no limit");
}

#[test]
fn the_most_entries() {
    let posts = [POST, 20 + 8 * 4_096].repeat(4_096);
    let table = [&[1, 4, 65_535, FAIR, 4_096], &posts[..]].concat();
    let input = file(&table, &[0xff, 0xff]);
    prints(&input, "0 0 268431360 0 268365825 65535\n");
    let frames = |count| {
        [
            &[1, 4, 9, FAIR, count][..],
            &[FRAME, 0].repeat(count as usize),
        ]
        .concat()
    };
    prints(file(&frames(4_096), &[]), "");
    prints(file(&frames(4_097), &[]), "refused 10 0\n");
}

/// What a writing call is lent.
#[derive(Clone)]
struct Call {
    values: [u32; 4],
    kinds: Vec<u32>,
    cells: Vec<u32>,
    file: Vec<u8>,
}

impl Call {
    fn good() -> Call {
        Call {
            values: [2, 4, 6, LEAST],
            kinds: vec![FRAME, POST, POST],
            cells: vec![1, 2, 3, 4, 5, 6, 7, 65_535],
            file: vec![7; 60],
        }
    }

    /// The faults are numbered by their refusals, too many entries by 0.
    fn damage(&mut self, fault: u32) {
        match fault {
            0 => self.kinds.resize(4_097, FRAME),
            1 => self.values[0] = 65,
            2 => self.values[1] = 0,
            3 => self.values[3] = 2,
            7 => self.values[2] = 65_536,
            10 => self.kinds[1] = 2,
            4 => self.cells.truncate(3),
            5 => self.file.truncate(19),
            _ => self.cells[2] = 65_536,
        }
    }

    fn write(&mut self) -> Result<usize, Refusal> {
        let [nodes, slots, limit, rule] = self.values;
        let Call {
            kinds, cells, file, ..
        } = self;
        scenario::write(nodes, slots, limit, rule, kinds, cells, file)
    }
}

#[test]
fn the_order_of_refusals_in_writing() {
    assert_eq!(Call::good().write(), Ok(60));
    for faults in choices(&[0, 1, 2, 3, 7, 10, 4, 5, 6]) {
        let Some(&first) = faults.first() else {
            continue;
        };
        let mut call = Call::good();
        for &fault in &faults {
            call.damage(fault);
        }
        let expected = match first {
            0 => refused(10, 0),
            10 => refused(10, 1),
            6 => refused(6, 2),
            number => refused(number, 0),
        };
        let before = call.file.clone();
        assert_eq!(call.write(), expected, "{faults:?}");
        assert_eq!(call.file, before, "{faults:?}");
    }
}

/// Cells are counted on from post to post, and those of no post are not read.
#[test]
fn the_place_of_a_cell_is_in_the_whole_table() {
    let write = |cells: &[u32]| {
        let kinds = [POST, FRAME, POST];
        scenario::write(1, 4, 6, FAIR, &kinds, cells, &mut [0; 48])
    };
    assert_eq!(write(&[5, 70_000]), refused(6, 1));
    assert_eq!(write(&[5, 7, 70_000]), Ok(48));
    assert_eq!(write(&[5]), refused(4, 0));
}

#[test]
fn a_file_may_be_longer_than_the_program_takes() {
    let kinds = [POST; 8];
    let cells: Vec<u32> = (0..8 * 4_096).collect();
    let mut file = vec![0; 20 + 8 * 8 + 2 * cells.len()];
    let length = scenario::write(64, 1, 1, FAIR, &kinds, &cells, &mut file);
    assert_eq!(length, Ok(65_620));
    let read = scenario::read(&file).expect("accepted");
    let posts: Vec<Entry> = cells.chunks(4_096).map(|c| Entry::Post(c.into())).collect();
    assert_eq!(read.entries, posts);
    prints(&file, "bad input\n");
}

#[test]
fn what_is_written_reads_back() {
    let mut random = Random::announced();
    for _ in 0..500 {
        let n = 1 + random.below(6) as u32;
        let start = Record::fresh(n, random.slots(), 1 + random.up_to(65_534), LEAST);
        let mut entry = |_| match random.one_in(2) {
            true => Entry::Frame,
            false => Entry::Post((0..n * n).map(|_| random.up_to(65_535)).collect()),
        };
        let entries = (0..n as usize).map(&mut entry).collect();
        let scenario = Scenario { start, entries };
        assert_eq!(scenario::read(&scenario.bytes()), Ok(scenario));
    }
}

/// Document 01, case k: what is sent may be 1 1 / 1 1, 2 0 / 0 2 or 0 2 / 2 0.
#[test]
fn a_text_is_judged_where_the_player_has_a_choice() {
    let cells = [2, 0, 2, 0, 2, 0, 2, 0];
    let case_k = file(&[2, 2, 6, LEAST, 2, POST, 36, FRAME, 0], &cells);
    let case_k = scenario::read(&case_k).expect("accepted");
    let judged = |text: &str| judge::played(&case_k, text.as_bytes()).is_ok();
    assert!(judged(
        "0 0 2 1 0 1\n0 1 2 1 0 1\n1 0 2 1 0 1\n1 1 2 1 0 1\n"
    ));
    assert!(judged(
        "0 0 2 2 0 0\n0 1 2 0 0 2\n1 0 2 0 0 2\n1 1 2 2 0 0\n"
    ));
    assert!(judged(
        "0 0 2 0 0 2\n0 1 2 2 0 0\n1 0 2 2 0 0\n1 1 2 0 0 2\n"
    ));
    for wrong in [
        "0 0 2 1 0 1\n0 1 2 1 0 1\n1 0 2 1 0 1\n1 1 2 0 0 2\n",
        "0 0 2 2 0 0\n0 1 2 2 0 0\n1 0 2 0 0 2\n1 1 2 0 0 2\n",
        "0 0 2 1 0 0\n0 1 2 1 0 1\n1 0 2 1 0 1\n1 1 2 1 0 1\n",
        "0 0 2 1 0 1\n1 0 2 1 0 1\n0 1 2 1 0 1\n1 1 2 1 0 1\n",
        "0 0 2 1 0 1\n0 1 2 1 0 1\n1 0 2 1 0 1\n",
        "0 0 2 1 0 1\n0 1 2 1 0 1\n1 0 2 1 0 1\n1 1 2 01 0 1\n",
        "0 0 2 1 0 1\n0 1 2 1 0 1\n1 0 2 1 0 1\n1 1 2 1 0 1",
        "",
    ] {
        assert!(!judged(wrong), "{wrong}");
    }
}

/// Nothing to withdraw, or one pair to withdraw from: cases g and c.
#[test]
fn a_text_is_compared_where_the_player_has_no_choice() {
    let row = [7, 0, 7, 0, 7, 0, 0, 0, 0, 0, 0, 0, 0, 0, 0, 0, 0, 0];
    let case_g = file(&[3, 10, 7, LEAST, 2, POST, 36, FRAME, 0], &row);
    let case_c = [11, 0, 1, 0, 0, 0, 0, 0];
    let case_c = file(&[2, 10, 11, LEAST, 2, POST, 36, FRAME, 0], &case_c);
    for (file, text) in [
        (case_g, "0 0 7 4 0 3\n0 1 7 3 0 4\n0 2 7 3 0 4\n"),
        (case_c, "0 0 11 9 0 2\n0 1 1 1 0 0\n"),
    ] {
        prints(&file, text);
        let scenario = scenario::read(&file).expect("accepted");
        assert!(!scenario.play().chose);
        assert_eq!(judge::played(&scenario, text.as_bytes()), Ok(()));
        assert!(judge::played(&scenario, b"").is_err());
    }
}

/// The example of the repository.
#[test]
fn the_day() {
    let day = include_bytes!("../../../../examples/day.scenario");
    prints(day, include_str!("../../../../examples/day.txt"));
}
