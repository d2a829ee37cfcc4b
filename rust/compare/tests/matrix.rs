//! The matrix program: what the proved program prints and what the second program does, byte by
//! byte. Under the least rule the kept matrix is free, so there the first two lines are compared,
//! and the matrix is held to be admissible, at most the demand, and of the total printed.

use compare::program::MATRIX;
use second::inputs::Random;
use second::matrix::{self, Matrix};
use second::matrix_text::matrix_text;

#[track_caller]
fn compared(input: &[u8], piece: usize) -> Vec<u8> {
    let text = MATRIX.printed(input, piece);
    let expected = matrix_text(input);
    if expected.starts_with(b"nodes ") && first_line(&expected).ends_with(b" rule 1") {
        held_to_the_least_rule(input, &text, &expected);
    } else {
        assert_eq!(shown(&text), shown(&expected), "of {}", shown(input));
    }
    text
}

fn first_line(text: &[u8]) -> &[u8] {
    text.split(|&byte| byte == b'\n').next().expect("a line")
}

fn shown(bytes: &[u8]) -> String {
    String::from_utf8_lossy(&bytes[..bytes.len().min(400)]).into_owned()
}

/// A plan under the least rule: the lines and their numbers are where they should be.
#[track_caller]
fn held_to_the_least_rule(input: &[u8], text: &[u8], expected: &[u8]) {
    let lines = |text: &[u8]| -> Vec<String> {
        assert_eq!(text.last(), Some(&b'\n'));
        let text = String::from_utf8(text[..text.len() - 1].to_vec()).expect("digits and words");
        text.split('\n').map(str::to_string).collect()
    };
    let (text, expected) = (lines(text), lines(expected));
    assert_eq!(text.len(), expected.len(), "of {}", shown(input));
    assert_eq!(text[..2], expected[..2], "of {}", shown(input));
    let asked: Vec<u32> = String::from_utf8_lossy(input)
        .split([' ', '\n'])
        .filter_map(|word| word.parse().ok())
        .collect();
    let (n, slots) = (asked[0] as usize, asked[1] as usize);
    let cells: Vec<u32> = text[2..]
        .iter()
        .flat_map(|line| line.split(' '))
        .map(|word| {
            let cell: u32 = word.parse().expect("a number");
            assert_eq!(cell.to_string(), word, "no leading zeros");
            cell
        })
        .collect();
    assert_eq!(cells.len(), n * n);
    let (demand, kept) = (Matrix::read(n, &asked[3..]), Matrix::read(n, &cells));
    assert!(kept.is_below(&demand));
    assert!(kept.is_admissible(&matrix::full_capacity(n, slots)));
    assert!(text[1].starts_with(&format!("kept {} ", kept.total())));
}

#[test]
fn the_example() {
    let text = compared(b"2 10 1 11 1 0 0", 3);
    assert_eq!(
        text,
        b"nodes 2 slots 10 rule 1\nkept 10 refused 2\n9 1\n0 0\n"
    );
}

/// A good input of a random star, with more than one separator here and there.
fn good(random: &mut Random) -> Vec<u8> {
    let (n, slots) = (random.nodes().min(12), random.slots());
    let rule = random.below(2) as u32;
    let mut text = Vec::new();
    let demand = random.demand(n, slots);
    for number in [n as u32, slots, rule].into_iter().chain(demand) {
        for _ in 0..random.pick(&[1, 1, 1, 2, 3]) {
            text.push(random.pick(b"  \n"));
        }
        let zeros = random.pick(&[0, 0, 0, 1, 3]);
        text.extend(vec![b'0'; zeros]);
        text.extend(number.to_string().bytes());
    }
    if random.one_in(2) {
        text.push(b'\n');
    }
    text
}

#[test]
fn random_inputs() {
    let mut random = Random::announced();
    for _ in 0..1_500 {
        let mut input = good(&mut random);
        for _ in 0..random.pick(&[0, 0, 1, 1, 2]) {
            let at = random.below(input.len().max(1)).min(input.len());
            match random.below(4) {
                0 => input.truncate(at),
                1 => input.insert(at, random.pick(b"\t\r-+x\0\x0b\x0c.,")),
                2 => input.insert(at, random.pick(b"0123456789")),
                _ => input.extend(b" 7"),
            }
        }
        let piece = random.pick(&[1, 7, 64, 4_096, 70_000]);
        compared(&input, piece);
    }
}

/// Every pair of faults, and each alone: the number, or the words, that document 01 gives first.
#[test]
fn faults_together() {
    let starts: [(&str, &[&str]); 5] = [
        ("nodes", &["0", "65", "257", "999999999"]),
        ("slots", &["0", "1025", "65537"]),
        ("rule", &["2", "256"]),
        ("count", &["1 2 3", "1 2 3 4 5", ""]),
        ("above", &["1 65536 3 4", "65536 65536 65536 65536"]),
    ];
    let good = ["2", "10", "1", "5 6 7 8"];
    for (x, (_, bad_x)) in starts.iter().enumerate() {
        for (y, (_, bad_y)) in starts.iter().enumerate() {
            for a in *bad_x {
                for b in *bad_y {
                    let mut words = good;
                    words[x.min(3)] = a;
                    words[y.min(3)] = b;
                    compared(words.join(" ").as_bytes(), 5);
                    compared(format!("{} x", words.join("\n")).as_bytes(), 5);
                }
            }
        }
    }
}

#[test]
fn the_edges_of_the_list() {
    for input in [
        "",
        " ",
        "\n\n",
        "1",
        "1 4",
        "0 0",
        "0 0 0",
        "1 4 0",
        "1 4 2",
        "1 1025 7",
        "65 4 0 1 2",
        "01 04 00 05",
        "0000000001 4 0 1",
        "1 4 0 65536 65536",
        "0 0 9 x",
        "1 4 0 5\r\n",
        "1\t4 0 5",
        "\u{feff}1 4 0 5",
        "+1 4 0 5",
        "1 4 0 999999999",
        "1 4 0 1000000000",
        " 1 4 0 5 \n ",
    ] {
        compared(input.as_bytes(), 2);
    }
}

#[test]
fn long_inputs() {
    let mut random = Random::announced();
    for rule in [0, 1] {
        let demand: Vec<String> = (0..4_096)
            .map(|_| random.up_to(65_535).to_string())
            .collect();
        let text = format!("64 1024 {rule} {}\n", demand.join(" "));
        compared(text.as_bytes(), 1_000);
        compared(format!("{text} 1").as_bytes(), 1_000);
        compared(format!("{text} x").as_bytes(), 1_000);
    }
    let filled = |length: usize| {
        let mut text = b"1 4 0 5".to_vec();
        text.resize(length, b' ');
        text
    };
    for length in [65_535, 65_536, 65_537, 70_000] {
        compared(&filled(length), 4_096);
    }
    for word in ["0 ", "1 "] {
        compared(word.repeat(32_768).as_bytes(), 4_096);
    }
    let mut late = "1 ".repeat(32_767).into_bytes();
    late.push(b'x');
    compared(&late, 4_096);
}
