//! The matrix program's text.

use second::matrix_text::matrix_text;

#[track_caller]
fn prints(input: impl AsRef<[u8]>, output: &str) {
    let printed = matrix_text(input.as_ref());
    assert_eq!(String::from_utf8_lossy(&printed), output);
}

const BAD: &str = "bad input\n";

#[test]
fn the_example() {
    let output = "nodes 2 slots 10 rule 1\nkept 10 refused 2\n9 1\n0 0\n";
    prints("2 10 1 11 1 0 0", output);
    prints("\n \n2 10\n\n1   11 1 \n0 0 \n", output);
}

#[test]
fn leading_zeros_count_among_the_digits() {
    let output = "nodes 1 slots 4 rule 0\nkept 4 refused 1\n4\n";
    prints("01 04 00 05", output);
    prints("000000001 4 0 000000005", output);
    prints("0000000001 4 0 1", BAD);
}

#[test]
fn the_order_of_what_is_wrong() {
    prints("0 0 9 x", BAD);
    prints("0 0", BAD);
    prints("", BAD);
    prints(" \n", BAD);
    prints("0 0 0", "refused 1 0\n");
    prints("65 4 0 1 2", "refused 1 0\n");
    prints("1 4 2", "refused 3 0\n");
    prints("1 4 0", BAD);
    prints("1 4 0 65536 65536", BAD);
    prints("1 1025 7", "refused 2 0\n");
    prints("2 4 0 1 2 3", BAD);
    prints("2 4 0 1 2 3 4 5", BAD);
    prints("2 4 0 1 65535 65536 999999999", "refused 6 2\n");
}

#[test]
fn more_numbers_than_a_matrix_holds() {
    let list = |first: &str, each: &str, count| format!("{first}{}", each.repeat(count));
    prints(list("65 4 0", " 1", 4_225), "refused 1 0\n");
    prints(list("", "0 ", 32_768), "refused 1 0\n");
    prints(list("", "1 ", 32_768), BAD);
    prints(list("64 1 1", " 1", 4_097), BAD);
    prints(list("0 0 0", " 1", 5_000) + " x", BAD);
}

#[test]
fn the_largest_matrix() {
    let input = format!("64 1024 1{}", " 000065535".repeat(4_096));
    let printed = String::from_utf8(matrix_text(input.as_bytes())).expect("text");
    let lines: Vec<&str> = printed.lines().collect();
    assert_eq!(lines.len(), 66);
    assert_eq!(lines[0], "nodes 64 slots 1024 rule 1");
    assert_eq!(lines[1], "kept 65536 refused 268365824");
}

#[test]
fn the_longest_input() {
    let mut input = b"1 4 0 5".to_vec();
    input.resize(65_536, b' ');
    prints(&input, "nodes 1 slots 4 rule 0\nkept 4 refused 1\n4\n");
    input.push(b' ');
    prints(&input, BAD);
}

#[test]
fn only_spaces_and_line_feeds_part_numbers() {
    for byte in (0..=255).filter(|byte| !matches!(byte, b' ' | b'\n' | b'0'..=b'9')) {
        let good = b"1 4 0 5";
        prints([good, &[byte][..]].concat(), BAD);
        prints([&[byte][..], good].concat(), BAD);
        prints([good, &[b' ', byte, b' '][..]].concat(), BAD);
        prints([b"1", &[byte][..], b"4 0 5"].concat(), BAD);
    }
    prints("1 4\r\n0 5\r\n", BAD);
    prints("\u{feff}1 4 0 5", BAD);
    prints("1 4 0 +5", BAD);
    prints("1 4 0 -5", BAD);
}
