//! The driver's lines: good ones, each sort of bad one, and any bytes at all.

use second::compare::own_output;
use second::random::Random;
use std::io::{BufReader, Cursor, Read};

const BAD: &str = "1 0 0 0 0\n";
const GOOD: &str = "0 0 0 0 0\n";

/// The output for some event lines after good first lines.
fn after_creation(events: &[u8]) -> String {
    let input = [b"1 2 1 100\n3\n", events].concat();
    String::from_utf8(own_output(&input)).unwrap()
}

#[test]
fn nothing_is_written_for_lines_that_do_not_exist() {
    assert_eq!(after_creation(b""), "");
    assert_eq!(own_output(b"1 2 1 100\n3"), b"");
    assert_eq!(after_creation(b"8 0"), GOOD);
    assert_eq!(after_creation(b"8 0\n"), GOOD);
    assert_eq!(after_creation(b"8 0\n\n"), [GOOD, BAD].concat());
    assert_eq!(after_creation(b"\n"), BAD);
}

#[test]
fn good_lines() {
    let zeros_to_120 = [vec![b'0'; 117], b"8 0".to_vec()].concat();
    assert_eq!(zeros_to_120.len(), 120);
    let lines: [&[u8]; 5] = [
        b"8 0",
        b"08 000",
        b"2 0 0 18446744073709551615",
        b"2 0 0 000018446744073709551615",
        &zeros_to_120,
    ];
    for line in lines {
        assert_eq!(after_creation(line), GOOD);
    }
}

#[test]
fn ordinary_events_answered_1() {
    for line in [
        "8 1",
        "8 18446744073709551615",
        "0",
        "17 0 0 0",
        "3 0 0 0",
        "99999999999",
    ] {
        assert_eq!(after_creation(line.as_bytes()), BAD);
    }
}

#[test]
fn bad_lines() {
    let too_long = [vec![b'0'; 118], b"8 0".to_vec()].concat();
    let far_too_long = [vec![b'0'; 1_000_000], b"8 0".to_vec()].concat();
    let lines: [&[u8]; 34] = [
        b"",
        b" ",
        b" 8 0",
        b"8 0 ",
        b"8  0",
        b"8\t0",
        b"8 0\t",
        b"-8 0",
        b"8 -0",
        b"+8 0",
        b"8 +0",
        b"8 0\r",
        b"\r",
        b"8 18446744073709551616",
        b"2 0 0 18446744073709551616",
        b"2 0 0 99999999999999999999999999999999999999",
        b"18446744073709551616",
        &too_long,
        &far_too_long,
        b"8",
        b"8 0 0",
        b"15 0",
        b"1 0",
        b"1 0 0 0",
        b"2 0 0",
        b"16 0 0",
        b"x",
        b"8 x",
        b"8 0x0",
        b"8 0.0",
        b"8,0",
        b"8 0\0",
        b"8\xC2\xA00",
        b"\xFF\xFE",
    ];
    for line in lines {
        let shown = String::from_utf8_lossy(&line[..line.len().min(40)]);
        // Between good lines, so that a bad one is passed over and nothing more.
        let events = [b"8 0\n", line, b"\n8 0\n"].concat();
        let expected = [GOOD, BAD, GOOD].concat();
        assert_eq!(after_creation(&events), expected, "{shown}");
        if !line.is_empty() {
            assert_eq!(after_creation(line), BAD, "{shown} without newline");
        }
    }
}

#[test]
fn bad_first_lines() {
    let zeros = "0".repeat(120);
    let inputs = [
        String::new(),
        "\n".to_string(),
        "1 2 1 100".to_string(),
        "1 2 1 100\n".to_string(),
        "1 2 1 100\n\n8 0\n".to_string(),
        "1 2 1\n3\n8 0\n".to_string(),
        "1 2 1 100 0\n3\n8 0\n".to_string(),
        " 1 2 1 100\n3\n8 0\n".to_string(),
        "1 2 1 100\r\n3\n8 0\n".to_string(),
        "1 2 1 18446744073709551616\n3\n8 0\n".to_string(),
        format!("{zeros}1 2 1 100\n3\n8 0\n"),
        "1 2 1 100\n 3\n8 0\n".to_string(),
        "1 2 1 100\n3 3\n8 0\n".to_string(),
        "1 2 2 100\n3\n8 0\n".to_string(),
        "1 2 1 100\nx\n8 0\n".to_string(),
        format!("1 2 1 100\n{zeros}3\n8 0\n"),
        "0 2 1 100\n3\n8 0\n".to_string(),
        "9 2 1 100\n3\n8 0\n".to_string(),
        "1 2 1 4294967296\n3\n8 0\n".to_string(),
        "1 2 1 100\n0\n8 0\n".to_string(),
        "1 2 1 100\n4\n8 0\n".to_string(),
        "1 2 18446744073709551615 100\n3\n8 0\n".to_string(),
        "1 2 0 100\n\n8 0\n".to_string(),
    ];
    for input in inputs {
        let output = own_output(input.as_bytes());
        assert_eq!(String::from_utf8(output).unwrap(), BAD, "{input:?}");
    }
}

#[test]
fn first_lines_of_120_bytes() {
    let first = format!("{}1 2 1 100", "0".repeat(111));
    let second = format!("{}3", "0".repeat(119));
    assert_eq!((first.len(), second.len()), (120, 120));
    let input = format!("{first}\n{second}\n8 0\n");
    assert_eq!(own_output(input.as_bytes()), GOOD.as_bytes());
}

/// One answer a line, whatever the bytes, and however small the pieces they come in.
#[test]
fn any_bytes() {
    for seed in 0..3000 {
        let random = &mut Random::new(seed);
        let letters: &[u8] = random.pick(&[b"0123456789 \n", b"0 1\n", b" \n\r\t\0-9", b"123 "]);
        let any_byte = random.in_thousand(200);
        let length = random.index(600);
        let mut bytes: Vec<u8> = Vec::new();
        if random.in_thousand(800) {
            bytes.extend(b"8 8 2 5\n255 1\n");
        }
        bytes.extend((0..length).map(|_| match any_byte {
            true => random.number() as u8,
            false => random.pick(letters),
        }));
        let output = own_output(&bytes);
        let answers = output.iter().filter(|&&byte| byte == b'\n').count();
        let ended = usize::from(bytes.last().is_some_and(|&byte| byte != b'\n'));
        let lines = bytes.iter().filter(|&&byte| byte == b'\n').count() + ended;
        assert!(
            answers == lines.saturating_sub(2) || output == BAD.as_bytes(),
            "seed {seed}"
        );
        let mut in_pieces = Vec::new();
        let small = BufReader::with_capacity(1 + random.index(9), Cursor::new(&bytes));
        second::driver::drive(small, &mut in_pieces).unwrap();
        assert_eq!(in_pieces, output, "seed {seed}");
    }
}

/// A line of 64 million bytes is skipped as it comes, not stored.
#[test]
fn a_huge_line() {
    let start: &[u8] = b"1 1 1 0\n1\n";
    let huge = std::io::repeat(b'7').take(64_000_000);
    let end: &[u8] = b"\n8 0\n";
    let mut output = Vec::new();
    second::driver::drive(BufReader::new(start.chain(huge).chain(end)), &mut output).unwrap();
    assert_eq!(output, [BAD, GOOD].concat().as_bytes());
}
