//! `compare` against this program's own driver, and against programs that differ.

use second::compare::{compare, other_output};
use second::generate::generate;
use std::process::Command;

fn own_driver() -> Vec<String> {
    vec![env!("CARGO_BIN_EXE_second").to_string()]
}

#[test]
fn the_same_program_agrees() {
    let agreement = compare(&own_driver(), 1, 150, 300).unwrap().unwrap();
    assert_eq!(agreement.sequences, 150);
    assert_eq!(agreement.other_status, 0);
    assert!(agreement.events > 40_000 && agreement.lines > 40_000);
}

/// More than a pipe holds, both ways.
#[test]
fn pipes_do_not_block() {
    let input = generate(2, 60_000).text();
    assert!(input.len() > 300_000);
    let (output, status_0) = other_output(&own_driver(), &input).unwrap();
    assert_eq!(output, second::compare::own_output(&input));
    assert!(status_0);
}

/// A program that goes wrong at an event of kind 6 is caught with nothing after that line.
#[test]
fn the_shortest_prefix_is_shown() {
    let driver = env!("CARGO_BIN_EXE_second");
    let script = format!("sed 's/^6 /7 /' | {driver}");
    let command = ["sh", "-c", &script].map(String::from);
    let difference = compare(&command, 1, 50, 300).unwrap().unwrap_err();
    let lines: Vec<&[u8]> = difference.input.split_inclusive(|&b| b == b'\n').collect();
    assert!(lines.last().unwrap().starts_with(b"6 "));
    assert_ne!(difference.expected, difference.found);
    let shorter = lines[..lines.len() - 1].concat();
    let (output, _) = other_output(&command, &shorter).unwrap();
    assert_eq!(output, second::compare::own_output(&shorter));
}

/// A program that reads nothing and writes nothing differs; one that isn't there is an error.
#[test]
fn silent_and_missing_programs() {
    let silent = compare(&["true".to_string()], 1, 1, 50).unwrap();
    assert_eq!(silent.unwrap_err().input, b"");
    let missing = compare(&["./no-such-program".to_string()], 1, 1, 50);
    assert!(missing.is_err());
    assert!(compare(&[], 1, 1, 50).is_err());
}

#[test]
fn commands() {
    let run = |words: &[&str]| {
        let output = Command::new(env!("CARGO_BIN_EXE_second"))
            .args(words)
            .output()
            .unwrap();
        (output.status.success(), output.stdout)
    };
    assert_eq!(
        run(&["generate", "5", "40"]),
        (true, generate(5, 40).text())
    );
    let driver = env!("CARGO_BIN_EXE_second");
    assert!(run(&["compare", driver, "--", "1", "5", "50"]).0);
    assert!(!run(&["compare", "true", "--", "1", "5", "50"]).0);
    assert!(run(&["one-copy", "1", "20"]).0);
    // Too few sequences leave situations that never came up, and that is an error.
    assert!(!run(&["count", "1", "1", "10"]).0);
    assert!(!run(&["count", "x", "1"]).0);
    assert!(!run(&["other"]).0);
}
