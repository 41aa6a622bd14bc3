//! The two drivers as programs, on the same input file.

use crate::cases::Session;
use std::fs::{self, File};
use std::process::{Command, Stdio};
use std::time::{Duration, Instant};

/// From the root of the repository, where `bench/run` stands.
const PROVED: &str = ".ci/driver";
const SECOND: &str = "second/target/release/second";
const INPUT: &str = "bench/target/session.in";

/// The time that a session's events take in each, that of what goes before them taken off.
pub fn timed(session: &Session) -> Result<[Duration; 2], String> {
    let [a0, b0] = both(&session.text(&session.numbers[..session.before]))?;
    let [a1, b1] = both(&session.text(&session.numbers))?;
    Ok([a1.saturating_sub(a0), b1.saturating_sub(b0)])
}

/// An error where they write different things.
fn both(input: &[u8]) -> Result<[Duration; 2], String> {
    fs::write(INPUT, input).map_err(|error| format!("{INPUT}: {error}"))?;
    let (proved, a) = run(PROVED)?;
    let (second, b) = run(SECOND)?;
    match proved == second {
        true => Ok([a, b]),
        false => Err("the drivers write different things".to_string()),
    }
}

fn run(program: &str) -> Result<(Vec<u8>, Duration), String> {
    let in_words = |error: std::io::Error| format!("{program}: {error}");
    let input = File::open(INPUT).map_err(in_words)?;
    let began = Instant::now();
    let output = Command::new(program)
        .stdin(input)
        .stderr(Stdio::inherit())
        .output();
    let took = began.elapsed();
    Ok((output.map_err(in_words)?.stdout, took))
}
