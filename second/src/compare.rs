//! Another driver against this one, byte for byte, over generated sequences.

use crate::driver::drive;
use crate::generate::generate;
use std::io::{self, Read, Write};
use std::process::{Command, Stdio};
use std::thread;

/// What was compared and agreed.
#[derive(Clone, Copy, Debug, Default, PartialEq, Eq)]
pub struct Agreement {
    pub sequences: u64,
    /// Input lines after the first two.
    pub events: u64,
    /// Output lines.
    pub lines: u64,
    /// Sequences after which the other program did not end with status 0.
    pub other_status: u64,
}

/// The first difference: its seed and the shortest prefix of the input that shows it.
#[derive(Clone, Debug, PartialEq, Eq)]
pub struct Difference {
    pub seed: u64,
    pub input: Vec<u8>,
    pub expected: Vec<u8>,
    pub found: Vec<u8>,
}

/// This program's own output for an input.
pub fn own_output(input: &[u8]) -> Vec<u8> {
    let mut output = Vec::new();
    drive(input, &mut output).expect("memory neither fails to be read nor to be written");
    output
}

/// The other program's output, and whether it ended with status 0.
pub fn other_output(command: &[String], input: &[u8]) -> io::Result<(Vec<u8>, bool)> {
    let (program, arguments) = command
        .split_first()
        .ok_or_else(|| io::Error::new(io::ErrorKind::InvalidInput, "no program is named"))?;
    let mut child = Command::new(program)
        .args(arguments)
        .stdin(Stdio::piped())
        .stdout(Stdio::piped())
        .spawn()?;
    let stdin = child.stdin.take();
    let stdout = child.stdout.take();
    let mut output = Vec::new();
    // One thread writes while this one reads, so that neither pipe can fill and block both.
    thread::scope(|scope| {
        scope.spawn(move || {
            if let Some(mut stdin) = stdin {
                // A program that has ended reads no more; its output shows whether it should have.
                let _ = stdin.write_all(input);
            }
        });
        match stdout {
            Some(mut stdout) => stdout.read_to_end(&mut output),
            None => Ok(0),
        }
    })?;
    let status = child.wait()?;
    Ok((output, status.success()))
}

/// Compares on so many sequences; the inner error is the first difference.
pub fn compare(
    command: &[String],
    first_seed: u64,
    sequences: u64,
    events: usize,
) -> io::Result<Result<Agreement, Difference>> {
    let mut agreement = Agreement::default();
    for seed in (0..sequences).map(|number| first_seed.wrapping_add(number)) {
        let sequence = generate(seed, events);
        let input = sequence.text();
        let expected = own_output(&input);
        let (found, status_0) = other_output(command, &input)?;
        if found != expected {
            return shortest_difference(command, seed, &input).map(Err);
        }
        agreement.sequences += 1;
        agreement.events += sequence.lines.len() as u64;
        agreement.lines += newlines(&expected) as u64;
        agreement.other_status += u64::from(!status_0);
    }
    Ok(Ok(agreement))
}

fn newlines(text: &[u8]) -> usize {
    text.iter().filter(|&&byte| byte == b'\n').count()
}

/// The prefixes by whole lines are tried from the shortest on; the last one is the whole input.
fn shortest_difference(command: &[String], seed: u64, input: &[u8]) -> io::Result<Difference> {
    let mut end = 0;
    loop {
        let prefix = &input[..end];
        let expected = own_output(prefix);
        let (found, _) = other_output(command, prefix)?;
        if found != expected || end == input.len() {
            return Ok(Difference {
                seed,
                input: prefix.to_vec(),
                expected,
                found,
            });
        }
        let newline = input[end..].iter().position(|&byte| byte == b'\n');
        end = newline.map_or(input.len(), |at| end + at + 1);
    }
}
