//! The store driver: standard input to standard output, "One session, whole".

use crate::answer::{Answer, Refusal};
use crate::event::{operand_count, step, OPERANDS};
use crate::table::Table;
use std::io::{self, BufRead, ErrorKind, Write};

/// A line "longer than 120 bytes" is bad; its newline is not counted.
pub const LINE_BYTES: usize = 120;

/// What a bad event line, bad first lines and a refused creation get: `1 0 0 0 0`.
const BAD_LINE: Refusal = Refusal::Range;

/// Reads a session and writes its answers. Memory does not grow with the input.
pub fn drive<R: BufRead, W: Write>(input: R, output: &mut W) -> io::Result<()> {
    let mut lines = Lines::new(input);
    let Some(mut table) = read_creation(&mut lines)? else {
        // "bad first lines, or a refused creation, write that once and end"
        return write_answer(output, Answer::refused(BAD_LINE));
    };
    while let Some(line) = lines.next_line()? {
        let answer = match read_event_line(line) {
            Some((kind, operands)) => step(&mut table, kind, operands),
            None => Answer::refused(BAD_LINE),
        };
        write_answer(output, answer)?;
    }
    Ok(())
}

/// "It writes a line an event: code, outcome, host, block, value."
fn write_answer<W: Write>(output: &mut W, answer: Answer) -> io::Result<()> {
    let Answer {
        code,
        outcome,
        host,
        block,
        value,
    } = answer;
    writeln!(output, "{code} {outcome} {host} {block} {value}")
}

/// "a line of hosts, chunks, blocks, age limit; a line with one number a block"
fn read_creation<R: BufRead>(lines: &mut Lines<R>) -> io::Result<Option<Table>> {
    let first = lines.next_line()?.and_then(numbers);
    let Some([hosts, chunks, blocks, age_limit]) = first.and_then(exactly) else {
        return Ok(None);
    };
    let Some(sets) = lines.next_line()?.and_then(numbers) else {
        return Ok(None);
    };
    Ok(Table::create(hosts, chunks, blocks, age_limit, &sets))
}

fn exactly<const COUNT: usize>(numbers: Vec<u64>) -> Option<[u64; COUNT]> {
    numbers.try_into().ok()
}

/// "an event a line, its number and then only its own operands"; none for a bad line.
pub fn read_event_line(line: Line) -> Option<(u64, [u64; OPERANDS])> {
    let numbers = numbers(line)?;
    let (&kind, given) = numbers.split_first()?;
    if operand_count(kind)? != given.len() {
        return None;
    }
    let mut operands = [0; OPERANDS];
    operands[..given.len()].copy_from_slice(given);
    Some((kind, operands))
}

/// "Numbers are decimal, one space apart"; none for a line that is anything else.
fn numbers(line: Line) -> Option<Vec<u64>> {
    match line {
        Line::Whole(bytes) => bytes.split(|&byte| byte == b' ').map(number).collect(),
        Line::TooLong => None,
    }
}

/// Digits alone, leading zeros allowed; none for "not a number, a number above 64 bits".
fn number(digits: &[u8]) -> Option<u64> {
    if digits.is_empty() {
        return None;
    }
    digits.iter().try_fold(0u64, |sum, byte| {
        let digit = byte.is_ascii_digit().then(|| u64::from(byte - b'0'))?;
        sum.checked_mul(10)?.checked_add(digit)
    })
}

/// A line without its newline.
#[derive(Clone, Copy, Debug, PartialEq, Eq)]
pub enum Line<'a> {
    Whole(&'a [u8]),
    TooLong,
}

/// The input's lines, of which never more than [`LINE_BYTES`] bytes are kept.
pub struct Lines<R> {
    input: R,
    kept: Vec<u8>,
}

impl<R: BufRead> Lines<R> {
    pub fn new(input: R) -> Lines<R> {
        Lines {
            input,
            kept: Vec::with_capacity(LINE_BYTES),
        }
    }

    /// The next line; none at the end. The last line may lack its newline.
    pub fn next_line(&mut self) -> io::Result<Option<Line<'_>>> {
        self.kept.clear();
        let mut too_long = false;
        let mut any_byte = false;
        loop {
            let buffer = match self.input.fill_buf() {
                Ok(buffer) => buffer,
                Err(error) if error.kind() == ErrorKind::Interrupted => continue,
                Err(error) => return Err(error),
            };
            if buffer.is_empty() {
                if !any_byte {
                    return Ok(None);
                }
                break;
            }
            any_byte = true;
            let newline = buffer.iter().position(|&byte| byte == b'\n');
            let part = &buffer[..newline.unwrap_or(buffer.len())];
            let room = LINE_BYTES - self.kept.len();
            too_long |= part.len() > room;
            self.kept.extend_from_slice(&part[..part.len().min(room)]);
            let used = part.len() + usize::from(newline.is_some());
            self.input.consume(used);
            if newline.is_some() {
                break;
            }
        }
        Ok(Some(match too_long {
            true => Line::TooLong,
            false => Line::Whole(&self.kept),
        }))
    }
}
