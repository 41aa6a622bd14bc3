//! The sides: the proved engine behind its C functions, where the table lies and by value, and the second program by its own.

use crate::cases::{Case, Session, NUMBERS};
use crate::clock::processor_time;
use second::answer::Answer;
use second::event::step;
use std::time::Duration;

/// crates/replay: a slice is a pointer and then a length.
pub type Replay =
    unsafe extern "C" fn(*const u8, usize, *const u8, usize, *const u64, usize) -> u64;

extern "C" {
    pub fn kerzubian_replay(
        first: *const u8,
        first_length: usize,
        second: *const u8,
        second_length: usize,
        events: *const u64,
        events_length: usize,
    ) -> u64;

    pub fn kerzubian_replay_in(
        first: *const u8,
        first_length: usize,
        second: *const u8,
        second_length: usize,
        events: *const u64,
        events_length: usize,
    ) -> u64;

    fn kerzubian_table_bytes() -> u64;
}

/// The size of the proved engine's table, which crates/replay proves to be that of its layout.
pub fn table_bytes() -> usize {
    // It asks nothing of its caller.
    unsafe { kerzubian_table_bytes() as usize }
}

/// How many sides there are.
pub const SIDES: usize = 3;
pub const SIDE_NAMES: [&str; SIDES] = ["in place", "by value", "second"];

/// The checksum of a side's answers.
type Side = fn(&Session, &[u64]) -> u64;
pub const ALL: [Side; SIDES] = [in_place, by_value, second_program];

pub fn in_place(session: &Session, numbers: &[u64]) -> u64 {
    replayed(kerzubian_replay_in, session, numbers)
}

pub fn by_value(session: &Session, numbers: &[u64]) -> u64 {
    replayed(kerzubian_replay, session, numbers)
}

pub fn replayed(replay: Replay, session: &Session, numbers: &[u64]) -> u64 {
    let (first, second) = (&session.first, &session.second);
    // Both ask nothing of their caller but three slices.
    unsafe {
        replay(
            first.as_ptr(),
            first.len(),
            second.as_ptr(),
            second.len(),
            numbers.as_ptr(),
            numbers.len(),
        )
    }
}

pub fn second_program(session: &Session, numbers: &[u64]) -> u64 {
    let mut table = session.fresh.clone();
    numbers.chunks_exact(NUMBERS).fold(0, |sum, e| {
        mix_answer(sum, step(&mut table, e[0], [e[1], e[2], e[3]]))
    })
}

/// As `mixed_with` of crates/replay.
fn mix_answer(sum: u64, answer: Answer) -> u64 {
    let Answer {
        code,
        outcome,
        host,
        block,
        value,
    } = answer;
    [code, outcome, host, block, value]
        .into_iter()
        .fold(sum, mix)
}

fn mix(sum: u64, number: u64) -> u64 {
    let low = (1 << 56) - 1;
    ((sum >> 56) + (sum & low) * 31).wrapping_add(number)
}

/// The least time of each of N sides so far.
pub struct Times<const N: usize> {
    least: [Duration; N],
}

impl<const N: usize> Default for Times<N> {
    fn default() -> Self {
        Times {
            least: [Duration::MAX; N],
        }
    }
}

impl<const N: usize> Times<N> {
    pub fn add(&mut self, times: [Duration; N]) {
        for (least, time) in self.least.iter_mut().zip(times) {
            *least = time.min(*least);
        }
    }

    /// Nanoseconds a unit of each side.
    pub fn a_unit(&self, units: usize) -> [f64; N] {
        self.least.map(|time| time.as_nanos() as f64 / units as f64)
    }
}

/// The time of a case's events on each side, that of what goes before them taken off. An error where the answers differ.
pub fn timed(case: &Case) -> Result<[Duration; SIDES], String> {
    let mut sums = [Duration::ZERO; SIDES];
    for session in &case.sessions {
        let before = each(case, session, &session.numbers[..session.before])?;
        let whole = each(case, session, &session.numbers)?;
        for i in 0..SIDES {
            sums[i] += whole[i].saturating_sub(before[i]);
        }
    }
    Ok(sums)
}

fn each(case: &Case, session: &Session, numbers: &[u64]) -> Result<[Duration; SIDES], String> {
    let answers = ALL.map(|side| {
        let began = processor_time();
        let sum = side(session, numbers);
        (sum, processor_time() - began)
    });
    let sums = answers.map(|(sum, _)| sum);
    match sums.iter().all(|sum| *sum == sums[0]) {
        true => Ok(answers.map(|(_, time)| time)),
        false => Err(format!("{}: the answers differ: {sums:?}", case.name)),
    }
}
